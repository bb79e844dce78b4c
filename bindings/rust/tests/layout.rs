//! Where each field of an answer stands, held to the table that bindings/c/layout.c prints from the header.

use std::fs;
use std::mem::{size_of, size_of_val};

use tokenmarsh::raw::{CheckResult, CompileResult, LiteralsResult, MirrorResult, ReadResult, TailResult};

/// The lines of one struct. A value is made by naming every field, so that a field left out here does not compile.
macro_rules! lines {
    ($name:literal, $type:ident { $($field:ident),* }) => {{
        let one = $type { $($field: 0),* };
        let start = &one as *const $type as usize;
        let mut lines = format!("{} {}\n", $name, size_of::<$type>());
        $(
            let offset = &one.$field as *const _ as usize - start;
            lines += &format!("{} {} {} {}\n", $name, stringify!($field), offset, size_of_val(&one.$field));
        )*
        lines
    }};
}

#[test]
fn fields_stand_where_the_header_has_them() {
    let path = concat!(env!("CARGO_MANIFEST_DIR"), "/../../target/bindings/layout.txt");
    let table = fs::read_to_string(path).expect("the table that bindings/c/layout.c prints, laid down by `make test`");
    let ours = [
        lines!("tm_read_result", ReadResult { refusal, place, reached, words }),
        lines!("tm_compile_result", CompileResult { refusal, place, reached, forward, reverse }),
        lines!("tm_literals_result", LiteralsResult { refusal, rank, place, reached, count }),
        lines!("tm_check_result", CheckResult { refusal, found, offset }),
        lines!("tm_tail_result", TailResult { offset, length }),
        lines!("tm_mirror_result", MirrorResult { refusal, words }),
    ];
    assert_eq!(ours.concat(), table);
}
