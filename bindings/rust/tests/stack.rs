//! How much stack a thread needs, as the crate's first page says: what takes the most of it is tried on a thread that has no more.

use std::thread;

use tokenmarsh::{Forward, Pattern, Refusal, literals};

const ENOUGH: usize = 128 * 1024;

#[test]
fn a_small_thread_is_enough() {
    let calls = || {
        // Ranges of 0 to 0: no program recurses deeper. And as many alternations as there can be, each of which takes more.
        let ranges = Forward::new(&[0x0004; 512]).unwrap();
        let alternations = Forward::new(&[0x0206, 0x0107, 0x4100].repeat(170)).unwrap();
        let bytes = [0x41; 172];
        let ends = [&ranges, &alternations].map(|program| (program.end(&bytes), program.mirror().start(&bytes)));
        let deep = Pattern::compile(b"{ ((((((((41)))))))) }").unwrap_err().refusal;
        (ends, deep, literals(format!("{{ {} }}", "(41|42)".repeat(170)).as_bytes()).is_ok())
    };
    let answers = thread::Builder::new().stack_size(ENOUGH).spawn(calls).unwrap().join().unwrap();
    assert_eq!(answers, ([(Some(0), Some(172)), (Some(170), Some(2))], Refusal::HexStringTooDeep, true));
}
