//! What a refusal says: its meaning is the header's, and its message that of bindings/messages.tsv, as in Python.

use std::fs;

use tokenmarsh::{Pattern, Refusal, Refused, literals, read};

fn file(path: &str) -> String {
    fs::read_to_string(format!("{}/../../{path}", env!("CARGO_MANIFEST_DIR"))).expect(path)
}

/// The meanings of the header's table, in its order: each row's first words, up to a colon, a semicolon, a parenthesis or the column of places.
fn meanings() -> Vec<String> {
    let mut rows: Vec<String> = Vec::new();
    for line in file("include/tokenmarsh.h").lines().take_while(|line| *line != " */") {
        let cells = line.trim_start_matches(" *");
        let words = cells.trim_start().split("  ").next().unwrap();
        // A number stands up to the fifth column, and words go on in the seventh.
        if cells.get(..5).map_or(false, |number| number.trim() == (rows.len() + 1).to_string()) {
            rows.push(cells[5..].trim_start().split("  ").next().unwrap().into());
        } else if cells.starts_with("       ") && !cells.starts_with("        ") {
            rows.last_mut().unwrap().push_str(&format!(" {words}"));
        }
    }
    rows.iter().map(|row| row.split(|sign| ":;(".contains(sign)).next().unwrap().trim_end().into()).collect()
}

#[test]
fn meanings_are_the_headers() {
    let ours: Vec<String> = (1..20).map(|number| Refusal::from_number(number).unwrap().to_string()).collect();
    assert_eq!(ours, meanings());
    assert_eq!((Refusal::from_number(0), Refusal::from_number(20)), (None, None));
}

/// A pattern as the table writes it.
fn pattern(written: &str) -> Vec<u8> {
    let mut text = Vec::new();
    let mut rest = written;
    while let Some(sign) = rest.chars().next() {
        let (bytes, after) = if let Some(some) = rest.strip_prefix('<') {
            let (repeated, after) = some.split_once('>').unwrap();
            let (one, count) = repeated.split_once('*').unwrap();
            (pattern(one).repeat(count.parse().unwrap()), after)
        } else if let Some(hex) = rest.strip_prefix("\\x") {
            (vec![u8::from_str_radix(&hex[..2], 16).unwrap()], &hex[2..])
        } else if let Some(after) = rest.strip_prefix("\\n") {
            (vec![b'\n'], after)
        } else {
            (vec![sign as u8], &rest[1..])
        };
        text.extend(bytes);
        rest = after;
    }
    text
}

fn answer(door: &str, written: &str) -> Result<(), Refused> {
    let text = pattern(written);
    match door {
        "read" => read(&text).map(|_| ()),
        "compile" => Pattern::compile(&text).map(|_| ()),
        "literals" => literals(&text).map(|_| ()),
        "strict" => Pattern::compile_strict(&text).map(|_| ()),
        _ => panic!("{door}"),
    }
}

#[test]
fn messages_are_those_of_the_table() {
    let table = file("bindings/messages.tsv");
    let mut numbers = Vec::new();
    for row in table.lines().filter(|line| !line.starts_with('#')) {
        let cells: Vec<&str> = row.split('\t').collect();
        let refused = answer(cells[0], cells[1]).expect_err(row);
        assert_eq!(refused.to_string(), cells[2], "{row}");
        // What a token's place says of 12 and 19 stands in the words as well.
        let at = refused.token.map(|token| format!(" at {token}"));
        assert_eq!(at.is_some(), [Refusal::NotSimple, Refusal::NotPlain].contains(&refused.refusal), "{row}");
        assert!(cells[2].contains(at.as_deref().unwrap_or("")), "{row}");
        if let Some(mended) = cells.get(3) {
            assert_eq!(answer(cells[0], mended), Ok(()), "{row}");
        }
        numbers.push(refused.refusal.number());
    }
    // Those that no text has are 15, 16 and 18.
    for number in (1..20).filter(|number| ![15, 16, 18].contains(number)) {
        assert!(numbers.contains(&Some(number)), "no row with {number}");
    }
    assert!(numbers.contains(&None));
}
