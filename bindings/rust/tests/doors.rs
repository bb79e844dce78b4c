//! The doors through the safe types: 01's samples and false friends.

use std::error::Error;
use std::thread;

use tokenmarsh::{
    Forward, Mask, NodeWord, Pattern, Refusal, Refused, Reverse, Token, literals, literals_strict, raw, read,
    read_strict,
};

/// The longest jump that is compiled.
const LONGEST: usize = 65535;

/// A node word by its kind and fields.
fn word(kind: NodeWord, first: usize, second: usize) -> NodeWord {
    kind + ((first as NodeWord) << 8) + ((second as NodeWord) << 24)
}

fn refusal(text: &str) -> (u32, usize) {
    let Refused { refusal, place, .. } = read(text.as_bytes()).expect_err(text);
    (refusal.number().unwrap(), place)
}

#[test]
fn refusals_of_texts_have_their_places() {
    for (text, expected) in [
        ("{ AB [0] CD }", (4, 5)),
        ("{ [5] AB }", (6, 2)),
        ("{ AB (CD [201] EF) }", (8, 9)),
        ("{ ~?? }", (9, 2)),
        ("{ ??? }", (2, 4)),
        ("{ AB [2-3] [x }", (6, 2)),
        ("{ AB [x }", (2, 5)),
        ("{ (AB|) }", (2, 5)),
        ("{ AB [4294967296] CD }", (3, 6)),
        ("", (2, 0)),
    ] {
        assert_eq!(refusal(text), expected, "{text}");
    }
    assert_eq!(refusal(&" ".repeat(4097)), (1, 0));
}

#[test]
fn tokens_are_nested() {
    let r = read(b"{ AB ~?c [4-] ( 01 | 2? [1] ) 03 } zz").unwrap();
    assert_eq!(r.reached, 35);
    assert_eq!(
        r.tokens,
        [
            Token::Byte(0xAB),
            Token::NotMaskedByte(0xC, Mask::Left),
            Token::Jump { from: 4, to: None },
            Token::Alternatives(vec![
                vec![Token::Byte(1)],
                vec![Token::MaskedByte(2, Mask::Right), Token::MaskedByte(0, Mask::All)],
            ]),
            Token::Byte(3),
        ]
    );
}

#[test]
fn programs_are_those_of_the_samples() {
    let forward = |text: &[u8]| Pattern::compile(text).unwrap().forward.words().to_vec();
    assert_eq!(forward(b"{ A? }"), [0xF000_A001]);
    assert_eq!(forward(b"{ AB [256-65535] CD }"), [0xAB00, word(4, 256, LONGEST), 0xCD00]);
    // Between AB and CD, what jumps become forward and in reverse.
    for (jumps, ahead, behind) in [
        ("[100] [200] [50] [100]", vec![450], vec![450]),
        ("[25000] [50000] [12000] [25000]", vec![25000, 62000, 25000], vec![37000, 50000, 25000]),
        ("[256]", vec![256], vec![256]),
        ("[65535]", vec![LONGEST], vec![LONGEST]),
        ("[65534] ??", vec![LONGEST], vec![LONGEST]),
        ("[65535] ??", vec![LONGEST, 1], vec![1, LONGEST]),
    ] {
        let pattern = Pattern::compile(format!("{{ AB {jumps} CD }}").as_bytes()).unwrap();
        let nodes = |lengths: &[usize]| lengths.iter().map(|n| word(3, *n, 0)).collect::<Vec<_>>();
        assert_eq!(pattern.forward.words(), [vec![0xAB00], nodes(&ahead), vec![0xCD00]].concat(), "{jumps}");
        assert_eq!(pattern.reverse.words(), [vec![0xCD00], nodes(&behind), vec![0xAB00]].concat(), "{jumps}");
    }
    for jump in ["[65536]", "[0-65536]", "[4294967295]", "[65535-]", "[-]"] {
        let refused = Pattern::compile(format!("{{ AB {jump} CD }}").as_bytes()).unwrap_err();
        assert_eq!(refused.refusal, Refusal::NotSimple, "{jump}");
    }
}

#[test]
fn fields_have_their_width() {
    // A word between two bytes, and so much between these: forward and by the mirror.
    let fits = |word: NodeWord, gap: usize| {
        let forward = Forward::new(&[0x4200, word, 0x4100]).unwrap();
        let window = [&b"B"[..], &vec![0; gap], b"A"].concat();
        let (end, start) = (forward.end(&window), forward.mirror().start(&window));
        assert_eq!(end.map(|_| 0), start, "{word:X} {gap}");
        assert!(end.map_or(true, |end| end == window.len()), "{word:X} {gap}");
        end.is_some()
    };
    for gap in [0, 1, 2, 3, 44, 255, 256, 300, 301, LONGEST - 1, LONGEST, LONGEST + 1] {
        assert_eq!(fits(word(4, 1, 2), gap), (1..=2).contains(&gap), "{gap}");
        assert_eq!(fits(word(4, 256, 300), gap), (256..=300).contains(&gap), "{gap}");
        assert_eq!(fits(word(4, 0, LONGEST), gap), gap <= LONGEST, "{gap}");
        assert_eq!(fits(word(3, 300, 0), gap), gap == 300, "{gap}");
        assert_eq!(fits(word(3, LONGEST, 0), gap), gap == LONGEST, "{gap}");
    }
}

#[test]
fn lengths_do_not_overflow() {
    // The most that a program can ask for, in as many bytes, one fewer, and as many as 8 and 16 bits of their number say.
    let forward = Forward::new(&[word(3, LONGEST, 0); 512]).unwrap();
    let reverse = forward.mirror();
    let window = vec![0; 512 * LONGEST];
    assert_eq!((forward.end(&window), reverse.start(&window)), (Some(window.len()), Some(0)));
    for length in [window.len() - 1, window.len() & 255, window.len() & 65535] {
        assert_eq!((forward.end(&window[..length]), reverse.start(&window[..length])), (None, None), "{length}");
    }
}

#[test]
fn the_first_choice_is_found() {
    let end = |text: &[u8], window: &[u8]| Pattern::compile(text).unwrap().forward.end(window);
    assert_eq!(end(b"{ (61|61 62) 63 }", b"abc"), Some(3));
    assert_eq!(end(b"{ (61 62|61) }", b"ab"), Some(2));
    let friend = Pattern::compile(b"{ (61|62 61) }").unwrap();
    assert_eq!(friend.reverse.start(b"ba"), Some(1));
    assert_eq!(friend.forward.mirror().start(b"ba"), Some(1));
}

#[test]
fn a_jump_takes_its_top() {
    let pattern = Pattern::compile(b"{ F4 [4-16] B4 }").unwrap();
    for gap in 0..20 {
        let mut bytes = vec![0u8; gap + 2];
        bytes[0] = 0xF4;
        bytes[gap + 1] = 0xB4;
        let expected = (4..=16).contains(&gap);
        assert_eq!(pattern.forward.end(&bytes).is_some(), expected, "{gap}");
        assert_eq!(pattern.reverse.start(&bytes).is_some(), expected, "{gap}");
    }
}

#[test]
fn the_tail_is_the_callers_own() {
    let pattern = Pattern::compile(b"{ 61 [0-2] 63 }").unwrap();
    let window = b"abcde";
    let tail = pattern.forward.tail(window).unwrap();
    assert_eq!(tail, b"de");
    assert!(window.as_ptr_range().contains(&tail.as_ptr()));
    // Where it starts is not the count of words.
    assert_eq!(pattern.forward.tail(b"acde"), Some(&b"de"[..]));
}

#[test]
fn a_tail_tells_no_match_from_an_empty_one() {
    let forward = Pattern::compile(b"{ 61 62 }").unwrap().forward;
    assert_eq!(forward.tail(b"ab"), Some(&b""[..]));
    for window in [&b"a"[..], b"xab", b""] {
        assert_eq!(forward.tail(window), None);
    }
}

#[test]
fn what_follows_is_told_and_refused_by_the_strict_ways() {
    let text = b"{ 4D 5A } 90 00 }";
    let plain = (read(text).unwrap().reached, Pattern::compile(text).unwrap().reached, literals(text).unwrap().reached);
    assert_eq!(plain, (10, 10, 10));
    for refused in
        [read_strict(text).unwrap_err(), Pattern::compile_strict(text).unwrap_err(), literals_strict(text).unwrap_err()]
    {
        assert_eq!((refused.refusal, refused.place, refused.refusal.number()), (Refusal::Leftover, 10, None));
    }
    // Blanks may follow.
    let text = b"{ 4D 5A } \t\r\n";
    assert_eq!(read_strict(text), read(text));
    assert_eq!(Pattern::compile_strict(text), Pattern::compile(text));
    assert_eq!(literals_strict(text), literals(text));
    assert_eq!(read(text).unwrap().reached, 13);
}

#[test]
fn much_is_refused() {
    let text = vec![b'4'; 10 << 20];
    assert_eq!(read(&text).unwrap_err().refusal, Refusal::TextTooLong);
    assert_eq!(Pattern::compile(&text).unwrap_err().refusal, Refusal::TextTooLong);
    assert_eq!(literals(&text).unwrap_err().refusal, Refusal::TextTooLong);
    assert_eq!(Forward::new(&[0; 4096]), Err(Refusal::TooManyNodes));
    assert_eq!(Reverse::new(&[7; 4096]), Err(Refusal::TooManyNodes));
}

#[test]
fn eight_threads_at_once() {
    let work = |k: usize| {
        for _ in 0..100 {
            let pattern = Pattern::compile(format!("{{ {k:02X} [{}] 63 }}", k + 2).as_bytes()).unwrap();
            let window = [vec![k as u8], vec![0; k + 2], vec![0x63]].concat();
            assert_eq!(pattern.forward.end(&window), Some(k + 4));
            assert_eq!(literals(format!("{{ ({}41) }}", "41|".repeat(k)).as_bytes()).unwrap().literals.len(), k + 1);
            assert_eq!(refusal(&format!("{{ {}g }}", "41 ".repeat(k))), (2, 3 * k + 2));
        }
    };
    thread::scope(|all| (0..8).for_each(|k| drop(all.spawn(move || work(k)))));
}

/// What refuses these words: as a value of this crate, and where they are only lent. If nothing does, then nothing refuses their mirror, whose own
/// mirror they are.
fn refused(words: &[NodeWord]) -> Option<Refusal> {
    let refusal = Forward::new(words).err();
    assert_eq!(refusal, Reverse::new(words).err());
    let (program, count, mut pool) = (words.as_ptr(), words.len(), [0; 512]);
    // SAFETY: the slices are good for their lengths, and the pool is none of the others.
    let (numbers, sound) = unsafe {
        let numbers = [
            raw::tm_forward(program, count, [].as_ptr(), 0, 0, 0).refusal,
            raw::tm_reverse(program, count, [].as_ptr(), 0, 0, 0).refusal,
            raw::tm_mirror(program, count, pool.as_mut_ptr(), pool.len()).refusal,
        ];
        (numbers, raw::tm_sound(program, count))
    };
    assert_eq!(numbers, [refusal.map_or(0, |refusal| refusal.number().unwrap()); 3], "{words:X?}");
    assert_eq!(sound, u32::from(refusal.is_none()), "{words:X?}");
    if let Ok(forward) = Forward::new(words) {
        let mirror = forward.mirror();
        assert_eq!(Reverse::new(mirror.words()), Ok(mirror.clone()), "{words:X?}");
        assert_eq!(mirror.mirror(), forward);
    }
    refusal
}

#[test]
fn unsound_words_make_no_program() {
    assert_eq!(refused(&[7]), Some(Refusal::Unsound));
    assert_eq!(refused(&[word(4, 2, 1)]), Some(Refusal::Unsound));
    assert_eq!(refused(&[NodeWord::MAX]), Some(Refusal::Unsound));
    // All above the fields.
    for bit in 40..64 {
        assert_eq!(refused(&[0x4100 + (1 << bit)]), Some(Refusal::Unsound), "{bit}");
    }
    // The second field begins at 2^24, and not at 2^16.
    assert_eq!(refused(&[word(4, 1, 2)]), None);
    assert_eq!(refused(&[4 + 256 + 2 * 65536]), Some(Refusal::Unsound));
    // Values and masks are bytes.
    for (kind, first, second) in [(0, 256, 0), (1, 256, 255), (1, 0, 256), (2, 256, 255), (2, 0, 256)] {
        assert_eq!(refused(&[word(kind, first, second)]), Some(Refusal::Unsound), "{kind} {first} {second}");
    }
    // A branch has at most 255 words. An alternation may count more, and in its first field alone.
    let branch = |count: usize| [vec![word(7, count, 0)], vec![0x4100; count]].concat();
    let alternation = |branches: &[NodeWord]| [&[word(6, branches.len(), 0)], branches].concat();
    assert_eq!(refused(&alternation(&branch(255))), None);
    assert_eq!(refused(&alternation(&branch(256))), Some(Refusal::Unsound));
    assert_eq!(refused(&alternation(&[branch(255), branch(254)].concat())), None);
    assert_eq!(refused(&[word(6, 2, 1), word(7, 1, 0), 0x4100]), Some(Refusal::Unsound));
    assert_eq!(refused(&[word(7, 1, 0), 0x4100]), Some(Refusal::Unsound));
    assert_eq!(refused(&[7; 513]), Some(Refusal::TooManyNodes));
    assert_eq!(refused(&[0; 512]), None);
    assert_eq!(refused(&[]), None);
}

/// Programs with a node as the only one, then as the first, the middle and the last of three: of a program, and of each branch of three.
fn placed(node: NodeWord) -> (Vec<Vec<NodeWord>>, Vec<Vec<NodeWord>>) {
    let at = |k: usize| {
        let mut three = vec![0x4100; 3];
        three[k] = node;
        three
    };
    let branch = |nodes: Vec<NodeWord>| [vec![word(7, 3, 0)], nodes].concat();
    let mut inside = Vec::new();
    for b in 0..3 {
        for k in 0..3 {
            let mut branches = vec![branch(vec![0x4200; 3]); 3];
            branches[b] = branch(at(k));
            inside.push([vec![0x4300, word(6, 12, 0)], branches.concat(), vec![0x4400]].concat());
        }
    }
    ([vec![vec![node]], (0..3).map(at).collect()].concat(), inside)
}

#[test]
fn nodes_that_cannot_have_been_meant_are_unsound() {
    let bits = || (0..8).map(|bit| 1 << bit);
    // Each value that has one bit outside its mask, and a jump of 0.
    let masks = |kind| bits().flat_map(move |bit| [(kind, bit, 0), (kind, bit, 255 - bit), (kind, 255, 255 - bit)]);
    for (kind, first, second) in masks(1).chain(masks(2)).chain([(3, 0, 0)]) {
        let (outside, inside) = placed(word(kind, first, second));
        for program in [outside, inside].concat() {
            assert_eq!(refused(&program), Some(Refusal::Unsound), "{program:X?}");
        }
    }
    // A branch without nodes: the only one, and the first, the middle, the last and all of three, before, between and after other items.
    assert_eq!(refused(&[word(6, 1, 0), 7]), Some(Refusal::Unsound));
    for full in 0..8 {
        let one = |k: usize| if full >> k & 1 == 1 { vec![word(7, 1, 0), 0x4100] } else { vec![7] };
        let branches = [one(0), one(1), one(2)].concat();
        let alternation = [vec![word(6, branches.len(), 0)], branches].concat();
        for before in 0..3 {
            let program = [vec![0x4200; before], alternation.clone(), vec![0x4300; 2 - before]].concat();
            assert_eq!(refused(&program), (full != 7).then_some(Refusal::Unsound), "{program:X?}");
        }
    }
}

#[test]
fn what_stands_next_to_these_stays_sound() {
    // A value that is its mask, that is under it, that is 0, and nothing at all; the shortest jump; what merely has a 0.
    let masks = |kind| (0..8).flat_map(move |bit| [1 << bit, 255].map(|mask| (kind, 1 << bit, mask)));
    let zeros = [(1, 0, 0), (2, 0, 0), (1, 0, 15), (2, 0, 15), (3, 1, 0), (3, 256, 0), (0, 0, 0), (5, 0, 0)];
    for (kind, first, second) in masks(1).chain(masks(2)).chain(zeros) {
        let (outside, inside) = placed(word(kind, first, second));
        for program in [outside, inside].concat() {
            assert_eq!(refused(&program), None, "{program:X?}");
        }
    }
    // A range of 0 to 0 is one, and stands in no branch.
    let (outside, inside) = placed(word(4, 0, 0));
    assert!(outside.iter().all(|program| refused(program).is_none()));
    assert!(inside.iter().all(|program| refused(program) == Some(Refusal::Unsound)));
    // They mean what they meant.
    for byte in [0, 1, 0x41, 0xFF] {
        let end = |words: &[NodeWord]| Forward::new(words).unwrap().end(&[byte, byte]);
        assert_eq!(end(&[word(1, 0, 0)]), Some(1), "{byte}");
        assert_eq!(end(&[word(2, 0, 0)]), None, "{byte}");
        assert_eq!(end(&[word(4, 0, 0)]), Some(0), "{byte}");
    }
}

#[test]
fn a_window_comes_before_the_count_and_that_before_the_words() {
    for unsound in [vec![word(1, 1, 0)], vec![word(2, 1, 0)], vec![3], vec![word(6, 1, 0), 7]] {
        for (count, due) in [(512, 15), (513, 13)] {
            let mut words = unsound.clone();
            words.resize(count, 0x4100);
            let (program, bytes, mut pool) = (words.as_ptr(), [0x41; 4], [0; 512]);
            // SAFETY: the slices are good for their lengths, and the pool is none of the others.
            let mut numbers = |start, end, room| unsafe {
                (
                    raw::tm_forward(program, count, bytes.as_ptr(), bytes.len(), start, end).refusal,
                    raw::tm_reverse(program, count, bytes.as_ptr(), bytes.len(), start, end).refusal,
                    raw::tm_mirror(program, count, pool.as_mut_ptr(), room).refusal,
                )
            };
            assert_eq!(numbers(1, 3, 512), (due, due, due));
            assert_eq!(numbers(3, 1, 511), (16, 16, 18));
            assert_eq!(numbers(1, 5, 0), (16, 16, 18));
        }
    }
}

#[test]
fn compiled_programs_and_their_mirrors_are_sound() {
    let digits = (0..16).flat_map(|digit| [format!("?{digit:X}"), format!("{digit:X}?")]);
    let masks: Vec<String> = digits.flat_map(|mask| [format!("~{mask}"), mask]).collect();
    let bytes: Vec<String> = (0..256).map(|byte| format!("{byte:02X} ~{byte:02X}")).collect();
    let mut texts: Vec<String> = masks
        .iter()
        .chain(&bytes)
        .flat_map(|one| [one.clone(), format!("({one})"), format!("41 {one} ({one} | ?? | {one})")])
        .collect();
    texts.extend(
        [
            "??",
            "[1]",
            "[1-1]",
            "(??)",
            "?? (?? | ??) ??",
            "41 [2] 42",
            "41 [0-1] 42",
            "41 [-65535] [65535] [65535] ?? 42",
            "(41 [200] [200] 42 | 43)",
            "[1] (41 [1] [2] 42) [0-2] (43) [3-3] 44",
        ]
        .map(String::from),
    );
    // All of a program, and all of a branch.
    texts.extend(["~?0 ".repeat(512), "(41)".repeat(170), format!("({})", "~0? ".repeat(255))]);
    for text in texts {
        let pattern = Pattern::compile(format!("{{ {text} }}").as_bytes()).expect(&text);
        assert_eq!((refused(pattern.forward.words()), refused(pattern.reverse.words())), (None, None), "{text}");
    }
}

#[test]
fn the_empty_program_fits_no_bytes() {
    let forward = Forward::new(&[]).unwrap();
    assert_eq!((forward.end(b""), forward.end(b"ab")), (Some(0), Some(0)));
    assert_eq!((forward.tail(b""), forward.tail(b"ab")), (Some(&b""[..]), Some(&b"ab"[..])));
    let reverse = forward.mirror();
    assert_eq!((reverse.start(b""), reverse.start(b"ab")), (Some(0), Some(2)));
    assert_eq!(reverse.mirror(), forward);
}

#[test]
fn any_bytes_are_a_text() {
    for text in [&b"\xFF\xFE"[..], b"{ \x80 }", b"{ 41\0 }", &[0; 4096]] {
        assert_eq!(read(text).unwrap_err().refusal, Refusal::Unexpected);
        assert_eq!(Pattern::compile(text).unwrap_err(), read(text).unwrap_err());
        assert_eq!(literals(text).unwrap_err(), read(text).unwrap_err());
    }
    assert_eq!(read(b"{ 41 }\xFF").unwrap().reached, 6);
}

#[test]
fn refusals_are_errors() {
    fn words(words: &[NodeWord]) -> Result<Forward, Box<dyn Error>> {
        Ok(Forward::new(words)?)
    }
    fn text(text: &[u8]) -> Result<Pattern, Box<dyn Error>> {
        Ok(Pattern::compile(text)?)
    }
    assert_eq!(words(&[7]).unwrap_err().to_string(), "unsound program");
    assert_eq!(text(b"{ AB [0] CD }").unwrap_err().to_string(), "refused 4 at 5: an empty jump: found [0]");
    for number in 1..20 {
        assert_eq!(Refusal::from_number(number).and_then(Refusal::number), Some(number));
    }
}

#[test]
fn literals_are_those_of_the_samples() {
    let picked = literals(b"{ 01 02 ?3 04 }").unwrap();
    assert_eq!((picked.rank, picked.literals.len()), (70, 16));
    assert_eq!(picked.literals[0], [1, 2, 0x03, 4]);
    assert_eq!(picked.literals[15], [1, 2, 0xF3, 4]);
    let picked = literals(b"{ ?1 (AA | BB CC) }").unwrap();
    assert_eq!((picked.rank, picked.literals.len()), (30, 32));
    assert!(picked.literals[..16].iter().all(|l| l.len() == 2 && l[1] == 0xAA));
    assert_eq!(literals(b"{ (AA|BB) }").unwrap().literals, [[0xAA], [0xBB]]);
    // More bytes than there can be literals.
    let branches: Vec<String> = (0..200).map(|n| format!("{n:02X} 41")).collect();
    let picked = literals(format!("{{ ({}) }}", branches.join("|")).as_bytes()).unwrap();
    assert_eq!(picked.literals, (0..200).map(|n| vec![n, 0x41]).collect::<Vec<_>>());
    // A match may hold nothing worth a search.
    assert_eq!(literals(b"{ ?? }").unwrap().literals, Vec::<Vec<u8>>::new());
}

#[test]
fn literals_are_refused_by_their_own_numbers() {
    let refused = |text: &str| literals(text.as_bytes()).map_err(|r| (r.refusal, r.place)).unwrap_err();
    assert_eq!(refused("{ (41|??) }"), (Refusal::NotPlain, 0));
    assert_eq!(refused(&format!("{{ ({}41) }}", "41|".repeat(256))), (Refusal::TooManyLiterals, 0));
    assert_eq!(refused("{ AB [0] CD }"), (Refusal::JumpEmpty, 5));
    // What is not simple may still have literals.
    assert_eq!(literals(b"{ 41 [65536] 42 43 }").unwrap().literals, [[0x42, 0x43]]);
}

#[test]
fn windows_are_tested_where_they_are_numbers() {
    let check = |start, end| {
        let bytes = [0u8; 4];
        // SAFETY: the slice is good for its length; the empty program has no words.
        unsafe { raw::tm_forward([].as_ptr(), 0, bytes.as_ptr(), bytes.len(), start, end) }.refusal
    };
    assert_eq!(check(0, 4), 0);
    assert_eq!(check(4, 4), 0);
    for (start, end) in [(1, 0), (0, 5), (usize::MAX, usize::MAX), (usize::MAX, 0)] {
        assert_eq!(check(start, end), 16, "{start} {end}");
    }
}
