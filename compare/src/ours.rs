//! The library as a side, through the C functions of include/tokenmarsh.h. Each call lends buffers with
//! a known filling and a margin, and holds the answer to what document 01 says of their content.

use crate::sides::Side;

/// Functions that the archive does not have stay absent.
pub fn side() -> Side {
    // An archive from before would take each word of a program for two of its own.
    // The call takes nothing.
    #[cfg(tm_version)]
    assert!(unsafe { crate::raw::tm_version() } >= 1024, "0.4.0 refuses what Req 08 names");
    Side {
        name: "ours",
        #[cfg(tm_read)]
        read: Some(doors::read),
        #[cfg(tm_compile)]
        compile: Some(doors::compile),
        #[cfg(tm_literals)]
        literals: Some(doors::literals),
        #[cfg(tm_sound)]
        sound: Some(doors::sound),
        #[cfg(tm_mirror)]
        mirror: Some(doors::mirror),
        #[cfg(tm_forward)]
        forward: Some(doors::forward),
        #[cfg(tm_reverse)]
        reverse: Some(doors::reverse),
        ..Side::default()
    }
}

/// Whether each door that is there refuses short buffers by 18, before all else where it is lent
/// pools and after all else where it is lent room for literals, and then changes nothing.
pub fn rooms() -> bool {
    let (run, wrong) = doors::rooms();
    println!("rooms of ours: {run} doors tried, {} answers wrong", wrong.len());
    wrong.iter().for_each(|what| println!("  WRONG {what}"));
    wrong.is_empty()
}

#[allow(dead_code, unused_imports, unused_mut)]
mod doors {
    use crate::raw::{self, CheckResult, tm_compile, tm_forward, tm_literals, tm_mirror};
    use crate::raw::{tm_read, tm_reverse, tm_sound, tm_tail};
    use crate::sides::{Answer, Compiled, Found, Picked, Read, Refusal, Window};

    /// A word of a pool before a call: of 32 bits for tokens, of 64 for nodes.
    trait Word: Copy + Default + PartialEq {
        const FILL: Self;
    }

    impl Word for u32 {
        const FILL: u32 = 0xA5A5_A5A5;
    }

    impl Word for u64 {
        const FILL: u64 = 0xA5A5_A5A5_A5A5_A5A5;
    }

    const MARGIN: usize = 3;
    /// The most that literals can need: 256 of 512 bytes.
    const BYTES: usize = 256 * 512;
    static UNWRITTEN: [u8; BYTES] = [0xA5; BYTES];

    fn pool<W: Word>(words: usize) -> Vec<W> {
        vec![W::FILL; words + MARGIN]
    }

    /// A pool's content after a call: the used words, zeros up to its size, then the old filling.
    fn used<W: Word>(pool: &[W], size: usize, used: usize) -> Vec<W> {
        assert!(used <= size, "more words used than the pool has");
        assert!(pool[used..size].iter().all(|w| *w == W::default()), "unused words must be zeroed");
        assert!(pool[size..].iter().all(|w| *w == W::FILL), "words beyond the pool must stay");
        pool[..used].to_vec()
    }

    fn unchanged<W: Word>(pool: &[W]) -> bool {
        pool.iter().all(|w| *w == W::FILL)
    }

    fn refusal<T>(number: u32, place: u64) -> Answer<T> {
        Err(Refusal { number, place: place as usize })
    }

    #[cfg(tm_read)]
    pub fn read(text: &[u8]) -> Option<Answer<Read>> {
        let mut p = pool(4096);
        // The slices are lent for the call only.
        let r = unsafe { tm_read(text.as_ptr(), text.len(), p.as_mut_ptr(), p.len()) };
        let words = used(&p, 4096, r.words as usize);
        assert!(r.refusal == 0 || r.words == 0, "a refusal uses no words");
        Some(match r.refusal {
            0 => Ok(Read { words, reached: r.reached as usize }),
            n => refusal(n, r.place),
        })
    }

    /// Of a door that reads: its `reached` is where reading ends, and 0 beside a refusal.
    #[cfg(tm_read)]
    fn reading_ends(text: &[u8], refused: u32, reached: u64) {
        let mut p = pool(4096);
        // As above.
        let r = unsafe { tm_read(text.as_ptr(), text.len(), p.as_mut_ptr(), p.len()) };
        let due = if refused == 0 { r.reached } else { 0 };
        assert_eq!(reached, due, "every door that reads tells how far");
    }

    /// As the C function, with slices.
    #[cfg(tm_compile)]
    fn call_compile(text: &[u8], f: &mut [u64], r: &mut [u64]) -> raw::CompileResult {
        let (nf, nr) = (f.len(), r.len());
        // As above.
        unsafe { tm_compile(text.as_ptr(), text.len(), f.as_mut_ptr(), nf, r.as_mut_ptr(), nr) }
    }

    #[cfg(tm_compile)]
    pub fn compile(text: &[u8]) -> Option<Answer<Compiled>> {
        let (mut f, mut r) = (pool(512), pool(512));
        let got = call_compile(text, &mut f, &mut r);
        let forward = used(&f, 512, got.forward as usize);
        let reverse = used(&r, 512, got.reverse as usize);
        assert!(got.refusal == 0 || got.forward + got.reverse == 0, "a refusal uses no words");
        #[cfg(tm_read)]
        reading_ends(text, got.refusal, got.reached);
        Some(match got.refusal {
            0 => Ok(Compiled { forward, reverse }),
            n => refusal(n, got.place),
        })
    }

    #[cfg(tm_sound)]
    pub fn sound(words: &[u64]) -> Option<Answer<bool>> {
        // As above.
        let r = unsafe { tm_sound(words.as_ptr(), words.len()) };
        assert!(r < 2, "1 or 0");
        Some(Ok(r == 1))
    }

    #[cfg(tm_mirror)]
    pub fn mirror(words: &[u64]) -> Option<Answer<Vec<u64>>> {
        let mut out = pool(512);
        // As above.
        let r = unsafe { tm_mirror(words.as_ptr(), words.len(), out.as_mut_ptr(), out.len()) };
        let out = used(&out, 512, r.words as usize);
        assert!(r.refusal == 0 || r.words == 0, "a refusal uses no words");
        Some(if r.refusal == 0 { Ok(out) } else { refusal(r.refusal, 0) })
    }

    fn found(r: CheckResult) -> Option<Answer<Found>> {
        Some(match (r.refusal, r.found) {
            (0, 1) => Ok(Found::At(r.offset as usize)),
            (0, _) => Ok(Found::Nothing),
            (n, _) => refusal(n, 0),
        })
    }

    #[cfg(tm_forward)]
    pub fn forward(words: &[u64], w: Window) -> Option<Answer<Found>> {
        // As above.
        let r = unsafe {
            tm_forward(words.as_ptr(), words.len(), w.hay.as_ptr(), w.hay.len(), w.start, w.end)
        };
        #[cfg(tm_tail)]
        tail(words, w, &r);
        found(r)
    }

    /// The second door's part of the haystack: what the first leaves of the window, or empty.
    #[cfg(tm_tail)]
    fn tail(words: &[u64], w: Window, r: &CheckResult) {
        // As above.
        let t = unsafe {
            tm_tail(words.as_ptr(), words.len(), w.hay.as_ptr(), w.hay.len(), w.start, w.end)
        };
        let due = if r.found == 1 { (r.offset, w.end as u64 - r.offset) } else { (0, 0) };
        assert_eq!((t.offset, t.length), due, "the tail is what is left");
    }

    #[cfg(tm_reverse)]
    pub fn reverse(words: &[u64], w: Window) -> Option<Answer<Found>> {
        // As above.
        found(unsafe {
            tm_reverse(words.as_ptr(), words.len(), w.hay.as_ptr(), w.hay.len(), w.start, w.end)
        })
    }

    /// As the C function, with slices.
    #[cfg(tm_literals)]
    fn call_literals(text: &[u8], b: &mut [u8], l: &mut [u16]) -> raw::LiteralsResult {
        let (nb, nl) = (b.len(), l.len());
        let (b, l) = (b.as_mut_ptr(), l.as_mut_ptr());
        // As above.
        unsafe { tm_literals(text.as_ptr(), text.len(), b, nb, l, nl) }
    }

    #[cfg(tm_literals)]
    pub fn literals(text: &[u8]) -> Option<Answer<Picked>> {
        let (mut b, mut l) = (UNWRITTEN.to_vec(), vec![0xA5A5u16; 256 + MARGIN]);
        let got = call_literals(text, &mut b, &mut l);
        let lengths = &l[..if got.refusal == 0 { got.count as usize } else { 0 }];
        #[cfg(tm_read)]
        reading_ends(text, got.refusal, got.reached);
        let total: usize = lengths.iter().map(|n| usize::from(*n)).sum();
        assert!(b[total..] == UNWRITTEN[total..], "bytes that are not written must stay");
        assert!(l[lengths.len()..].iter().all(|x| *x == 0xA5A5), "other lengths must stay");
        let mut at = 0;
        let cut = lengths.iter().map(|n| {
            at += usize::from(*n);
            b[at - usize::from(*n)..at].to_vec()
        });
        Some(match got.refusal {
            0 => Ok(Picked { rank: got.rank, literals: cut.collect() }),
            n => refusal(n, got.place),
        })
    }

    /// A refusal by 18 at 0 with everything as it was.
    fn short(what: String, number: u32, place: u64, same: bool, wrong: &mut Vec<String>) {
        if number != 18 || place != 0 || !same {
            wrong.push(format!("{what}: answer {number} at {place}, unchanged: {same}"));
        }
    }

    pub fn rooms() -> (usize, Vec<String>) {
        let doors: &[fn(&mut Vec<String>)] = &[
            #[cfg(tm_read)]
            rooms_of_read,
            #[cfg(tm_compile)]
            rooms_of_compile,
            #[cfg(tm_mirror)]
            rooms_of_mirror,
            #[cfg(tm_literals)]
            rooms_of_literals,
        ];
        let mut wrong = Vec::new();
        doors.iter().for_each(|door| door(&mut wrong));
        (doors.len(), wrong)
    }

    /// Texts that would be read, refused early and refused for their length.
    fn texts() -> [Vec<u8>; 3] {
        [b"{ 41 }".to_vec(), b"x".to_vec(), vec![b'{'; 5000]]
    }

    #[cfg(tm_read)]
    fn rooms_of_read(wrong: &mut Vec<String>) {
        for text in texts() {
            for n in [0, 1, 4, 4095] {
                let mut p = vec![u32::FILL; n];
                // As above.
                let r = unsafe { tm_read(text.as_ptr(), text.len(), p.as_mut_ptr(), n) };
                short(format!("read, {n} words"), r.refusal, r.place, unchanged(&p), wrong);
            }
        }
    }

    #[cfg(tm_compile)]
    fn rooms_of_compile(wrong: &mut Vec<String>) {
        for text in texts() {
            for (nf, nr) in [(511, 512), (512, 511), (0, 512), (512, 0), (0, 0)] {
                let (mut f, mut r) = (vec![u64::FILL; nf], vec![u64::FILL; nr]);
                let got = call_compile(&text, &mut f, &mut r);
                let same = unchanged(&f) && unchanged(&r);
                let what = format!("compile, {nf} and {nr} words");
                short(what, got.refusal, got.place, same, wrong);
            }
        }
    }

    #[cfg(tm_mirror)]
    fn rooms_of_mirror(wrong: &mut Vec<String>) {
        for words in [vec![0x4100u64], vec![7], vec![0x4100; 600]] {
            for n in [0, 1, 511] {
                let mut out = vec![u64::FILL; n];
                // As above.
                let r = unsafe { tm_mirror(words.as_ptr(), words.len(), out.as_mut_ptr(), n) };
                short(format!("mirror, {n} words"), r.refusal, 0, unchanged(&out), wrong);
            }
        }
    }

    /// Literals that need so many bytes and lengths: with just that room, and with less.
    #[cfg(tm_literals)]
    fn rooms_of_literals(wrong: &mut Vec<String>) {
        let texts: [(&[u8], usize, usize); 4] = [
            (b"{ 41 42 43 44 45 }", 5, 1),
            (b"{ 01 02 ?3 04 }", 64, 16),
            (b"{ ?1 (AA | BB CC) }", 80, 32),
            (b"{ (41|42 43 44) }", 4, 2),
        ];
        for (text, bytes, lengths) in texts {
            for (nb, nl) in [(bytes, lengths), (bytes - 1, lengths), (bytes, lengths - 1), (0, 0)] {
                let (mut b, mut l) = (vec![0xA5u8; nb], vec![0xA5A5u16; nl]);
                let got = call_literals(text, &mut b, &mut l);
                let what = format!("literals, {nb} bytes and {nl} lengths");
                let same = b.iter().all(|x| *x == 0xA5) && l.iter().all(|x| *x == 0xA5A5);
                if (nb, nl) != (bytes, lengths) {
                    short(what, got.refusal, got.place, same, wrong);
                } else if got.refusal != 0 || got.count as usize != lengths {
                    let (number, count) = (got.refusal, got.count);
                    wrong.push(format!("{what}: answer {number}, {count} literals"));
                }
            }
        }
        // Where another refusal is due, the room does not matter.
        for (text, due) in [(&b"{ (41|??) }"[..], 19), (&b"{ 4 }"[..], 2)] {
            let number = call_literals(text, &mut [], &mut []).refusal;
            if number != due {
                wrong.push(format!("literals without room: answer {number}, due {due}"));
            }
        }
    }
}
