//! The comparisons: which inputs, which functions.

use crate::generate::{self, PIECES, Rng, SIGNS, Taste, WORDS};
use crate::sides::{Answer, Compiled, Found, Picked, Read, Side, Tok, Window};
use crate::tally::{Answers, EXAMPLES, LeftOut, Tally};
use crate::{model, original, ours};

pub struct Judge {
    original: Side,
    document: Side,
    ours: Side,
}

/// One side's answer; a panic is an answer that equals no other.
fn ask<T>(f: impl FnOnce() -> Option<Answer<T>>) -> Option<Answer<T>> {
    std::panic::catch_unwind(std::panic::AssertUnwindSafe(f))
        .unwrap_or(Some(Err(crate::sides::Refusal { number: 99, place: 0 })))
}

macro_rules! answers {
    ($judge:expr, $door:ident, $($arg:expr),*) => {{
        let one = |side: &Side| ask(|| side.$door.and_then(|f| f($($arg),*)));
        Answers {
            original: one(&$judge.original),
            document: one(&$judge.document),
            ours: one(&$judge.ours),
            left_out: None,
        }
    }};
}

/// An answer in words: places in decimal, words and bytes in hex.
fn told<T: std::fmt::Debug>(answer: Option<Answer<T>>) -> String {
    match answer {
        None => "no answer".into(),
        Some(Ok(value)) => format!("{value:x?}"),
        Some(Err(refusal)) => format!("refused {} at {}", refusal.number, refusal.place),
    }
}

pub fn shown(text: &[u8]) -> String {
    format!("\"{}\"", text.escape_ascii())
}

/// After `~` and one digit the original's place is behind the digit, the document's before it.
fn half_after_not<T>(text: &[u8], a: &Answer<T>, b: &Answer<T>) -> Option<&'static str> {
    let (Err(a), Err(b)) = (a, b) else {
        return None;
    };
    let half = a.number == 2 && b.number == 2 && a.place == b.place + 1;
    let digit = text.get(b.place).is_some_and(u8::is_ascii_hexdigit);
    let not = b.place > 0 && text[b.place - 1] == b'~';
    (half && digit && not).then_some("half byte after ~")
}

/// The original's programs are then exactly those that its known faults make.
fn known_compile(text: &[u8], a: &Answer<Compiled>, b: &Answer<Compiled>) -> Option<&'static str> {
    let faulty = || a.as_ref().ok() == model::as_original(text).as_ref();
    match (a, b) {
        (Ok(_), Ok(_)) => faulty().then_some("jump after alternatives grows the last branch's"),
        (Ok(_), Err(refusal)) => {
            (refusal.number == 13 && faulty()).then_some("more than 512 nodes built")
        }
        _ => half_after_not(text, a, b),
    }
}

/// Sound or not, and which rule of Req 08 is broken where no other is.
fn soundness(sound: bool, words: &[u64]) -> String {
    if sound {
        return "sound".into();
    }
    if !model::unsound_since_08(words) {
        return "unsound".into();
    }
    let mut why: Vec<_> = words.iter().filter_map(|w| model::unmeant(*w)).collect();
    why.sort_unstable();
    why.dedup();
    format!("unsound since Req 08 ({})", if why.len() > 1 { "several" } else { why[0] })
}

/// The counts of what is done with texts.
#[derive(Default)]
struct Texts {
    read: Tally,
    compile: Tally,
    literals: Tally,
}

impl Texts {
    fn report(&self, what: &str) -> bool {
        let read = self.read.report(&format!("reading {what}"));
        let compile = self.compile.report(&format!("compiling {what}"));
        let literals = self.literals.report(&format!("picking from {what}"));
        read && compile && literals
    }
}

/// A forward answer and a reverse one.
type Both = (Option<Answer<Found>>, Option<Answer<Found>>);

/// A side's answers from a place of a haystack on, and up to it.
fn both(side: &Side, programs: &Compiled, hay: &[u8], at: usize) -> Both {
    let (after, before) =
        (Window { hay, start: at, end: hay.len() }, Window { hay, start: 0, end: at });
    let forward = side.forward.and_then(|f| f(&programs.forward, after));
    (forward, side.reverse.and_then(|f| f(&programs.reverse, before)))
}

/// The counts of what is held to the tokens' own spans.
#[derive(Default)]
struct Spans {
    patterns: usize,
    windows: usize,
    found: usize,
    /// Windows of which the original is asked too, by the programs that it builds itself.
    asked: usize,
    wrong: usize,
}

impl Judge {
    pub fn new() -> Self {
        Judge { original: original::SIDE, document: model::SIDE, ours: ours::side() }
    }

    fn read(&self, tally: &mut Tally, text: &[u8]) {
        let answers: Answers<Read> = answers!(self, read, text);
        let known = |a: &Answer<Read>, b: &Answer<Read>| half_after_not(text, a, b);
        tally.count(&answers, |_| "read".into(), || shown(text), known);
    }

    fn compile(&self, tally: &mut Tally, text: &[u8]) {
        let mut answers: Answers<Compiled> = answers!(self, compile, text);
        if answers.original.is_none() && original::wide(text) {
            answers.left_out = Some(LeftOut::Fields);
        }
        let known = |a: &Answer<Compiled>, b: &Answer<Compiled>| known_compile(text, a, b);
        let label = |_: &Compiled| match answers.original {
            None if answers.left_out.is_some() => "compiled, the original left out".into(),
            None => "compiled, declined by the original".into(),
            Some(_) => "compiled".into(),
        };
        tally.count(&answers, label, || shown(text), known);
        let built = answers.left_out.and_then(|_| original::built(text));
        if let Some(built) = built {
            tally.count_left_out(built, model::as_original(text), || shown(text));
        }
    }

    fn literals(&self, tally: &mut Tally, text: &[u8]) {
        let answers: Answers<Picked> = answers!(self, literals, text);
        let known = |a: &Answer<Picked>, b: &Answer<Picked>| half_after_not(text, a, b);
        let label = |p: &Picked| match p.literals.len() {
            0 => "none picked".into(),
            1 => "one picked".into(),
            _ => "several picked".into(),
        };
        tally.count(&answers, label, || shown(text), known);
    }

    fn checks(&self, tally: &mut [Tally; 2], words: &[u64], w: Window) {
        let show = || format!("{words:x?} on {:x?}[{}..{}]", w.hay, w.start, w.end);
        let label = |f: &Found| match f {
            Found::At(_) => "found".into(),
            Found::Nothing => "nothing".into(),
        };
        let left_out = original::left_out(words, w);
        let mut forward: Answers<Found> = answers!(self, forward, words, w);
        forward.left_out = left_out;
        tally[0].count(&forward, label, show, |_, _| None);
        let mut reverse: Answers<Found> = answers!(self, reverse, words, w);
        reverse.left_out = left_out;
        tally[1].count(&reverse, label, show, |_, _| None);
        if left_out == Some(LeftOut::Since08) {
            if let Some(said) = original::since_08(words, w) {
                let before = [model::forward_search(words, w), model::reverse_search(words, w)];
                for ((tally, said), before) in tally.iter_mut().zip(said).zip(before) {
                    tally.count_since_08(Some(Ok(said)), before.map(Ok), show);
                }
            }
        }
    }

    fn mirror(&self, tally: &mut [Tally; 2], words: &[u64]) {
        let show = || format!("{words:x?}");
        let sound: Answers<bool> = answers!(self, sound, words);
        tally[0].count(&sound, |s| soundness(*s, words), show, |_, _| None);
        let mirror: Answers<Vec<u64>> = answers!(self, mirror, words);
        tally[1].count(&mirror, |_| "mirrored".into(), show, |_, _| None);
    }

    /// All texts of at most so many signs, as they are and between braces; those that are read
    /// are compiled and picked from too.
    pub fn texts(&self, most: usize) -> bool {
        let mut tallies = Texts::default();
        generate::sequences(SIGNS, most, &mut |inner| {
            if inner.len() < most {
                self.read(&mut tallies.read, inner);
            }
            let text = [b"{", inner, b"}"].concat();
            self.read(&mut tallies.read, &text);
            if model::tokens(&text).is_ok() {
                self.compile(&mut tallies.compile, &text);
                self.literals(&mut tallies.literals, &text);
            }
        });
        tallies.report(&format!("all texts of up to {most} signs"))
    }

    /// All texts of at most so many tokens and broken tokens.
    pub fn pieces(&self, most: usize) -> bool {
        let mut tallies = Texts::default();
        generate::sequences(PIECES, most, &mut |inner| {
            self.text(&mut tallies, format!("{{ {} }}", inner.join(" ")).as_bytes());
        });
        tallies.report(&format!("all texts of up to {most} pieces"))
    }

    fn text(&self, tallies: &mut Texts, text: &[u8]) {
        self.read(&mut tallies.read, text);
        self.compile(&mut tallies.compile, text);
        self.literals(&mut tallies.literals, text);
    }

    /// Random patterns that mostly keep to the rules.
    pub fn good(&self, seed: u64, count: usize) -> bool {
        self.random(seed, count, "random patterns", |rng| generate::good(rng))
    }

    /// Random patterns about one of the limits.
    pub fn limits(&self, seed: u64, count: usize) -> bool {
        self.random(seed, count, "patterns at the limits", |rng| generate::at_limits(rng))
    }

    /// Damaged copies of random patterns, one in ten of them about a limit.
    pub fn damaged(&self, seed: u64, count: usize) -> bool {
        self.random(seed, count, "damaged patterns", |rng| {
            let text = if rng.one_in(10) { generate::at_limits(rng) } else { generate::good(rng) };
            generate::damaged(rng, &text)
        })
    }

    fn random(&self, seed: u64, n: usize, what: &str, text: impl Fn(&mut Rng) -> Vec<u8>) -> bool {
        let mut rng = Rng::new(seed);
        let mut tallies = Texts::default();
        for _ in 0..n {
            self.text(&mut tallies, &text(&mut rng));
        }
        tallies.report(&format!("{what}, seed {seed}"))
    }

    /// Random patterns that have literals to choose from.
    pub fn random_literals(&self, seed: u64, count: usize) -> bool {
        let mut rng = Rng::new(seed);
        let mut literals = Tally::default();
        for _ in 0..count {
            self.literals(&mut literals, &generate::for_literals(&mut rng));
        }
        literals.report(&format!("picking from runs, seed {seed}"))
    }

    /// Random patterns on short haystacks, and some with long jumps on longer ones: an end is found
    /// from a start exactly if the tokens match there, and it is one of theirs; the same backwards.
    pub fn spans(&self, seed: u64, count: usize) -> bool {
        let mut rng = Rng::new(seed);
        let taste = Taste { odd: 1000, small: true, negations: true, bytes: 4 };
        let mut spans = Spans::default();
        for _ in 0..count {
            let most = rng.pick(&[2, 4, 6]);
            let text = generate::pattern(&mut rng, taste, 1, most);
            let hay = generate::bytes(&mut rng, &[0x41, 0x42, 0x41, 0x00, 0x0A, 0x14], 12);
            let places: Vec<_> = (0..=hay.len()).collect();
            self.spans_of(&mut spans, &text, &hay, &places);
        }
        for at in 0..count / 100 {
            let (text, hay, places) = generate::far_pattern(&mut rng, at % 50 == 0);
            self.spans_of(&mut spans, &text, &hay, &places);
        }
        let Spans { patterns, windows, found, asked, wrong } = spans;
        println!(
            "spans of random texts, seed {seed}: {patterns} patterns, {windows} windows, {found} found, {wrong} differ\n  original, by the programs that it builds: {asked} windows compared"
        );
        wrong == 0
    }

    fn spans_of(&self, spans: &mut Spans, text: &[u8], hay: &[u8], places: &[usize]) {
        let Ok((list, _)) = model::tokens(text) else {
            return;
        };
        let compile = self.ours.compile.or(self.document.compile).expect("there is one");
        let Some(Ok(programs)) = compile(text) else {
            return;
        };
        // The original adds jumps up to 255 only: other words, and the same spans.
        let theirs = if model::grown(&list) { None } else { original::built(text) };
        spans.patterns += 1;
        for at in places {
            spans.windows += 2;
            let agree = self.span(spans, &list, &programs, hay, *at);
            let same = theirs.as_ref().is_none_or(|theirs| {
                spans.asked += 2;
                both(&self.original, theirs, hay, *at) == self.both_of(&programs, hay, *at)
            });
            if !agree || !same {
                spans.wrong += 1;
                if spans.wrong <= EXAMPLES {
                    let hay = &hay[..hay.len().min(64)];
                    println!("    DIFFERS {} on {} at {at}", shown(text), shown(hay));
                }
            }
        }
    }

    /// Both checks by the library, or by the document where it is not linked.
    fn both_of(&self, programs: &Compiled, hay: &[u8], at: usize) -> Both {
        let linked = self.ours.forward.is_some() && self.ours.reverse.is_some();
        both(if linked { &self.ours } else { &self.document }, programs, hay, at)
    }

    fn span(
        &self,
        spans: &mut Spans,
        list: &[Tok],
        programs: &Compiled,
        hay: &[u8],
        at: usize,
    ) -> bool {
        let (end, start) = self.both_of(programs, hay, at);
        let ends = model::ends(list, hay, at);
        // Backwards as plainly as forwards, where that does not take too long.
        let starts: Vec<_> = match hay.len() {
            0..=64 => {
                (0..=at).filter(|s| model::ends(list, &hay[..at], *s).contains(&at)).collect()
            }
            _ => model::starts(list, hay, at),
        };
        let agree = |answer: &Option<Answer<Found>>, all: &[usize]| match answer {
            Some(Ok(Found::At(place))) => all.contains(place),
            Some(Ok(Found::Nothing)) => all.is_empty(),
            _ => false,
        };
        spans.found += usize::from(!ends.is_empty()) + usize::from(!starts.is_empty());
        agree(&end, &ends) && agree(&start, &starts)
    }

    /// All programs of at most so many words, sound or not, on all short haystacks.
    pub fn programs(&self, most: usize) -> bool {
        let mut hays: Vec<Vec<u8>> = Vec::new();
        generate::sequences(&[0x41, 0x42], 4, &mut |hay| hays.push(hay.to_vec()));
        hays.extend([vec![0x0A], vec![0x0A, 0x41], vec![0x41, 0x0A]]);
        let (mut checks, mut mirror) = <([Tally; 2], [Tally; 2])>::default();
        generate::sequences(WORDS, most, &mut |words| {
            self.mirror(&mut mirror, words);
            let sound = model::sound(words);
            for hay in if sound { &hays[..] } else { &hays[..1] } {
                self.checks(&mut checks, words, Window { hay, start: 0, end: hay.len() });
            }
        });
        let title = |what: &str| format!("{what} all programs of up to {most} words");
        [
            checks[0].report(&title("forward checks of")),
            checks[1].report(&title("reverse checks of")),
            mirror[0].report(&title("soundness of")),
            mirror[1].report(&title("mirrors of")),
        ]
        .iter()
        .all(|good| *good)
    }

    /// Random programs and windows; some programs spoilt, some windows wrong.
    pub fn random_checks(&self, seed: u64, count: usize) -> bool {
        let mut rng = Rng::new(seed);
        let (mut checks, mut mirror) = <([Tally; 2], [Tally; 2])>::default();
        for at in 0..count {
            let alphabet: &[u8] =
                rng.pick(&[&b"AB"[..], &b"A"[..], &b"AB\n"[..], &b"\x00\x01\x10\xff"[..]]);
            let most = rng.pick(&[3, 6, 10]);
            let mut words = generate::program(&mut rng, alphabet, most);
            if rng.one_in(8) {
                words = generate::spoilt(&mut rng, &words).0;
            }
            if rng.one_in(200) {
                let filling = rng.pick(&[generate::word(0, 0x41, 0), generate::word(3, 65_535, 0)]);
                words.resize(rng.pick(&[511, 512, 513]), filling);
            }
            let longer = match at % 10_000 {
                0 => Some(generate::far(&mut rng)),
                _ if rng.one_in(500) => Some(generate::wide(&mut rng)),
                _ => None,
            };
            if let Some((words, hay)) = longer {
                self.mirror(&mut mirror, &words);
                self.checks(&mut checks, &words, Window { hay: &hay, start: 0, end: hay.len() });
            }
            self.mirror(&mut mirror, &words);
            for _ in 0..8 {
                let hay = generate::bytes(&mut rng, alphabet, 14);
                let (start, end) = generate::window(&mut rng, hay.len());
                self.checks(&mut checks, &words, Window { hay: &hay, start, end });
            }
        }
        let title = |what: &str| format!("{what} random programs, seed {seed}");
        [
            checks[0].report(&title("forward checks of")),
            checks[1].report(&title("reverse checks of")),
            mirror[0].report(&title("soundness of")),
            mirror[1].report(&title("mirrors of")),
        ]
        .iter()
        .all(|good| *good)
    }

    /// Random programs of which at least one word is damaged, some so long that they are 13, each on
    /// one window, some of these wrong.
    pub fn damaged_words(&self, seed: u64, count: usize) -> bool {
        let mut rng = Rng::new(seed);
        let (mut checks, mut mirror) = <([Tally; 2], [Tally; 2])>::default();
        let mut all = 0;
        for _ in 0..count {
            let most = rng.pick(&[1, 3, 6, 10]);
            let sound = generate::program(&mut rng, b"AB\n\x00\xff", most);
            let (mut words, damaged) = loop {
                let (words, damaged) = generate::spoilt(&mut rng, &sound);
                if damaged > 0 {
                    break (words, damaged);
                }
            };
            all += damaged;
            if rng.one_in(100) {
                words.resize(rng.pick(&[511, 512, 513]), generate::word(0, 0x41, 0));
            }
            self.mirror(&mut mirror, &words);
            let hay = generate::bytes(&mut rng, b"AB\n\x00\xff", 14);
            let (start, end) = generate::window(&mut rng, hay.len());
            self.checks(&mut checks, &words, Window { hay: &hay, start, end });
        }
        let title = |what: &str| {
            format!("{what} damaged programs, seed {seed}, at least {all} damaged words")
        };
        [
            checks[0].report(&title("forward checks of")),
            checks[1].report(&title("reverse checks of")),
            mirror[0].report(&title("soundness of")),
            mirror[1].report(&title("mirrors of")),
        ]
        .iter()
        .all(|good| *good)
    }

    /// What each side answers to one text.
    pub fn show(&self, text: &[u8]) {
        println!("{}", shown(text));
        println!("  original by itself");
        original::alone(text);
        for side in [&self.original, &self.document, &self.ours] {
            println!("  {}", side.name);
            println!("    read     {}", told(ask(|| side.read.and_then(|f| f(text)))));
            println!("    compile  {}", told(ask(|| side.compile.and_then(|f| f(text)))));
            println!("    literals {}", told(ask(|| side.literals.and_then(|f| f(text)))));
        }
    }

    /// What each side's checks answer, the original also where the document refuses.
    pub fn show_checks(&self, words: &[u64], w: Window) {
        println!("{words:x?} on {:x?}[{}..{}]", w.hay, w.start, w.end);
        let (forward, reverse) = original::raw(words, w);
        println!("  original  forward {forward}, reverse {reverse}");
        for side in [&self.document, &self.ours] {
            let forward = told(ask(|| side.forward.and_then(|f| f(words, w))));
            let reverse = told(ask(|| side.reverse.and_then(|f| f(words, w))));
            println!("  {}  forward {forward}, reverse {reverse}", side.name);
        }
    }

    /// For the second judge: lines of a haystack in hex, a blank and a pattern, several patterns
    /// to a haystack. No `~`, which that judge does not know.
    pub fn patterns(seed: u64, haystacks: usize, each: usize) {
        let mut rng = Rng::new(seed);
        let taste = Taste { odd: 1000, small: true, negations: false, bytes: 4 };
        for _ in 0..haystacks {
            let hay = generate::bytes(&mut rng, &[0x41, 0x42, 0x41, 0x00, 0x0A, 0x14], 60);
            let hex: String = hay.iter().map(|b| format!("{b:02x}")).collect();
            for _ in 0..each {
                let most = rng.pick(&[2, 3, 5, 8]);
                let text = generate::pattern(&mut rng, taste, 1, most);
                let end = text.iter().position(|b| *b == b'}').unwrap_or(text.len() - 1);
                let line = String::from_utf8_lossy(&text[..=end]).replace(['\r', '\n'], "\t");
                println!("{hex} {line}");
            }
        }
    }

    /// For the second judge: the starts of a haystack from which a pattern's forward program is
    /// found, by our library where it is linked, else by the original's check.
    pub fn starts(&self, text: &[u8], hay: &[u8]) -> Result<Vec<usize>, u32> {
        let compile = self.ours.compile.or(self.document.compile);
        let check = self.ours.forward.or(self.original.forward);
        let programs = compile.and_then(|f| f(text)).expect("every text is answered");
        let words = programs.map_err(|r| r.number)?.forward;
        let end = hay.len();
        let found = |start: usize| {
            let answer = check.and_then(|f| f(&words, Window { hay, start, end }));
            matches!(answer, Some(Ok(Found::At(_))))
        };
        Ok((0..end).filter(|start| found(*start)).collect())
    }
}
