use std::hint::black_box;

use boreal::matcher::validator::simple::seam::Program;

unsafe extern "C" {
    fn tm_hits(words: *const u64, nwords: usize, hay: *const u8, nhay: usize) -> usize;
    fn tm_hits_back(words: *const u64, nwords: usize, hay: *const u8, nhay: usize) -> usize;
    fn clock_gettime(clock: i32, time: *mut Time) -> i32;
}

#[repr(C)]
struct Time {
    seconds: i64,
    nanoseconds: i64,
}

/// Linux's clock of the time that this thread has run: what others do on the machine is left out.
const THREAD_CLOCK: i32 = 3;

fn now() -> f64 {
    let mut time = Time { seconds: 0, nanoseconds: 0 };
    // The call writes the one struct that it is lent.
    assert_eq!(unsafe { clock_gettime(THREAD_CLOCK, &mut time) }, 0);
    time.seconds as f64 + time.nanoseconds as f64 / 1e9
}

const HAY: usize = 64 * 1024;
const ROUNDS: usize = 25;
/// Of the case with 65,536 lengths at every place, a round of which takes many seconds.
const FAR_ROUNDS: usize = 3;

struct Case {
    name: &'static str,
    forward: Vec<u64>,
    reverse: Vec<u64>,
    hay: Vec<u8>,
}

fn byte(b: u8) -> u64 {
    u64::from(b) << 8
}

fn range(min: u16, max: u16) -> u64 {
    4 + (u64::from(min) << 8) + (u64::from(max) << 24)
}

/// Sixteen branches of one byte each, none of which the haystack holds.
fn branches() -> Vec<u64> {
    let mut words = vec![6 + 256 * 32];
    for b in 0..16 {
        words.extend([7 + 256, byte(0x80 + b)]);
    }
    words
}

fn case(name: &'static str, forward: Vec<u64>, reverse: Vec<u64>, hay: u8) -> Case {
    Case { name, forward, reverse, hay: vec![hay; HAY] }
}

fn cases() -> Vec<Case> {
    let literal = |fill: u8, odd: u8| {
        let mut words = vec![byte(fill); 15];
        words.push(byte(odd));
        words
    };
    // Each program is read by its own check from its first word on, so the byte that fails last
    // stands last in both.
    let five = || {
        let mut words = vec![byte(0x41)];
        for _ in 0..5 {
            words.extend([range(0, 2), byte(0x41)]);
        }
        words.push(byte(0x42));
        words
    };
    let wide = || vec![range(0, 255), byte(0x42)];
    let far = || vec![range(0, 65_535), byte(0x42)];
    vec![
        case("16 bytes, fails at the first", literal(0x42, 0x42), literal(0x42, 0x42), 0x41),
        case("16 bytes, fails at the last", literal(0x41, 0x42), literal(0x41, 0x42), 0x41),
        case("[0-255] before a byte", wide(), wide(), 0x41),
        case("16 branches of one byte", branches(), branches(), 0x41),
        case("five ranges [0-2]", five(), five(), 0x41),
        case("[0-65535] before a byte (*)", far(), far(), 0x41),
    ]
}

fn ours(words: &[u64], hay: &[u8], back: bool) -> usize {
    let f = if back { tm_hits_back } else { tm_hits };
    // The slices are lent for the call, which only reads them.
    unsafe { f(words.as_ptr(), words.len(), hay.as_ptr(), hay.len()) }
}

/// The original's program. Where its fields can't hold the range that comes first: the program
/// without it, and the range.
struct Theirs {
    program: Program,
    far: Option<(u16, u16)>,
}

fn original(words: &[u64]) -> Theirs {
    let known = "the cases hold known kinds only";
    match Program::new(words) {
        Some(program) => Theirs { program, far: None },
        None => {
            let far = Some(((words[0] >> 8) as u16, (words[0] >> 24) as u16));
            Theirs { program: Program::new(&words[1..]).expect(known), far }
        }
    }
}

fn theirs(it: &Theirs, hay: &[u8], back: bool) -> usize {
    match (it.far, back) {
        (None, false) => it.program.hits(hay),
        (None, true) => it.program.hits_back(hay),
        (Some(range), false) => it.program.far_hits(range, hay),
        (Some(range), true) => it.program.far_hits_back(range, hay),
    }
}

fn timed(mut f: impl FnMut() -> usize, turns: u32) -> (f64, usize) {
    let start = now();
    let mut got = 0;
    for _ in 0..turns {
        got = black_box(f());
    }
    ((now() - start) / f64::from(turns), got)
}

fn median(mut values: Vec<f64>) -> f64 {
    values.sort_by(f64::total_cmp);
    values[values.len() / 2]
}

struct Line {
    ratio: f64,
    low: f64,
    high: f64,
    best: f64,
    ours: f64,
    theirs: f64,
}

fn least(values: &[f64]) -> f64 {
    values.iter().copied().fold(f64::INFINITY, f64::min)
}

/// Rounds of both sides in turn, the first side changing, so that a disturbance meets both.
fn measure(words: &[u64], hay: &[u8], back: bool) -> Line {
    let program = original(words);
    let (rounds, turns) = if program.far.is_some() {
        (FAR_ROUNDS, 1)
    } else {
        let one = timed(|| theirs(&program, black_box(hay), back), 1).0;
        (ROUNDS, (0.004 / one).ceil().clamp(1.0, 200.0) as u32)
    };
    let (mut ratios, mut ours_all, mut theirs_all) = (vec![], vec![], vec![]);
    for round in 0..rounds {
        let run_ours = || timed(|| ours(black_box(words), black_box(hay), back), turns);
        let run_theirs = || timed(|| theirs(black_box(&program), black_box(hay), back), turns);
        let ((a, x), (b, y)) = if round % 2 == 0 {
            let a = run_ours();
            (a, run_theirs())
        } else {
            let b = run_theirs();
            (run_ours(), b)
        };
        assert_eq!(x, y, "both sides must find the same");
        ratios.push(a / b);
        ours_all.push(a);
        theirs_all.push(b);
    }
    Line {
        low: least(&ratios),
        high: ratios.iter().copied().fold(0.0, f64::max),
        best: least(&ours_all) / least(&theirs_all),
        ratio: median(ratios),
        ours: median(ours_all),
        theirs: median(theirs_all),
    }
}

pub fn run() {
    println!(
        "ours / the original: median of {ROUNDS} rounds, lowest and highest round, and the two best"
    );
    println!(
        "times; every place of a haystack of {HAY} bytes, median times for all in milliseconds\n"
    );
    println!("| case | way | ratio | lowest to highest | of the best | ours | original |");
    println!("|---|---|---|---|---|---|---|");
    for case in cases() {
        for (way, words, back) in
            [("forward", &case.forward, false), ("reverse", &case.reverse, true)]
        {
            let l = measure(words, &case.hay, back);
            println!(
                "| {} | {way} | {:.2} | {:.2} to {:.2} | {:.2} | {:.3} | {:.3} |",
                case.name,
                l.ratio,
                l.low,
                l.high,
                l.best,
                1000.0 * l.ours,
                1000.0 * l.theirs
            );
        }
    }
    println!(
        "\n(*) {FAR_ROUNDS} rounds. The original's ranges end at 255: here its loop over the lengths stands for"
    );
    println!("it, with lengths of 16 bits, around its own check of the byte.");
}
