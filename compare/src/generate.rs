//! Inputs: all short ones, and random ones that a seed fixes.

/// A small generator of numbers (splitmix64): the same seed gives the same run everywhere.
pub struct Rng(u64);

impl Rng {
    pub fn new(seed: u64) -> Self {
        Rng(seed)
    }

    pub fn next(&mut self) -> u64 {
        self.0 = self.0.wrapping_add(0x9E37_79B9_7F4A_7C15);
        let mut z = self.0;
        z = (z ^ (z >> 30)).wrapping_mul(0xBF58_476D_1CE4_E5B9);
        z = (z ^ (z >> 27)).wrapping_mul(0x94D0_49BB_1331_11EB);
        z ^ (z >> 31)
    }

    pub fn below(&mut self, n: usize) -> usize {
        (self.next() % n as u64) as usize
    }

    pub fn pick<T: Copy>(&mut self, from: &[T]) -> T {
        from[self.below(from.len())]
    }

    pub fn one_in(&mut self, n: usize) -> bool {
        self.below(n) == 0
    }
}

/// Calls `f` with every sequence over the alphabet of at most so many elements.
pub fn sequences<T: Copy>(alphabet: &[T], most: usize, f: &mut dyn FnMut(&[T])) {
    fn grow<T: Copy>(alphabet: &[T], most: usize, so_far: &mut Vec<T>, f: &mut dyn FnMut(&[T])) {
        f(so_far);
        if so_far.len() == most {
            return;
        }
        for x in alphabet {
            so_far.push(*x);
            grow(alphabet, most, so_far, f);
            so_far.pop();
        }
    }
    grow(alphabet, most, &mut Vec::new(), f);
}

/// The signs of the grammar, two digits, a letter and a blank.
pub const SIGNS: &[u8] = b"()[]|~?-01A {}";

/// Whole and broken tokens, for texts that are long in tokens.
pub const PIECES: &[&str] = &[
    "41",
    "~42",
    "??",
    "4?",
    "?4",
    "~?4",
    "~??",
    "~4",
    "4",
    "[1]",
    "[1-1]",
    "[2]",
    "[0]",
    "[3-2]",
    "[2-3]",
    "[2-]",
    "[200]",
    "[201]",
    "[4294967296]",
    "[x",
    "(",
    ")",
    "|",
    "}",
];

const NUMBERS: &[u64] = &[
    0,
    1,
    2,
    3,
    9,
    10,
    15,
    16,
    99,
    100,
    199,
    200,
    201,
    254,
    255,
    256,
    257,
    300,
    1000,
    65534,
    65535,
    65536,
    65537,
    4_294_967_294,
    4_294_967_295,
    4_294_967_296,
    4_294_967_297,
    18_446_744_073_709_551_615,
];

fn blanks(rng: &mut Rng, out: &mut Vec<u8>) {
    for _ in 0..rng.pick(&[0, 0, 0, 1, 1, 1, 1, 2, 3]) {
        out.push(rng.pick(b"    \t\r\n"));
    }
}

/// How a random pattern is drawn.
#[derive(Clone, Copy)]
pub struct Taste {
    /// One in so many tokens is at odds with the rules.
    pub odd: usize,
    /// Whether jumps stay small, so that programs can be tried on short haystacks.
    pub small: bool,
    pub negations: bool,
    /// Bytes are drawn from the first so many of a fixed list.
    pub bytes: usize,
}

const BYTES: [u8; 16] = [
    0x41, 0x42, 0x00, 0x0A, 0xFF, 0x61, 0x20, 0x90, 0xCC, 0x43, 0x4F, 0xF4, 0x14, 0x7F, 0x80, 0x01,
];

fn byte(rng: &mut Rng, taste: Taste) -> String {
    let b = BYTES[rng.below(taste.bytes.min(BYTES.len()))];
    if rng.one_in(8) { format!("{b:02x}") } else { format!("{b:02X}") }
}

fn mask(rng: &mut Rng, taste: Taste) -> String {
    let text = byte(rng, taste);
    if rng.one_in(2) { format!("?{}", &text[1..]) } else { format!("{}?", &text[..1]) }
}

fn number(rng: &mut Rng, taste: Taste) -> u64 {
    if taste.small { rng.pick(&[0, 1, 1, 2, 2, 3]) } else { rng.pick(NUMBERS) }
}

fn jump(rng: &mut Rng, taste: Taste, out: &mut Vec<u8>) {
    let (a, b) = (number(rng, taste), number(rng, taste));
    let (a, b) = if rng.one_in(taste.odd) { (a, b) } else { (a.min(b), a.max(b).max(1)) };
    out.push(b'[');
    blanks(rng, out);
    let shape = rng.below(10);
    if shape < 8 || shape == 9 {
        out.extend(if rng.one_in(9) { format!("00{a}") } else { a.to_string() }.bytes());
        blanks(rng, out);
    }
    if shape > 3 {
        out.push(b'-');
        blanks(rng, out);
        if shape < 9 {
            out.extend(b.to_string().bytes());
            blanks(rng, out);
        }
    }
    out.push(b']');
}

/// One token; `levels` more lists may stand one in another.
fn token(rng: &mut Rng, taste: Taste, levels: usize, inner: bool, out: &mut Vec<u8>) {
    let kind = rng.below(20);
    match kind {
        0..=8 => out.extend(byte(rng, taste).bytes()),
        9 if taste.negations => out.extend(format!("~{}", byte(rng, taste)).bytes()),
        10 | 11 => out.extend(mask(rng, taste).bytes()),
        12 if taste.negations => out.extend(format!("~{}", mask(rng, taste)).bytes()),
        13 | 14 if inner => jump(rng, taste, out),
        15 | 16 if levels > 0 => {
            out.push(b'(');
            blanks(rng, out);
            for at in 0..rng.pick(&[1, 2, 2, 2, 3, 4]) {
                if at > 0 {
                    out.push(b'|');
                    blanks(rng, out);
                }
                tokens(rng, taste, levels - 1, rng_length(at), out);
            }
            out.push(b')');
        }
        _ => out.extend(b"??"),
    }
    blanks(rng, out);
}

fn rng_length(at: usize) -> usize {
    1 + at % 3
}

fn tokens(rng: &mut Rng, taste: Taste, levels: usize, most: usize, out: &mut Vec<u8>) {
    let n = 1 + rng.below(most);
    for at in 0..n {
        let inner = (at > 0 && at + 1 < n) || rng.one_in(taste.odd);
        token(rng, taste, levels, inner, out);
    }
}

/// A pattern that mostly keeps to the grammar.
pub fn pattern(rng: &mut Rng, taste: Taste, levels: usize, most: usize) -> Vec<u8> {
    let mut out = vec![b'{'];
    blanks(rng, &mut out);
    tokens(rng, taste, levels, most, &mut out);
    out.push(b'}');
    if rng.one_in(5) {
        out.extend(rng.pick(&[" ", " zz", "}", "\n\t{", "é"]).bytes());
    }
    out
}

/// A pattern that mostly keeps to the grammar, of any taste.
pub fn good(rng: &mut Rng) -> Vec<u8> {
    let taste = Taste {
        odd: rng.pick(&[4, 50, 1000]),
        small: rng.one_in(2),
        negations: !rng.one_in(3),
        bytes: rng.pick(&[2, 5, 16]),
    };
    let levels = rng.pick(&[0, 1, 1, 2, 7, 8, 9]);
    let most = rng.pick(&[2, 4, 8, 8, 30]);
    pattern(rng, taste, levels, most)
}

/// Bytes and classes, as branches of plain alternatives have them.
fn plain(rng: &mut Rng, taste: Taste, most: usize, out: &mut Vec<u8>) {
    for _ in 0..1 + rng.below(most) {
        let token = match rng.below(16) {
            0 => mask(rng, taste),
            1 if taste.negations => format!("~{}", byte(rng, taste)),
            2 if taste.negations => format!("~{}", mask(rng, taste)),
            _ => byte(rng, taste),
        };
        out.extend(token.bytes());
    }
}

/// A pattern that has literals to choose from: runs of bytes, classes and plain alternatives,
/// some of them with about as many branches as there may be literals.
pub fn for_literals(rng: &mut Rng) -> Vec<u8> {
    let bytes = rng.pick(&[2, 8, 9, 16]);
    let taste = Taste { odd: 1000, small: true, negations: rng.one_in(2), bytes };
    let mut out = b"{41".to_vec();
    if rng.one_in(2) {
        out.truncate(1);
    }
    for _ in 0..1 + rng.below(7) {
        match rng.below(8) {
            0 if out.len() > 1 => {
                out.extend(rng.pick(&["??", "[2-3]41", "[4]42", "[2-]00"]).bytes())
            }
            1 | 2 => {
                let many = rng.pick(&[15, 16, 17, 99, 100, 127, 128, 255, 256, 257]);
                let branches = if rng.one_in(12) { many } else { 1 + rng.below(4) };
                let most = if branches > 4 { 1 } else { 3 };
                for at in 0..branches {
                    out.push(if at == 0 { b'(' } else { b'|' });
                    plain(rng, taste, most, &mut out);
                }
                out.push(b')');
            }
            3 => out.extend(mask(rng, taste).bytes()),
            _ => plain(rng, taste, 4, &mut out),
        }
    }
    out.extend(rng.pick(&["}", "??}", "4?}", "FF}"]).bytes());
    out
}

/// A pattern near one of the limits.
pub fn at_limits(rng: &mut Rng) -> Vec<u8> {
    const LIMITS: [fn(&mut Rng) -> String; 10] = [
        levels,
        tokens_513,
        length,
        digits,
        branch,
        jumps,
        grown_jump,
        many_jumps,
        nodes,
        literals_257,
    ];
    format!("{{{}}}", rng.pick(&LIMITS)(rng)).into_bytes()
}

/// Eight list levels, and fewer or more.
fn levels(rng: &mut Rng) -> String {
    let levels = 6 + rng.below(4);
    let before = "41".repeat(rng.below(2));
    let open = rng.pick(&["(", "( ", "(41|"]).repeat(levels);
    let inner = rng.pick(&["41", "[2]", "", "~??", "4", "[5-]"]);
    format!("{before}{open}{inner}{}", ")".repeat(levels + rng.below(3) - 1))
}

/// 512 tokens, and fewer or more.
fn tokens_513(rng: &mut Rng) -> String {
    let n = (509 + rng.below(6)).div_ceil(1 + rng.below(3));
    let last = rng.pick(&["41", "[0]", "[2-1]", "~??", "(", "(41", "[3]", "~4", "4", ""]);
    format!("{}{last}", rng.pick(&["41", "??", "(41)", "41[2]41"]).repeat(n))
}

/// 4,096 bytes of text, and fewer or more.
fn length(rng: &mut Rng) -> String {
    let n = 4086 + rng.below(14);
    let (first, last) = (rng.pick(&["41", "", "4", "[0]41"]), rng.pick(&["", "42", "4", "x"]));
    format!("{first}{}{last}", rng.pick(&[" ", "\n", "\t"]).repeat(n))
}

/// 4,294,967,295 in a jump, and less or more, with zeros or other digits before it.
fn digits(rng: &mut Rng) -> String {
    let lead = rng.pick(&["0", "0", "0", "4", "9", "1"]).repeat(rng.pick(&[0, 1, 5, 30, 60]));
    let number = rng.pick(&[4_294_967_294u64, 4_294_967_295, 4_294_967_296, 4_294_967_297]);
    match rng.below(4) {
        0 => format!("41[{lead}{number}]41"),
        1 => format!("41[{}-{lead}{number}]41", rng.pick(&["", "0", "5", "4294967295"])),
        2 => format!("41[{lead}{number}-]41"),
        _ => format!("(41[{lead}{number}]41)"),
    }
}

/// A branch of 255 nodes, and fewer or more.
fn branch(rng: &mut Rng) -> String {
    let inner = rng.pick(&["41", "?1", "~?1", "(41|42)", "[3]41", "??", "??41"]);
    let n = rng.pick(&[100, 126, 127, 128, 170, 171, 250, 254, 255, 256, 257, 400, 511, 512]);
    format!("({}41{})41", rng.pick(&["", "41|"]), inner.repeat(n))
}

/// Jumps of about 200, 255 and 65,535, within alternatives and without.
fn jumps(rng: &mut Rng) -> String {
    let near: &[usize] = &[0, 1, 2, 199, 200, 201, 202, 254, 255, 256, 257];
    let far: &[usize] = &[0, 1, 255, 256, 300, 65_533, 65_534, 65_535, 65_536, 65_537];
    let about = rng.pick(&[near, far]);
    let (at, to) = (rng.pick(about), rng.pick(about));
    let jump = match rng.below(4) {
        0 => format!("[{at}]"),
        1 => format!("[-{to}]"),
        2 => format!("[{}-{}]", at.min(to), at.max(to)),
        _ => format!("[{at}-{to}]"),
    };
    rng.pick(&["41J42", "(41J42)43", "41(41|42J43)", "(41J)", "J41", "41J", "41JJ42"])
        .replace('J', &jump)
}

/// Successive jumps that sum up to about 255 or 65,535, so that adding one may or may not enlarge the
/// last: the original's ends at 255.
fn grown_jump(rng: &mut Rng) -> String {
    let near: &[usize] = &[2, 50, 55, 100, 127, 128, 155, 156, 200, 253, 254, 255];
    let far: &[usize] =
        &[2, 255, 256, 12_000, 25_000, 32_767, 32_768, 50_000, 65_279, 65_280, 65_534, 65_535];
    let about = rng.pick(&[near, near, far]);
    let mut out = rng.pick(&["41", "(41", "(41|42", "??", "(41|42 ??)"]).to_string();
    let close = if out.starts_with('(') && !out.ends_with(')') { "43)" } else { "43" };
    for _ in 0..2 + rng.below(4) {
        let n = rng.pick(about);
        match rng.below(5) {
            0 => out.push_str("??"),
            1 => out.push_str("[1]"),
            _ if close == "43)" => out.push_str(&format!("[{}]", n.min(200))),
            _ => out.push_str(&format!("[{n}]")),
        }
    }
    out + close
}

/// So many jumps that they sum up to about 65,535, also in a branch, where each is at most 200.
fn many_jumps(rng: &mut Rng) -> String {
    let (jump, times) = rng.pick(&[(200, 327), (255, 256), (199, 329), (150, 436)]);
    let last = 65_535 - jump * times + rng.pick(&[0, 1, 2]) - 1;
    let (open, close) =
        rng.pick(&[("41", "42"), ("(41", "42)"), ("(43|41", "42)44"), ("??", "42")]);
    let many = format!("[{jump}]").repeat(times);
    if rng.one_in(2) {
        format!("{open}{many}[{last}]{close}")
    } else {
        format!("{open}[{last}]{many}{close}")
    }
}

/// 512 nodes, and fewer or more: a bracket has three for its two tokens. Long runs of classes take
/// long to pick from, so they are few.
fn nodes(rng: &mut Rng) -> String {
    let nodes = 509 + rng.below(7);
    let brackets = rng.pick(&[1, 2, 100, 150, 165, 168, 169, 170]);
    let rest = (nodes - 3 * brackets).min(512 - 2 * brackets);
    let classes = rng.one_in(400);
    let bracket = rng.pick(if classes { &["(4?)", "(~41)"] } else { &["(41)", "(??)"] });
    let one = rng.pick(if classes { &["~41", "?4"] } else { &["41", "42"] });
    if rng.one_in(2) {
        bracket.repeat(brackets) + &one.repeat(rest)
    } else {
        one.repeat(rest) + &bracket.repeat(brackets)
    }
}

/// Alternatives and classes with about 256 literals or combinations; about 16 more often, which
/// takes less time.
fn literals_257(rng: &mut Rng) -> String {
    let many = if rng.one_in(40) { &[255, 256, 257] } else { &[15, 16, 17] };
    let lists = vec![rng.pick(&["41", "00", "41 42"]); rng.pick(many)].join("|");
    let class = rng.pick(&["?1", "1?", ""]);
    let after = rng.pick(&["", "?2", "(41|42)", "41 42 43", "?? 41"]);
    match rng.below(4) {
        0 => format!("{class}({lists}){after}"),
        1 => format!("({lists}){class}{after}"),
        2 => format!("41{class}{class}42{after}"),
        _ => format!("41{}{after}", rng.pick(&["~41", "~?1", "~4?"])),
    }
}

/// A copy with a few signs changed, lost, doubled or moved.
pub fn damaged(rng: &mut Rng, text: &[u8]) -> Vec<u8> {
    let mut out = text.to_vec();
    for _ in 0..1 + rng.below(3) {
        let at = rng.below(out.len());
        match rng.below(4) {
            0 => out[at] = rng.pick(SIGNS),
            1 if out.len() > 1 => {
                out.remove(at);
            }
            2 => out.insert(at, rng.pick(b"()[]|~?-0149Ff {}x,;\n\x00")),
            _ => {
                let other = rng.below(out.len());
                out.swap(at, other);
            }
        }
    }
    out
}

pub fn bytes(rng: &mut Rng, alphabet: &[u8], most: usize) -> Vec<u8> {
    (0..rng.below(most + 1)).map(|_| rng.pick(alphabet)).collect()
}

/// The two ends of a window; some lie the wrong way round or beyond the haystack.
pub fn window(rng: &mut Rng, length: usize) -> (usize, usize) {
    let (a, b) = (rng.below(length + 1), rng.below(length + 1));
    match rng.below(20) {
        0 => (a, b + rng.below(3)),
        1 => (a.max(b), a.min(b)),
        2..=9 => (0, length),
        _ => (a.min(b), a.max(b)),
    }
}

/// A pattern with a jump of about 255, or about 65,535, a haystack in which it may fit, and places in
/// that.
pub fn far_pattern(rng: &mut Rng, long: bool) -> (Vec<u8>, Vec<u8>, Vec<usize>) {
    let near: &[usize] = &[200, 254, 255, 256, 257, 300, 450];
    let far: &[usize] = &[40_000, 65_534, 65_535];
    let n = rng.pick(if long { far } else { near });
    let part = 2 + rng.below(n / 2 - 2);
    let jump = match rng.below(6) {
        0 => format!("[{n}]"),
        1 => format!("[{part}-{n}]"),
        2 => format!("[-{n}]"),
        3 => format!("[{part}][{}]", n - part),
        4 => format!("[{}]??", n - 1),
        _ => format!("[{part}-{}][{part}]", n - part),
    };
    let text = rng.pick(&["{41J42}", "{(43|41)J42}", "{41J(43|42)}", "{??J42}", "{41J4?}"]);
    let (before, gap, after) = (rng.below(5), n + rng.below(3) - 1, rng.below(5));
    let mut hay = vec![0; before + gap + after + 2];
    hay[before] = 0x41;
    hay[before + gap + 1] = 0x42;
    if rng.one_in(2) {
        let at = rng.below(hay.len());
        hay[at] = rng.pick(&[0x41, 0x42, 0x43]);
    }
    let places = vec![0, before, before + 1, before + gap + 1, before + gap + 2, hay.len()];
    (text.replace('J', &jump).into_bytes(), hay, places)
}

pub fn word(kind: u64, first: u64, second: u64) -> u64 {
    kind + (first << 8) + (second << 24)
}

/// A number that is below so many.
fn less(rng: &mut Rng, n: usize) -> u64 {
    rng.below(n) as u64
}

/// Lengths about what the original's fields hold and what ours do; the first is none for a jump.
const LENGTHS: &[u64] = &[0, 1, 2, 254, 255, 256, 257, 300, 65_534, 65_535];

fn plain_word(rng: &mut Rng, alphabet: &[u8], far: bool) -> u64 {
    let b = u64::from(rng.pick(alphabet));
    let mask = rng.pick(&[0x00, 0x01, 0x0F, 0xF0, 0xFF, 0x03]);
    match rng.below(9) {
        0..=3 => word(0, b, 0),
        4 => word(1, b & mask, mask),
        5 => word(2, b & mask, mask),
        6 => word(1 + less(rng, 2), rng.pick(&[0, mask]), mask),
        7 if far => word(3, rng.pick(&LENGTHS[1..]), 0),
        7 => word(3, 1 + less(rng, 3), 0),
        _ => 5,
    }
}

/// A sound program of about so many items; few have jumps that go far.
pub fn program(rng: &mut Rng, alphabet: &[u8], most: usize) -> Vec<u64> {
    let far = rng.one_in(40);
    let mut words = Vec::new();
    for _ in 0..rng.below(most + 1) {
        match rng.below(8) {
            0 if far => {
                let (a, b) = (rng.pick(LENGTHS), rng.pick(LENGTHS));
                words.push(word(4, a.min(b), a.max(b)));
            }
            0 => {
                let min = less(rng, 3);
                words.push(word(4, min, min + less(rng, 4)));
            }
            1 => {
                let mut inner = Vec::new();
                for _ in 0..1 + rng.below(3) {
                    let n = 1 + rng.below(3);
                    inner.push(word(7, n as u64, 0));
                    inner.extend((0..n).map(|_| plain_word(rng, alphabet, far)));
                }
                words.push(word(6, inner.len() as u64, 0));
                words.extend(inner);
            }
            _ => words.push(plain_word(rng, alphabet, far)),
        }
    }
    words
}

/// A program with long jumps, or an alternation whose count does not fit a byte, and a haystack of
/// about its length. It is sound but for a branch of 256 nodes.
pub fn wide(rng: &mut Rng) -> (Vec<u64>, Vec<u8>) {
    let most = 200 + rng.below(500);
    let mut hay = vec![0x41; most];
    for _ in 0..rng.below(4) {
        hay[rng.below(most)] = 0x42;
    }
    let mut words = Vec::new();
    if rng.one_in(2) {
        for _ in 0..1 + rng.below(3) {
            let n = rng.pick(&[100, 200, 254, 255, 256]);
            words.push(word(7, n, 0));
            words.extend((0..n).map(|_| if rng.one_in(60) { 0x4200 } else { 0x4100 }));
        }
        words.truncate(500);
        let last = words.iter().rposition(|w| w % 256 == 7).unwrap_or(0);
        words[last] = word(7, (words.len() - last - 1) as u64, 0);
        words.insert(0, word(6, words.len() as u64, 0));
    } else {
        let below = rng.pick(&[256, 256, 700]);
        let (a, b) = (less(rng, below), less(rng, below));
        words.push(word(4, a.min(b), a.max(b)));
        words.push(0x4200);
        words.push(word(3, 1 + less(rng, below - 1), 0));
        words.push(word(4, less(rng, 3), 3 + less(rng, 20)));
    }
    words.push(rng.pick(&[0x4200, 0x4100, 5]));
    (words, hay)
}

/// A sound program with a jump of up to 65,535, and a haystack that is long enough for it.
pub fn far(rng: &mut Rng) -> (Vec<u64>, Vec<u8>) {
    let mut hay = vec![0x41; 70_000];
    let length = 65_535 - less(rng, 4);
    for at in [length as usize, 69_999 - length as usize, rng.below(70_000), rng.below(70_000)] {
        hay[at] = 0x42;
    }
    let words = match rng.below(5) {
        0 => vec![word(3, length, 0), 0x4200],
        1 => vec![word(4, length - less(rng, 60_000), length), 0x4200],
        2 => vec![word(4, 0, 65_535), 0x4200, word(3, 3, 0)],
        3 => {
            let branches =
                [word(7, 2, 0), word(3, length, 0), 0x4200, word(7, 2, 0), 0x103, 0x4100];
            [&[word(6, 6, 0)], &branches[..]].concat()
        }
        _ => vec![word(3, 65_535, 0); 512],
    };
    (words, hay)
}

/// A word that Req 08 refuses, or one that comes near it and stays sound: a value that is its mask, or
/// has only bits of it, no bits at all, a range from 0 to 0.
fn hardly_meant(rng: &mut Rng) -> u64 {
    let kind = 1 + less(rng, 2);
    let (value, mask, bit) = (less(rng, 256), less(rng, 256), 1 << rng.below(8));
    match rng.below(10) {
        0 | 1 => word(kind, (value & mask) | bit, mask & !bit),
        2 | 3 => word(kind, value, mask),
        4 => word(kind, value & mask, mask),
        5 => word(kind, mask, mask),
        6 => word(kind, 0, 0),
        7 | 8 => word(3, 0, 0),
        _ => word(4, 0, 0),
    }
}

/// Any word instead of another.
fn other_word(rng: &mut Rng, old: u64) -> u64 {
    const FIELDS: &[u64] = &[0, 1, 2, 254, 255, 256, 257, 32_768, 65_534, 65_535];
    match rng.below(9) {
        0 | 1 => old ^ (1 << rng.below(64)),
        2 => word(7, less(rng, 3), 0),
        3 => word(6, less(rng, 4), 0),
        4 => less(rng, 12),
        5 => word(4, less(rng, 4), less(rng, 4)),
        6 if rng.one_in(2) => word(less(rng, 9), rng.pick(FIELDS), 0),
        6 => word(less(rng, 9), rng.pick(FIELDS), rng.pick(FIELDS)),
        // As words were before: their second field began at bit 16.
        7 => less(rng, 8) + (less(rng, 256) << 8) + (less(rng, 256) << 16),
        _ => rng.next() >> rng.pick(&[0, 24, 32]),
    }
}

/// Puts an empty branch before an alternation's first branch, between two or behind its last, or takes
/// the nodes out of one. A program without an alternation gets one.
fn empty_branch(rng: &mut Rng, words: &mut Vec<u64>) {
    let of = |words: &[u64], kind: u64| -> Vec<usize> {
        (0..words.len()).filter(|at| words[*at] % 256 == kind).collect()
    };
    let alternations = of(words, 6);
    if alternations.is_empty() {
        let at = rng.below(words.len() + 1);
        words.splice(at..at, [word(6, 1, 0), word(7, 0, 0)]);
        return;
    }
    let at = rng.pick(&alternations);
    let end = words.len().min(at + 1 + (words[at] >> 8) as u16 as usize);
    let mut marks: Vec<_> = of(&words[..end], 7).into_iter().filter(|mark| *mark > at).collect();
    if rng.one_in(3) && !marks.is_empty() {
        let mark = rng.pick(&marks);
        let next = marks.iter().copied().find(|other| *other > mark).unwrap_or(end);
        words[at] = words[at].wrapping_sub(word(0, (next - mark - 1) as u64, 0));
        words.splice(mark..next, [word(7, 0, 0)]);
    } else {
        marks.push(end);
        words[at] = words[at].wrapping_add(word(0, 1, 0));
        words.insert(rng.pick(&marks), word(7, 0, 0));
    }
}

/// A program with one or two words damaged, mostly unsound, half of these by Req 08; and how many words
/// are damaged at least, 0 if the program came out as it went in.
pub fn spoilt(rng: &mut Rng, words: &[u64]) -> (Vec<u64>, usize) {
    let whole = [words, &[word(0, 0x41, 0)]].concat();
    let mut out = whole.clone();
    for _ in 0..1 + rng.below(2) {
        match rng.below(8) {
            0..=3 => {
                let plain: Vec<_> =
                    (0..out.len()).filter(|at| !matches!(out[*at] % 256, 6 | 7)).collect();
                let at = if plain.is_empty() { 0 } else { rng.pick(&plain) };
                out[at] = hardly_meant(rng);
            }
            4 => empty_branch(rng, &mut out),
            _ => {
                let at = rng.below(out.len());
                out[at] = other_word(rng, out[at]);
            }
        }
    }
    let damaged = match out.len() == whole.len() {
        true => out.iter().zip(&whole).filter(|(new, old)| new != old).count(),
        // By an empty branch the words after it stand elsewhere.
        false => 1,
    };
    (out, damaged)
}

/// The words from which all short programs are made. Those before the last three are refused since
/// Req 08, by themselves or, the branch of no nodes, where a branch may stand; the last three have
/// lengths above 255, which the original's fields don't hold, and a mask as it was when the second
/// field began at bit 16.
pub const WORDS: &[u64] = &[
    0x0000_4100,
    0x0000_4200,
    0x0100_0101,
    0x0100_0102,
    0x0000_0103,
    0x0000_0203,
    0x0100_0004,
    0x0200_0004,
    0x0200_0104,
    0x0000_0004,
    0x0000_0005,
    0x0000_0206,
    0x0000_0306,
    0x0000_0406,
    0x0000_0107,
    0x0000_0207,
    0x0000_0101,
    0x0000_0102,
    0x0000_0003,
    0x0000_0007,
    0x0001_0003,
    0x0001_2C00_0104,
    0x0001_0101,
];
