//! What a refusal of a text says to a person. The library gives a number and a place; what was expected there, what stands there and which token
//! is meant follows from the text. The Python module has the same in tokenmarsh/_messages.py, and both are held to bindings/messages.tsv.

use crate::Refusal;

/// As many signs of the text as a message quotes.
const QUOTED: usize = 24;

/// The words, and the place of the token that is the reason where the refusal itself has none.
pub fn of(refusal: Refusal, place: usize, text: &[u8]) -> (String, Option<usize>) {
    // Whatever the library says, it is looked up in the text alone.
    let place = place.min(text.len());
    let because = match refusal {
        Refusal::TextTooLong => format!("found {}", text.len()),
        Refusal::Unexpected => return (missed(text, place), None),
        Refusal::NumberTooBig => format!("found {}", written(text, place, b"")),
        Refusal::JumpEmpty
        | Refusal::JumpRangeInvalid
        | Refusal::JumpUnboundedInAlternation
        | Refusal::JumpTooBigInAlternation => format!("found {}", jump_at(text, place)),
        Refusal::JumpAtBound => at_bound(text, place),
        Refusal::HexStringTooDeep => match text[..place].iter().rposition(|&sign| sign == b'(') {
            Some(at) => format!("the '(' at {at} stands within seven others"),
            None => String::new(),
        },
        Refusal::NotSimple | Refusal::NotPlain => {
            let found = walk(text, 1).into_iter().find_map(|token| {
                let why =
                    if refusal == Refusal::NotSimple { not_simple(text, &token) } else { not_plain(text, &token) };
                why.map(|why| (format!("{refusal}: {why}"), Some(token.at)))
            });
            return found.unwrap_or_else(|| (refusal.to_string(), None));
        }
        Refusal::Leftover => match text[..place].iter().rposition(|&sign| sign == b'}') {
            Some(at) => format!("expected nothing after the '}}' at {at}, found {}", stands(text, place)),
            None => String::new(),
        },
        _ => String::new(),
    };
    (if because.is_empty() { refusal.to_string() } else { format!("{refusal}: {because}") }, None)
}

fn is_blank(sign: u8) -> bool {
    matches!(sign, b' ' | b'\t' | b'\r' | b'\n')
}

/// Digit or `?`.
fn is_half(sign: u8) -> bool {
    sign == b'?' || sign.is_ascii_hexdigit()
}

/// The first offset from there on that has no blank.
fn after_blanks(text: &[u8], at: usize) -> usize {
    text[at..].iter().position(|&sign| !is_blank(sign)).map_or(text.len(), |n| at + n)
}

/// What stands at an offset.
fn stands(text: &[u8], at: usize) -> String {
    match text.get(at) {
        None => "the end of the text".into(),
        Some(&sign) if sign == b' ' || sign.is_ascii_graphic() => format!("'{}'", char::from(sign)),
        Some(sign) => format!("byte {sign:02X}"),
    }
}

/// Refusal 2: something needed isn't there. All before the place was read, so its signs tell what is needed.
fn missed(text: &[u8], place: usize) -> String {
    if place == 0 {
        return format!("expected '{{' as the first sign, found {}", stands(text, 0));
    }
    let mut open = Vec::new();
    let mut last = b'{';
    for (at, &sign) in text[..place].iter().enumerate() {
        match sign {
            b'(' => open.push(at),
            b')' => drop(open.pop()),
            _ => {}
        }
        if !is_blank(sign) {
            last = sign;
        }
    }
    // An empty list is missed at the `|` before it, though what is wrong stands after it.
    let after_bar = !open.is_empty() && text.get(place) == Some(&b'|') && !matches!(last, b'(' | b'|' | b'~');
    let at = if after_bar { after_blanks(text, place + 1) } else { place };
    let first = after_bar || matches!(last, b'{' | b'(' | b'|');
    let expected = match last {
        b'~' => "a byte right after '~'",
        _ if after_bar => "a byte, '~' or '(' after this '|'",
        _ if first => "a byte, '~' or '('",
        _ if open.is_empty() => "a byte, '~', '[', '(' or '}'",
        _ => "a byte, '~', '[', '(', '|' or ')'",
    };
    let hint = match (text.get(at), open.last()) {
        (Some(&sign), _) if is_half(sign) => " alone: a byte is two digits, each of which may be '?'".into(),
        (Some(b'['), _) if !first && last != b'~' => {
            ", which begins no jump: one is [n], [n-m], [n-], [-m] or [-], with decimal n and m".into()
        }
        (Some(b'/'), _) => ": comments are not taken".into(),
        (Some(b'|'), None) => ": alternatives stand in '(' and ')'".into(),
        (Some(b')'), None) => ": no '(' is open".into(),
        (Some(b'}') | None, Some(at)) => format!(": the '(' at {at} is open"),
        _ => String::new(),
    };
    format!("expected {expected}, found {}{hint}", stands(text, at))
}

/// The digits from there on, and the signs that are named, without blanks.
fn written(text: &[u8], at: usize, signs: &[u8]) -> String {
    let wanted = |sign: &u8| sign.is_ascii_digit() || signs.contains(sign);
    let mut all = text[at..].iter().copied().filter(|&sign| !is_blank(sign)).take_while(wanted).map(char::from);
    let some: String = all.by_ref().take(QUOTED).collect();
    if all.next().is_some() { some + ".." } else { some }
}

/// A jump as it is written, without blanks.
fn jump_at(text: &[u8], at: usize) -> String {
    let end = text[at..].iter().position(|&sign| sign == b']').map_or(text.len(), |n| at + n + 1);
    written(&text[..end], at, b"[-]")
}

/// What a token is, as far as a refusal depends on it.
#[derive(Clone, Copy, PartialEq, Eq)]
enum Kind {
    /// A byte, a masked byte or a negation.
    Byte,
    /// `??`
    Any,
    /// `[from-to]`, `[from-]`
    Jump(u64, Option<u64>),
    /// Alternatives, at their `(`.
    Open,
}

struct Token {
    at: usize,
    kind: Kind,
    /// How many `(` are open around it.
    depth: usize,
}

/// The tokens from there on, up to the end of the list that begins there.
fn walk(text: &[u8], from: usize) -> Vec<Token> {
    let mut tokens = Vec::new();
    let (mut at, mut depth) = (from.min(text.len()), 0);
    loop {
        at = after_blanks(text, at);
        let (kind, end) = match text[at..] {
            [b'(', ..] => (Kind::Open, at + 1),
            [b'[', ..] => match jump(text, at) {
                Some((from, to, end)) => (Kind::Jump(from, to), end),
                None => return tokens,
            },
            [b'~', a, b, ..] if is_half(a) && is_half(b) => (Kind::Byte, at + 3),
            [b'?', b'?', ..] => (Kind::Any, at + 2),
            [a, b, ..] if is_half(a) && is_half(b) => (Kind::Byte, at + 2),
            [b'|', ..] if depth > 0 => {
                at += 1;
                continue;
            }
            [b')', ..] if depth > 0 => {
                depth -= 1;
                at += 1;
                continue;
            }
            _ => return tokens,
        };
        tokens.push(Token { at, kind, depth });
        at = end;
        if kind == Kind::Open {
            depth += 1;
        }
    }
}

/// A well spelled jump: from, to, and the offset after it.
fn jump(text: &[u8], at: usize) -> Option<(u64, Option<u64>, usize)> {
    let number = |at: usize| {
        let start = after_blanks(text, at);
        let digits = text[start..].iter().take_while(|sign| sign.is_ascii_digit()).count();
        let value = |n: u64, sign: &u8| n.saturating_mul(10).saturating_add(u64::from(sign - b'0'));
        let end = start + digits;
        ((digits > 0).then(|| text[start..end].iter().fold(0, value)), after_blanks(text, end))
    };
    let (from, mut at) = number(at + 1);
    let mut to = from;
    if text.get(at) == Some(&b'-') {
        let (top, end) = number(at + 1);
        to = top;
        at = end;
    } else {
        from?;
    }
    (text.get(at) == Some(&b']')).then(|| (from.unwrap_or(0), to, at + 1))
}

/// `[1]` and `[1-1]` are read as `??`.
fn is_jump(kind: Kind) -> bool {
    matches!(kind, Kind::Jump(from, to) if (from, to) != (1, Some(1)))
}

/// Refusal 6: which of the list's bounds is a jump.
fn at_bound(text: &[u8], place: usize) -> String {
    let direct: Vec<Token> = walk(text, place).into_iter().filter(|token| token.depth == 0).collect();
    match (direct.first(), direct.last()) {
        (Some(first), _) if is_jump(first.kind) => format!("this one begins with {}", jump_at(text, first.at)),
        (_, Some(last)) if is_jump(last.kind) => {
            format!("this one ends with {} at {}", jump_at(text, last.at), last.at)
        }
        _ => String::new(),
    }
}

/// Refusal 12: why this token is not simple, if it isn't.
fn not_simple(text: &[u8], token: &Token) -> Option<String> {
    let at = token.at;
    match token.kind {
        Kind::Jump(_, None) => {
            Some(format!("the jump {} at {at} is unbounded, and 65,535 is the most", jump_at(text, at)))
        }
        Kind::Jump(_, Some(to)) if to > 65535 => {
            Some(format!("the jump {} at {at} is above 65,535", jump_at(text, at)))
        }
        Kind::Jump(from, Some(to)) if from != to && token.depth > 0 => {
            Some(format!("the jump {} at {at} is a range, and in alternatives only [n] compiles", jump_at(text, at)))
        }
        Kind::Open if token.depth > 0 => Some(format!("the '(' at {at} opens alternatives in alternatives")),
        _ => None,
    }
}

/// Refusal 19: why this token is not plain, if it isn't.
fn not_plain(text: &[u8], token: &Token) -> Option<String> {
    let found = match token.kind {
        _ if token.depth == 0 => return None,
        Kind::Byte => return None,
        Kind::Any => "??".into(),
        Kind::Jump(..) => jump_at(text, token.at),
        Kind::Open => "'('".into(),
    };
    Some(format!("expected only AB, ?X, X? and their negations in them, found {found} at {}", token.at))
}
