//! Document 01 read a third time, with the requests of 02 that have landed, as plainly as it can be
//! written, without regard to speed.
//!
//! It gives the answers for which the original has no counterpart (refusals 1 and 11 to 19, of which
//! 18 for pools only), and shows where the original and the document part.

use crate::sides::{Answer, Compiled, Found, Picked, Read, Refusal, Side, Tok, Window, entries};

pub const SIDE: Side = Side {
    name: "document",
    read: Some(read),
    compile: Some(compile),
    literals: Some(literals),
    sound: Some(|words| Some(Ok(sound(words)))),
    mirror: Some(mirror),
    forward: Some(forward),
    reverse: Some(reverse),
};

fn refuse<T>(number: u32, place: usize) -> Answer<T> {
    Err(Refusal { number, place })
}

// Reading

const TEXT: usize = 4096;
const LEVELS: usize = 8;
const TOKENS: usize = 512;
const JUMP_IN_ALTERNATIVES: u32 = 200;

struct Reader<'a> {
    text: &'a [u8],
    at: usize,
    tokens: usize,
}

pub fn tokens(text: &[u8]) -> Answer<(Vec<Tok>, usize)> {
    if text.len() > TEXT {
        return refuse(1, 0);
    }
    let mut r = Reader { text, at: 0, tokens: 0 };
    if !r.take(b'{') {
        return refuse(2, 0);
    }
    r.blanks();
    let Some(list) = r.list(1)? else {
        return refuse(2, r.at);
    };
    r.close(b'}')?;
    Ok((list, r.at))
}

fn read(text: &[u8]) -> Option<Answer<Read>> {
    Some(tokens(text).map(|(list, reached)| Read { words: entries(&list), reached }))
}

fn digit(b: Option<&u8>) -> Option<u8> {
    b.and_then(|b| char::from(*b).to_digit(16)).map(|d| d as u8)
}

impl Reader<'_> {
    fn peek(&self, ahead: usize) -> Option<&u8> {
        self.text.get(self.at + ahead)
    }

    fn take(&mut self, b: u8) -> bool {
        let there = self.peek(0) == Some(&b);
        self.at += usize::from(there);
        there
    }

    fn blanks(&mut self) {
        while matches!(self.peek(0), Some(b' ' | b'\t' | b'\r' | b'\n')) {
            self.at += 1;
        }
    }

    /// A sign that may be followed by blanks.
    fn sign(&mut self, b: u8) -> bool {
        let there = self.take(b);
        if there {
            self.blanks();
        }
        there
    }

    fn close(&mut self, b: u8) -> Answer<()> {
        if self.sign(b) { Ok(()) } else { refuse(2, self.at) }
    }

    /// None for a list without a token, where nothing is read.
    fn list(&mut self, level: usize) -> Answer<Option<Vec<Tok>>> {
        let start = self.at;
        if level > LEVELS {
            return refuse(10, start);
        }
        let mut list = Vec::new();
        while let Some(token) = self.token(level)? {
            list.push(token);
        }
        let jump = |t: Option<&Tok>| matches!(t, Some(Tok::Jump(..)));
        if jump(list.first()) || (list.len() > 1 && jump(list.last())) {
            return refuse(6, start);
        }
        Ok(if list.is_empty() { None } else { Some(list) })
    }

    fn token(&mut self, level: usize) -> Answer<Option<Tok>> {
        let start = self.at;
        if self.peek(0) == Some(&b'(') {
            self.count(start)?;
            return self.alternatives(level).map(Some);
        }
        let token = match self.negated()? {
            Some(token) => Some(token),
            None => match self.plain() {
                Some(token) => Some(token),
                None => self.jump(level)?,
            },
        };
        if token.is_some() {
            self.count(start)?;
        }
        Ok(token)
    }

    fn count(&mut self, first_byte: usize) -> Answer<()> {
        self.tokens += 1;
        if self.tokens > TOKENS { refuse(11, first_byte) } else { Ok(()) }
    }

    fn negated(&mut self) -> Answer<Option<Tok>> {
        let start = self.at;
        if !self.take(b'~') {
            return Ok(None);
        }
        let next = self.at;
        match self.plain() {
            Some(Tok::Byte(b)) => Ok(Some(Tok::NotByte(b))),
            Some(Tok::Masked(_, 2)) => refuse(9, start),
            Some(Tok::Masked(d, side)) => Ok(Some(Tok::NotMasked(d, side))),
            _ => refuse(2, next),
        }
    }

    /// A byte or a masked byte, with the blanks after it.
    fn plain(&mut self) -> Option<Tok> {
        let (a, b) = (self.peek(0), self.peek(1));
        let token = match (digit(a), digit(b)) {
            (Some(high), Some(low)) => Tok::Byte(16 * high + low),
            (Some(high), None) if b == Some(&b'?') => Tok::Masked(high, 1),
            (None, Some(low)) if a == Some(&b'?') => Tok::Masked(low, 0),
            (None, None) if a == Some(&b'?') && b == Some(&b'?') => Tok::Masked(0, 2),
            _ => return None,
        };
        self.at += 2;
        self.blanks();
        Some(token)
    }

    fn number(&mut self) -> Answer<Option<u32>> {
        let start = self.at;
        let mut value: u128 = 0;
        while let Some(b) = self.peek(0).filter(|b| b.is_ascii_digit()) {
            value = (10 * value + u128::from(b - b'0')).min(1 << 64);
            self.at += 1;
        }
        if self.at == start {
            return Ok(None);
        }
        self.blanks();
        u32::try_from(value).map(Some).or(refuse(3, start))
    }

    /// None for a jump that is badly spelled, where nothing is read.
    fn jump(&mut self, level: usize) -> Answer<Option<Tok>> {
        let start = self.at;
        let Some((from, to)) = self.bounds()? else {
            self.at = start;
            return Ok(None);
        };
        match to {
            Some(0) if from == 0 => return refuse(4, start),
            Some(to) if from > to => return refuse(5, start),
            None if level > 1 => return refuse(7, start),
            Some(to) if level > 1 && to > JUMP_IN_ALTERNATIVES => return refuse(8, start),
            Some(1) if from == 1 => return Ok(Some(Tok::Masked(0, 2))),
            _ => Ok(Some(Tok::Jump(from, to))),
        }
    }

    fn bounds(&mut self) -> Answer<Option<(u32, Option<u32>)>> {
        if !self.sign(b'[') {
            return Ok(None);
        }
        let from = self.number()?;
        let to = if self.sign(b'-') {
            self.number()?
        } else if from.is_some() {
            from
        } else {
            return Ok(None);
        };
        Ok(self.sign(b']').then_some((from.unwrap_or(0), to)))
    }

    fn alternatives(&mut self, level: usize) -> Answer<Tok> {
        self.sign(b'(');
        let Some(first) = self.list(level + 1)? else {
            return refuse(2, self.at);
        };
        let mut lists = vec![first];
        loop {
            let bar = self.at;
            if !self.sign(b'|') {
                break;
            }
            let Some(list) = self.list(level + 1)? else {
                return refuse(2, bar);
            };
            lists.push(list);
        }
        self.close(b')')?;
        Ok(Tok::Alts(lists))
    }
}

// Lent pools

pub const TOKEN_POOL: usize = 4096;
pub const NODE_POOL: usize = 512;

/// A call that writes words into pools of which the first `size` words are lent: 18 before all else
/// if one is too short, and then nothing changes; else zeros there, under the words of a success.
/// Answers how many words each pool got.
pub fn into_pools<W: Copy + Default>(
    pools: &mut [Vec<W>],
    size: usize,
    answer: Answer<Vec<Vec<W>>>,
) -> Answer<Vec<usize>> {
    if pools.iter().any(|pool| pool.len() < size) {
        return refuse(18, 0);
    }
    pools.iter_mut().for_each(|pool| pool[..size].fill(W::default()));
    let words = answer?;
    for (pool, words) in pools.iter_mut().zip(&words) {
        pool[..words.len()].copy_from_slice(words);
    }
    Ok(words.iter().map(Vec::len).collect())
}

// Programs

const NODES: usize = 512;

fn word(kind: u64, first: u64, second: u64) -> u64 {
    kind + (first << 8) + (second << 24)
}

pub fn fields(w: u64) -> (u64, u64, u64) {
    (w % 256, (w >> 8) % 65536, (w >> 24) % 65536)
}

/// What an alternation or a branch counts.
fn count(w: u64) -> usize {
    fields(w).1 as usize
}

fn masked(kind: u64, digit: u8, side: u32) -> u64 {
    let digit = u64::from(digit);
    if side == 0 { word(kind, digit, 0x0F) } else { word(kind, 16 * digit, 0xF0) }
}

/// The nodes of one list, before its alternations are laid out flat.
#[derive(PartialEq)]
enum Item {
    Word(u64),
    Alternation(Vec<Vec<u64>>),
}

/// What the document and the original's builder do differently.
#[derive(Clone, Copy)]
struct Builder {
    /// The longest jump, by itself and added up.
    longest: u64,
    /// The original's fault: a jump after alternatives enlarges the last branch's.
    grows: bool,
}

const DOCUMENT: Builder = Builder { longest: 65_535, grows: false };
const ORIGINAL: Builder = Builder { longest: 255, grows: true };

/// How a list becomes nodes.
#[derive(Clone, Copy)]
struct Making {
    reverse: bool,
    in_branch: bool,
    by: Builder,
}

/// None for a list that is not simple.
fn items(list: &[Tok], how: Making) -> Option<Vec<Item>> {
    let mut out: Vec<Item> = Vec::new();
    let in_order: Vec<&Tok> =
        if how.reverse { list.iter().rev().collect() } else { list.iter().collect() };
    let jump = |out: &mut Vec<Item>, length| add_jump(out, length, how.by);
    let far = |to: u32| u64::from(to) > how.by.longest;
    for token in in_order {
        match token {
            Tok::Byte(b) => out.push(Item::Word(word(0, u64::from(*b), 0))),
            Tok::NotByte(b) => out.push(Item::Word(word(2, u64::from(*b), 0xFF))),
            Tok::Masked(_, 2) => jump(&mut out, 1),
            Tok::Masked(d, side) => out.push(Item::Word(masked(1, *d, *side))),
            Tok::NotMasked(d, side) => out.push(Item::Word(masked(2, *d, *side))),
            Tok::Jump(_, to) if to.is_none_or(far) => return None,
            Tok::Jump(from, to) if *to == Some(*from) => jump(&mut out, u64::from(*from)),
            Tok::Jump(..) | Tok::Alts(_) if how.in_branch => return None,
            Tok::Jump(from, to) => {
                out.push(Item::Word(word(4, u64::from(*from), to.map_or(0, u64::from))));
            }
            Tok::Alts(lists) => {
                let inner = Making { in_branch: true, ..how };
                let branches: Option<Vec<_>> =
                    lists.iter().map(|l| Some(flat(&items(l, inner)?))).collect();
                out.push(Item::Alternation(branches?));
            }
        }
    }
    Some(out)
}

fn add_jump(out: &mut Vec<Item>, length: u64, by: Builder) {
    let last = match out.last_mut() {
        Some(Item::Word(last)) => Some(last),
        Some(Item::Alternation(branches)) if by.grows => {
            branches.last_mut().and_then(|b| b.last_mut())
        }
        _ => None,
    };
    match last {
        Some(last) if *last % 256 == 3 && fields(*last).1 + length <= by.longest => {
            *last = word(3, fields(*last).1 + length, 0);
        }
        _ => out.push(Item::Word(word(3, length, 0))),
    }
}

fn flat(items: &[Item]) -> Vec<u64> {
    let mut words = Vec::new();
    for item in items {
        match item {
            Item::Word(w) => words.push(*w),
            Item::Alternation(branches) => {
                let count: usize = branches.iter().map(|b| b.len() + 1).sum();
                words.push(word(6, count as u64, 0));
                for branch in branches {
                    words.push(word(7, branch.len() as u64, 0));
                    words.extend(branch);
                }
            }
        }
    }
    words
}

fn long_branch(items: &[Item]) -> bool {
    items.iter().any(|item| match item {
        Item::Word(_) => false,
        Item::Alternation(branches) => branches.iter().any(|b| b.len() > 255),
    })
}

fn both(list: &[Tok], by: Builder) -> Option<(Vec<Item>, Vec<Item>)> {
    let one = |reverse| items(list, Making { reverse, in_branch: false, by });
    Some((one(false)?, one(true)?))
}

/// What the original's builder makes of a text: in fields of 8 bits, with its fault, and without the
/// limits of nodes.
pub fn as_original(text: &[u8]) -> Option<Compiled> {
    let (forward, reverse) = both(&tokens(text).ok()?.0, ORIGINAL)?;
    Some(Compiled { forward: flat(&forward), reverse: flat(&reverse) })
}

/// Whether the original's fault changes what it makes of a list.
pub fn grown(list: &[Tok]) -> bool {
    both(list, ORIGINAL) != both(list, Builder { grows: false, ..ORIGINAL })
}

/// Whether the original's fields suffice for the programs of a list, by its tokens alone: each jump
/// with an upper bound has one of at most 255, and the fixed jumps that follow each other sum to no
/// more. Then both sides have to build the same; else ours has a field above 255, which the original
/// declines or splits. An unbounded jump is in no field of either.
pub fn narrow(list: &[Tok]) -> bool {
    let mut sum = 0;
    list.iter().all(|token| {
        sum = match token {
            Tok::Masked(_, 2) => sum + 1,
            Tok::Jump(from, Some(to)) if from == to => sum + u64::from(*to),
            _ => 0,
        };
        sum <= 255
            && match token {
                Tok::Jump(_, to) => to.is_none_or(|to| to <= 255),
                Tok::Alts(lists) => lists.iter().all(|l| narrow(l)),
                _ => true,
            }
    })
}

/// The same of a sound program, by its words: values, masks and branches' counts are bytes there, and
/// an alternation's count has 16 bits on both sides.
pub fn narrow_words(words: &[u64]) -> bool {
    words.iter().all(|w| match fields(*w) {
        (3 | 4, a, b) => a <= 255 && b <= 255,
        _ => true,
    })
}

pub fn programs(list: &[Tok]) -> Answer<Compiled> {
    let Some((forward, reverse)) = both(list, DOCUMENT) else {
        return refuse(12, 0);
    };
    if long_branch(&forward) || long_branch(&reverse) {
        return refuse(14, 0);
    }
    let (forward, reverse) = (flat(&forward), flat(&reverse));
    if forward.len() > NODES || reverse.len() > NODES {
        return refuse(13, 0);
    }
    Ok(Compiled { forward, reverse })
}

fn compile(text: &[u8]) -> Option<Answer<Compiled>> {
    Some(tokens(text).and_then(|(list, _)| programs(&list)))
}

/// What document 01 and Req 07 ask of a word by itself.
fn formed(w: u64) -> bool {
    let (kind, a, b) = fields(w);
    w < 1 << 40
        && match kind {
            0 => a <= 255 && b == 0,
            1 | 2 => a <= 255 && b <= 255,
            3 => b == 0,
            4 => a <= b,
            5 => a == 0 && b == 0,
            6 => b == 0,
            7 => a <= 255 && b == 0,
            _ => false,
        }
}

/// What can't have been meant by a word, and is refused since Req 08.
pub fn unmeant(w: u64) -> Option<&'static str> {
    match fields(w) {
        (1, value, mask) if value & mask != value => Some("value outside the mask"),
        (2, value, mask) if value & mask != value => Some("negated value outside the mask"),
        (3, 0, _) => Some("jump of 0"),
        (7, 0, _) => Some("empty branch"),
        _ => None,
    }
}

fn proper(w: u64) -> bool {
    formed(w) && unmeant(w).is_none()
}

fn sound_branches(mut words: &[u64], good: fn(u64) -> bool) -> bool {
    while let Some((w, rest)) = words.split_first() {
        let Some((branch, rest)) = rest.split_at_checked(count(*w)) else {
            return false;
        };
        let plain = |w: &u64| good(*w) && matches!(w % 256, 0 | 1 | 2 | 3 | 5);
        if w % 256 != 7 || !good(*w) || !branch.iter().all(plain) {
            return false;
        }
        words = rest;
    }
    true
}

/// Whether a program of which each word has to pass a test is sound.
fn sound_by(mut words: &[u64], good: fn(u64) -> bool) -> bool {
    if words.len() > NODES {
        return false;
    }
    while let Some((w, rest)) = words.split_first() {
        words = rest;
        if !good(*w) || w % 256 == 7 {
            return false;
        }
        if w % 256 == 6 {
            let Some((branches, rest)) = words.split_at_checked(count(*w)) else {
                return false;
            };
            if branches.is_empty() || !sound_branches(branches, good) {
                return false;
            }
            words = rest;
        }
    }
    true
}

pub fn sound(words: &[u64]) -> bool {
    sound_by(words, proper)
}

/// Whether a program is unsound by Req 08 alone: the original, which tests nothing, still has an
/// answer that means something.
pub fn unsound_since_08(words: &[u64]) -> bool {
    sound_by(words, formed) && !sound(words)
}

fn tested(words: &[u64]) -> Answer<()> {
    if words.len() > NODES {
        refuse(13, 0)
    } else if !sound(words) {
        refuse(15, 0)
    } else {
        Ok(())
    }
}

/// The items of a sound program.
fn parts(mut words: &[u64]) -> Vec<Item> {
    let mut out = Vec::new();
    while let Some((w, rest)) = words.split_first() {
        words = rest;
        if w % 256 != 6 {
            out.push(Item::Word(*w));
            continue;
        }
        let (mut inner, rest) = words.split_at(count(*w));
        words = rest;
        let mut branches = Vec::new();
        while let Some((mark, rest)) = inner.split_first() {
            let (branch, rest) = rest.split_at(count(*mark));
            branches.push(branch.to_vec());
            inner = rest;
        }
        out.push(Item::Alternation(branches));
    }
    out
}

fn mirror(words: &[u64]) -> Option<Answer<Vec<u64>>> {
    Some(tested(words).map(|()| {
        let mut items = parts(words);
        items.reverse();
        for item in &mut items {
            if let Item::Alternation(branches) = item {
                branches.iter_mut().for_each(|b| b.reverse());
            }
        }
        flat(&items)
    }))
}

// Checks: every choice written out as a row of words, and the first row that fits

/// One range may have all its 65,536 lengths, beside a few branches.
const ROWS: usize = 200_000;

/// What an item may be, in order: a range is a jump of one of its lengths, an alternation one of its
/// branches. A length above the room can't fit, and isn't written out.
fn choices(item: &Item, room: usize, short_first: bool) -> Vec<Vec<u64>> {
    match item {
        Item::Word(w) => match fields(*w) {
            (4, min, max) => {
                let lengths = min..=max.min(room as u64);
                let mut all: Vec<_> = lengths.map(|n| vec![word(3, n, 0)]).collect();
                if !short_first {
                    all.reverse();
                }
                all
            }
            _ => vec![vec![*w]],
        },
        Item::Alternation(branches) => branches.clone(),
    }
}

/// The rows in order: the last item's choice changes from each row to the next, that of the one
/// before when these have all been. None where there are too many to try.
fn rows(
    words: &[u64],
    room: usize,
    short_first: bool,
) -> Option<impl DoubleEndedIterator<Item = Vec<u64>>> {
    let items: Vec<_> = parts(words).iter().map(|item| choices(item, room, short_first)).collect();
    let number = items.iter().try_fold(1, |n, item| Some(n * item.len()).filter(|n| *n <= ROWS))?;
    Some((0..number).map(move |mut row| {
        let mut taken = Vec::new();
        for item in items.iter().rev() {
            taken.push(&item[row % item.len()]);
            row /= item.len();
        }
        taken.into_iter().rev().flatten().copied().collect()
    }))
}

/// How many bytes a word of a row takes up.
fn width(w: u64) -> usize {
    match fields(w) {
        (3, n, _) => n as usize,
        _ => 1,
    }
}

fn size(row: &[u64]) -> usize {
    row.iter().map(|w| width(*w)).sum()
}

fn passes(w: u64, b: u8) -> bool {
    let b = u64::from(b);
    match fields(w) {
        (0, value, _) => b == value,
        (1, value, mask) => b & mask == value,
        (2, value, mask) => b & mask != value,
        (5, ..) => b != 10,
        _ => true,
    }
}

/// Whether a row fits the first of the bytes: a jump any of them, each other word its one.
fn fits(row: &[u64], bytes: &[u8]) -> bool {
    let mut left = bytes;
    for w in row {
        let Some((here, rest)) = left.split_at_checked(width(*w)) else {
            return false;
        };
        if w % 256 != 3 && !passes(*w, here[0]) {
            return false;
        }
        left = rest;
    }
    true
}

fn door(words: &[u64], w: Window) -> Answer<()> {
    if w.start > w.end || w.end > w.hay.len() { refuse(16, 0) } else { tested(words) }
}

pub fn forward(words: &[u64], w: Window) -> Option<Answer<Found>> {
    match door(words, w) {
        Ok(()) => forward_search(words, w).map(Ok),
        Err(refusal) => Some(Err(refusal)),
    }
}

/// The search alone, also of a program that is unsound by Req 08 alone.
pub fn forward_search(words: &[u64], w: Window) -> Option<Found> {
    let bytes = &w.hay[w.start..w.end];
    let first = rows(words, bytes.len(), true)?.find(|row| fits(row, bytes));
    Some(first.map_or(Found::Nothing, |row| Found::At(w.start + size(&row))))
}

pub fn reverse(words: &[u64], w: Window) -> Option<Answer<Found>> {
    match door(words, w) {
        Ok(()) => reverse_search(words, w).map(Ok),
        Err(refusal) => Some(Err(refusal)),
    }
}

pub fn reverse_search(words: &[u64], w: Window) -> Option<Found> {
    let bytes: Vec<u8> = w.hay[w.start..w.end].iter().rev().copied().collect();
    let first = rows(words, bytes.len(), false)?.find(|row| fits(row, &bytes));
    Some(first.map_or(Found::Nothing, |row| Found::At(w.end - size(&row))))
}

/// What the second forward door hands back, by the first one's answer.
pub fn left<'h>(answer: &Answer<Found>, w: Window<'h>) -> &'h [u8] {
    match answer {
        Ok(Found::At(end)) => &w.hay[*end..w.end],
        _ => &[],
    }
}

/// The offsets, rising, at which a match of the tokens from `start` on can end: a byte matches
/// itself, a jump any bytes of a length within its bounds, alternatives what one list matches.
pub fn ends(list: &[Tok], hay: &[u8], start: usize) -> Vec<usize> {
    let mut places = vec![start];
    for token in list {
        let mut next: Vec<usize> =
            places.iter().flat_map(|at| ends_of_token(token, hay, *at)).collect();
        next.sort_unstable();
        next.dedup();
        places = next;
    }
    places
}

/// The same backwards: the offsets at which a match that ends at `end` can start. A match of the
/// tokens read backwards is one of the haystack read backwards.
pub fn starts(list: &[Tok], hay: &[u8], end: usize) -> Vec<usize> {
    let back: Vec<u8> = hay[..end].iter().rev().copied().collect();
    ends(&backwards(list), &back, 0).iter().rev().map(|n| end - n).collect()
}

fn backwards(list: &[Tok]) -> Vec<Tok> {
    let one = |token: &Tok| match token {
        Tok::Alts(lists) => Tok::Alts(lists.iter().map(|l| backwards(l)).collect()),
        other => other.clone(),
    };
    list.iter().rev().map(one).collect()
}

fn ends_of_token(token: &Tok, hay: &[u8], at: usize) -> Vec<usize> {
    let left = hay.len() - at;
    let one = |fits: bool| if fits { vec![at + 1] } else { Vec::new() };
    match token {
        Tok::Jump(from, to) => {
            let most = to.map_or(left, |to| left.min(to as usize));
            (*from as usize..=most).map(|n| at + n).collect()
        }
        Tok::Alts(lists) => lists.iter().flat_map(|l| ends(l, hay, at)).collect(),
        Tok::Masked(_, 2) => one(left > 0),
        Tok::Byte(b) => one(hay.get(at) == Some(b)),
        other => one(left > 0 && class(other).is_some_and(|c| c.contains(&hay[at]))),
    }
}

// Literals

const LITERALS: usize = 256;

#[derive(Debug)]
enum Part {
    Literal(Vec<u8>),
    Class(Vec<u8>),
    Alts(Vec<Vec<Part>>),
}

fn class(token: &Tok) -> Option<Vec<u8>> {
    let all = 0..=255u8;
    let half = |b: u8, d: u8, side: u32| if side == 0 { b % 16 == d } else { b / 16 == d };
    Some(match token {
        Tok::NotByte(x) => all.filter(|b| b != x).collect(),
        Tok::Masked(d, side) if *side < 2 => all.filter(|b| half(*b, *d, *side)).collect(),
        Tok::NotMasked(d, side) => all.filter(|b| !half(*b, *d, *side)).collect(),
        _ => return None,
    })
}

/// The parts of tokens that are bytes, classes or, outside a branch, alternatives.
fn run_parts(tokens: &[Tok], in_branch: bool) -> Answer<Vec<Part>> {
    let mut out = Vec::new();
    for token in tokens {
        match token {
            Tok::Byte(b) => match out.last_mut() {
                Some(Part::Literal(lit)) => lit.push(*b),
                _ => out.push(Part::Literal(vec![*b])),
            },
            Tok::Alts(lists) if !in_branch => {
                let alts: Answer<Vec<_>> = lists.iter().map(|l| run_parts(l, true)).collect();
                out.push(Part::Alts(alts?));
            }
            other => match class(other) {
                Some(members) => out.push(Part::Class(members)),
                None => return refuse(19, 0),
            },
        }
    }
    Ok(out)
}

fn score(lit: &[u8]) -> u32 {
    let one = |b: &u8| if [0x00, 0x20, 0x90, 0xCC, 0xFF].contains(b) { 10 } else { 20 };
    let sum = |part: &[u8]| part.iter().map(one).sum::<u32>();
    lit.windows(lit.len().clamp(1, 4)).map(sum).max().unwrap_or(0)
}

fn length(part: &Part) -> usize {
    match part {
        Part::Literal(lit) => lit.len(),
        Part::Class(_) => 1,
        Part::Alts(alts) => alts.iter().map(|a| a.iter().map(length).sum()).min().unwrap_or(0),
    }
}

/// Capped, since only values up to 256 matter.
fn combinations(parts: &[Part]) -> usize {
    let one = |part: &Part| match part {
        Part::Literal(_) => 1,
        Part::Class(members) => members.len(),
        Part::Alts(alts) => alts.iter().map(|a| combinations(a)).fold(1, |x, y| (x * y).min(1000)),
    };
    parts.iter().map(one).fold(1, |x, y| (x * y).min(1000))
}

fn number(parts: &[Part]) -> usize {
    let one = |part: &Part| match part {
        Part::Literal(_) => 1,
        Part::Class(members) => members.len(),
        Part::Alts(alts) => alts.iter().map(|a| number(a)).sum(),
    };
    parts.iter().map(one).fold(1, |x, y| (x * y).min(1_000_000))
}

fn spelled(parts: &[Part]) -> Vec<Vec<u8>> {
    let mut all = vec![Vec::new()];
    for part in parts {
        let with = |ends: &[Vec<u8>], all: &[Vec<u8>]| -> Vec<Vec<u8>> {
            all.iter().flat_map(|p| ends.iter().map(move |e| [&p[..], e].concat())).collect()
        };
        all = match part {
            Part::Literal(lit) => with(&[lit.clone()], &all),
            Part::Class(members) => {
                with(&members.iter().map(|b| vec![*b]).collect::<Vec<_>>(), &all)
            }
            Part::Alts(alts) => alts.iter().flat_map(|a| with(&spelled(a), &all)).collect(),
        };
    }
    all
}

/// None for a slice that is skipped.
fn rank(slice: &[Part]) -> Answer<Option<u32>> {
    let combinations = combinations(slice);
    if combinations > 256 {
        return Ok(None);
    }
    if number(slice) > LITERALS {
        return refuse(17, 0);
    }
    let least = spelled(slice).iter().map(|l| score(l)).min().unwrap_or(0);
    let less = match combinations {
        0..=1 => 0,
        2..=16 => 10,
        17..=99 => 20,
        _ => 40,
    };
    Ok(Some(least.saturating_sub(less)))
}

/// None where nothing in the run is ranked.
fn best_of_run(run: &[Part]) -> Answer<Option<Picked>> {
    for part in run {
        if let Part::Literal(lit) = part {
            if score(lit) >= 80 {
                return Ok(Some(Picked { rank: score(lit), literals: vec![lit.clone()] }));
            }
        }
    }
    let mut best: Option<(u32, usize, usize)> = None;
    for first in 0..run.len() {
        for end in first + 1..=run.len() {
            if let Some(rank) = rank(&run[first..end])? {
                if best.is_none_or(|(highest, ..)| rank > highest) {
                    best = Some((rank, first, end));
                }
            }
            if run[first + 1..end].iter().map(length).sum::<usize>() >= 4 {
                break;
            }
        }
    }
    let Some((rank, mut first, mut end)) = best else {
        return Ok(None);
    };
    let literal = |at: usize| matches!(run.get(at), Some(Part::Literal(_)));
    while first > 0 && literal(first - 1) {
        first -= 1;
    }
    while literal(end) {
        end += 1;
    }
    Ok(Some(Picked { rank, literals: spelled(&run[first..end]) }))
}

pub fn pick(list: &[Tok]) -> Answer<Picked> {
    let closes = |t: &Tok| matches!(t, Tok::Jump(..) | Tok::Masked(_, 2));
    let runs: Answer<Vec<_>> = list.split(closes).map(|s| run_parts(s, false)).collect();
    let mut runs = runs?;
    runs.rotate_left(1);
    let mut best: Option<Picked> = None;
    let shortest = |p: &Picked| p.literals.iter().map(Vec::len).min();
    for run in runs.iter().filter(|run| !run.is_empty()) {
        let Some(new) = best_of_run(run)? else {
            continue;
        };
        let better =
            best.as_ref().is_none_or(|old| (new.rank, shortest(&new)) > (old.rank, shortest(old)));
        if better {
            best = Some(new);
        }
    }
    Ok(best.unwrap_or(Picked { rank: 0, literals: Vec::new() }))
}

fn literals(text: &[u8]) -> Option<Answer<Picked>> {
    Some(tokens(text).and_then(|(list, _)| pick(&list)))
}
