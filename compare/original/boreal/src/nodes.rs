//! Below the original's simple validator: nodes from and to the words of document 02, the two
//! checks on them, and the loops that the benchmark times.

use super::{SimpleNode, SimpleValidator, check_nodes, check_nodes_reverse};
use crate::matcher::Modifiers;
use crate::matcher::analysis::analyze_hir;
use crate::regex::Hir;

pub struct Program(SimpleValidator);

impl Program {
    /// None where a word has no node or does not fit one's fields, which are narrower; nothing else
    /// of soundness is tested.
    pub fn new(words: &[u64]) -> Option<Self> {
        let nodes: Option<Vec<_>> = words.iter().map(|word| node(*word)).collect();
        Some(Program(SimpleValidator { nodes: nodes?.into_boxed_slice() }))
    }

    /// The original's builder on a tree; None where it leaves the tree to another validator.
    pub fn build(hir: &Hir, reverse: bool) -> Option<Self> {
        let modifiers = Modifiers { dot_all: true, ..Modifiers::default() };
        SimpleValidator::new(hir, &analyze_hir(hir, true), modifiers, reverse).map(Program)
    }

    pub fn words(&self) -> Vec<u64> {
        self.0.nodes.iter().map(word).collect()
    }

    pub fn forward(&self, hay: &[u8], start: usize, end: usize) -> Option<usize> {
        self.0.find_anchored_fwd(hay, start, end)
    }

    pub fn reverse(&self, hay: &[u8], start: usize, end: usize) -> Option<usize> {
        self.0.find_anchored_rev(hay, start, end)
    }

    /// One more than the last start from which the program is found, or 0.
    #[inline(never)]
    pub fn hits(&self, hay: &[u8]) -> usize {
        let nodes = &self.0.nodes[..];
        let mut n = 0;
        let mut i = 0;
        while i < hay.len() {
            let got = check_nodes(nodes, &hay[i..]);
            i += 1;
            if got.is_some() {
                n = i;
            }
        }
        n
    }

    /// One more than the last end before which the program is found, or 0.
    #[inline(never)]
    pub fn hits_back(&self, hay: &[u8]) -> usize {
        let nodes = &self.0.nodes[..];
        let mut n = 0;
        let mut i = 0;
        while i < hay.len() {
            let got = check_nodes_reverse(nodes, &hay[..i]);
            i += 1;
            if got.is_some() {
                n = i;
            }
        }
        n
    }

    /// As `hits`, with a range before the program that the original's fields can't hold.
    #[inline(never)]
    pub fn far_hits(&self, (min, max): (u16, u16), hay: &[u8]) -> usize {
        let nodes = &self.0.nodes[..];
        let mut n = 0;
        let mut i = 0;
        while i < hay.len() {
            let got = check_range(min, max, nodes, &hay[i..]);
            i += 1;
            if got.is_some() {
                n = i;
            }
        }
        n
    }

    /// As `hits_back`, with such a range.
    #[inline(never)]
    pub fn far_hits_back(&self, (min, max): (u16, u16), hay: &[u8]) -> usize {
        let nodes = &self.0.nodes[..];
        let mut n = 0;
        let mut i = 0;
        while i < hay.len() {
            let got = check_range_reverse(min, max, nodes, &hay[..i]);
            i += 1;
            if got.is_some() {
                n = i;
            }
        }
        n
    }
}

/// What the original does with a range, for lengths of 16 bits: its own check of the rest after each
/// length, short before long.
fn check_range<'a>(min: u16, max: u16, nodes: &[SimpleNode], mem: &'a [u8]) -> Option<&'a [u8]> {
    for length in min..=max {
        let rest = mem.get(usize::from(length)..)?;
        if let Some(left) = check_nodes(nodes, rest) {
            return Some(left);
        }
    }
    None
}

/// The same in reverse, long before short; those longer than the window are passed over.
fn check_range_reverse<'a>(
    min: u16,
    max: u16,
    nodes: &[SimpleNode],
    mem: &'a [u8],
) -> Option<&'a [u8]> {
    for length in (min..=max).rev() {
        if let Some(keep) = mem.len().checked_sub(usize::from(length)) {
            if let Some(left) = check_nodes_reverse(nodes, &mem[..keep]) {
                return Some(left);
            }
        }
    }
    None
}

fn node(word: u64) -> Option<SimpleNode> {
    let (kind, first, second) = (word as u8, (word >> 8) as u16, word >> 24);
    let (a, b) = (u8::try_from(first).ok(), u8::try_from(second).ok());
    Some(match kind {
        0 => SimpleNode::Byte(a?),
        1 => SimpleNode::Mask { value: a?, mask: b? },
        2 => SimpleNode::NegatedMask { value: a?, mask: b? },
        3 => SimpleNode::Jump(a?),
        4 => SimpleNode::JumpRange(a?, b?),
        5 => SimpleNode::Dot,
        6 => SimpleNode::Alternation(first),
        7 => SimpleNode::AltBranch(a?),
        _ => return None,
    })
}

fn word(node: &SimpleNode) -> u64 {
    let (kind, first, second) = match node {
        SimpleNode::Byte(a) => (0, u16::from(*a), 0),
        SimpleNode::Mask { value, mask } => (1, u16::from(*value), *mask),
        SimpleNode::NegatedMask { value, mask } => (2, u16::from(*value), *mask),
        SimpleNode::Jump(a) => (3, u16::from(*a), 0),
        SimpleNode::JumpRange(a, b) => (4, u16::from(*a), *b),
        SimpleNode::Dot => (5, 0, 0),
        SimpleNode::Alternation(count) => (6, *count, 0),
        SimpleNode::AltBranch(a) => (7, u16::from(*a), 0),
    };
    kind + (u64::from(first) << 8) + (u64::from(second) << 24)
}
