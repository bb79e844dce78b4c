//! A stand-in for the original's expression tree and its visitor, which are not at hand: the
//! shapes that the compared files take apart, visited parents first.

use boreal_parser::regex::{AssertionKind, RepetitionKind};

use crate::bitmaps::Bitmap;

#[derive(Clone, Debug)]
pub enum Hir {
    Alternation(Vec<Hir>),
    Assertion(AssertionKind),
    Class(Class),
    Mask { value: u8, mask: u8, negated: bool },
    Concat(Vec<Hir>),
    Dot,
    Empty,
    Group(Box<Hir>),
    Literal(u8),
    Repetition { hir: Box<Hir>, kind: RepetitionKind, greedy: bool },
}

#[derive(Clone, Debug)]
pub struct Class {
    pub bitmap: Bitmap,
}

pub enum VisitAction {
    Continue,
    Skip,
}

pub trait Visitor {
    type Output;

    fn visit_pre(&mut self, node: &Hir) -> VisitAction;

    fn visit_post(&mut self, _node: &Hir) {}

    /// Called between two branches.
    fn visit_alternation_in(&mut self) {}

    fn finish(self) -> Self::Output;
}

pub fn visit<V: Visitor>(hir: &Hir, mut visitor: V) -> V::Output {
    walk(hir, &mut visitor);
    visitor.finish()
}

/// A skipped node is left like any other: the visitors count their nodes when leaving them.
fn walk<V: Visitor>(hir: &Hir, visitor: &mut V) {
    if let VisitAction::Continue = visitor.visit_pre(hir) {
        match hir {
            Hir::Alternation(branches) => {
                for (at, branch) in branches.iter().enumerate() {
                    if at > 0 {
                        visitor.visit_alternation_in();
                    }
                    walk(branch, visitor);
                }
            }
            Hir::Concat(parts) => parts.iter().for_each(|part| walk(part, visitor)),
            Hir::Group(inner) | Hir::Repetition { hir: inner, .. } => walk(inner, visitor),
            Hir::Assertion(_)
            | Hir::Class(_)
            | Hir::Mask { .. }
            | Hir::Dot
            | Hir::Empty
            | Hir::Literal(_) => (),
        }
    }
    visitor.visit_post(hir);
}
