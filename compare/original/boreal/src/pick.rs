//! Below the original's literal picker: the rank of its choice, which it keeps to itself.

use super::{RunExtractor, get_literals_details, run_into_atoms};
use crate::regex::{Hir, visit};

/// The literals picked, and the rank of the run they come from: the choice between runs takes
/// the highest rank. Rank 0 where nothing is ranked.
pub fn pick(hir: &Hir) -> (u32, Vec<Vec<u8>>) {
    let mut found = visit(hir, RunExtractor::new());
    found.close_all();
    let highest = found.runs.iter().filter_map(|parts| Some(run_into_atoms(parts)?.rank)).max();
    (highest.unwrap_or(0), get_literals_details(hir).literals)
}
