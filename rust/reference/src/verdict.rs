//! Document 01, "Verdict". By document 02, K5, no syndrome has an open vertex, so none is where two
//! syndromes differ.

use crate::board::{Sheet, together};
use crate::decoding::key;
use crate::refusal::{self, Refusal};

/// How a handed-in set compares with the correction.
#[derive(Clone, Copy, Debug, PartialEq, Eq)]
pub enum Verdict {
    /// The smallest vertex at which its syndrome differs from the one put.
    Off(usize),
    /// Together with the correction it doesn't wind.
    Same,
    /// Together with the correction it winds, with this exclusive or of marks.
    Wound(u8),
}

/// The verdict on a handed-in set, or the first refusal.
pub fn verdict(sheet: &Sheet, handed: &[u8]) -> Result<Verdict, Refusal> {
    refusal::verdict(sheet, handed)?;
    Ok(judged(sheet, handed, &key(sheet)?.correction))
}

/// The verdict on a handed-in set for a sheet with this correction, where neither breaks a rule.
pub(crate) fn judged(sheet: &Sheet, handed: &[u8], correction: &[u8]) -> Verdict {
    let board = &sheet.board;
    let differing = together(&board.syndrome(handed), &sheet.syndrome);
    if let Some(vertex) = differing.iter().position(|&differs| differs == 1) {
        return Verdict::Off(vertex);
    }
    match board.crossings(&together(handed, correction)) {
        0 => Verdict::Same,
        marks => Verdict::Wound(marks),
    }
}
