//! The tests 1 to 4, 6 to 8, 16 and 17, each as one pass without a branch.

use reference::Sheet;

use super::{EDGES, VERTICES};

pub fn kept(sheet: &Sheet, support: &[u8], correction: &[u8]) -> bool {
    let Sheet { board, syndrome, loss } = sheet;
    let edges = board.ends.len() / 2;
    (1..=VERTICES).contains(&board.vertices)
        && board.ends.len().is_multiple_of(2)
        && edges <= EDGES
        && [board.marks.len(), loss.len(), support.len(), correction.len()] == [edges; 4]
        && [syndrome.len(), board.open.len()] == [board.vertices; 2]
        && usize::from(board.ends.iter().fold(0, |top, &end| top.max(end))) < board.vertices
        && largest(&board.marks) <= 3
        && [syndrome, loss, &board.open].iter().all(|bytes| largest(bytes) <= 1)
        && syndrome.iter().zip(&board.open).fold(0, |any, (lit, open)| any | (lit & open)) == 0
}

/// The largest of some bytes, 0 where there are none.
pub fn largest(bytes: &[u8]) -> u8 {
    bytes.iter().fold(0, |top, &byte| top.max(byte))
}
