//! What [`tuned`](crate::tuned) and [`counted`](crate::counted) have in common: all but how they
//! count boundaries.
//!
//! What makes both fast: all arrays have fixed sizes and stay from one sheet to the next; each vertex
//! has its cluster's label, found in one load; what goes over labels or figures is free of branches,
//! so that the compiler makes vector code of it; and no index in a hot loop needs a test, as an array
//! has an entry for each number of 16 bits, or is gone into modulo its size.

pub mod clusters;
pub mod edges;
pub mod figures;
pub mod labels;
mod peeling;
mod rules;
pub mod steps;

use reference::Board;

pub const VERTICES: usize = 1024;
pub const EDGES: usize = 4096;

/// How many numbers of 16 bits there are.
pub const ALL: usize = 1 << 16;

/// The two ends of each edge.
pub fn pairs(board: &Board) -> &[[u16; 2]] {
    board.ends.as_chunks().0
}
