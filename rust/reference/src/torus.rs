//! Document 01, "Distance and torus": the torus of a side, and the loops that wind once around it.

use crate::board::{Board, set_of};
use crate::refusal::{self, Refusal};

/// The torus of this side, or a refusal; the buffers lent for ends and marks have these lengths.
pub fn torus_into(side: u32, ends: usize, marks: usize) -> Result<Board, Refusal> {
    refusal::torus(side, ends, marks)?;
    Ok(torus(side as usize))
}

/// The torus of a side in range.
pub fn torus(side: usize) -> Board {
    let vertex = |row: usize, column: usize| (row % side * side + column % side) as u16;
    let mut edges = Vec::new();
    for row in 0..side {
        for column in 0..side {
            let here = vertex(row, column);
            let last = side - 1;
            edges.push((here, vertex(row, column + 1), if column == last { 1 } else { 0 }));
            edges.push((here, vertex(row + 1, column), if row == last { 2 } else { 0 }));
        }
    }
    Board::new(side * side, &edges)
}

/// The loop along a row of the torus of a side: its edges to the next column.
pub fn row_loop(side: usize, row: usize) -> Vec<u8> {
    let edges: Vec<usize> = (0..side).map(|column| 2 * (row * side + column)).collect();
    set_of(2 * side * side, &edges)
}

/// The loop down a column: its edges to the next row.
pub fn column_loop(side: usize, column: usize) -> Vec<u8> {
    let edges: Vec<usize> = (0..side).map(|row| 2 * (row * side + column) + 1).collect();
    set_of(2 * side * side, &edges)
}
