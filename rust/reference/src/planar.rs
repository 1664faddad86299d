//! Document 02, K5: the planar board of a side.

use crate::board::Board;
use crate::refusal::{self, Refusal};

/// The planar board of this side, or a refusal; the buffers lent for ends, marks and open bytes have
/// these lengths.
pub fn planar_into(side: u32, ends: usize, marks: usize, open: usize) -> Result<Board, Refusal> {
    refusal::planar(side, ends, marks, open)?;
    Ok(planar(side as usize))
}

/// The planar board of a side in range: rows of one vertex more than the side, the first and the last
/// of each open. Edges run along the rows, and then down the columns between.
pub fn planar(side: usize) -> Board {
    let vertex = |row: usize, column: usize| row * (side + 1) + column;
    let edge = |from: usize, to: usize, mark: u8| (from as u16, to as u16, mark);
    let mut edges = Vec::new();
    for row in 0..side {
        for column in 0..side {
            let mark = if column == 0 { 1 } else { 0 };
            edges.push(edge(vertex(row, column), vertex(row, column + 1), mark));
        }
    }
    for row in 0..side - 1 {
        for column in 1..side {
            edges.push(edge(vertex(row, column), vertex(row + 1, column), 0));
        }
    }
    let open: Vec<usize> = (0..side).flat_map(|row| [vertex(row, 0), vertex(row, side)]).collect();
    Board::new(side * (side + 1), &edges).with_open(&open)
}
