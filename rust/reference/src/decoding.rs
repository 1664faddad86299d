//! Decoding: the tests, "no correction", growth and peeling.

use crate::board::{Board, Sheet, size};
use crate::components::components;
use crate::growth::{self, FULL, Grown};
use crate::open_sides::{odd_components, wanted_ends};
use crate::peeling;
use crate::refusal::{self, NO_CORRECTION, Refusal, Test, refuse};

/// What decoding returns and writes.
#[derive(Clone, Debug, PartialEq, Eq)]
pub struct Key {
    pub growths: usize,
    pub support: Vec<u8>,
    pub correction: Vec<u8>,
}

impl Key {
    /// The number of correction edges.
    pub fn edges(&self) -> usize {
        size(&self.correction)
    }
}

/// Decoding with buffers of the right lengths to fill.
pub fn decode(sheet: &Sheet) -> Result<Key, Refusal> {
    let edges = sheet.board.edges();
    decode_into(sheet, edges, edges)
}

/// Decoding with buffers of these lengths to fill.
pub fn decode_into(sheet: &Sheet, support: usize, correction: usize) -> Result<Key, Refusal> {
    refusal::decoding(sheet, support, correction)?;
    key(sheet)
}

/// The key of a sheet that breaks no rule, or number 10.
pub(crate) fn key(sheet: &Sheet) -> Result<Key, Refusal> {
    every_part_even(sheet)?;
    let Grown { growths, support } = growth::grow(sheet);
    let correction = peeled(sheet, &support);
    Ok(Key { growths, support, correction })
}

/// Number 10 where some connected part of the whole board is odd.
pub(crate) fn every_part_even(sheet: &Sheet) -> Test {
    match smallest_odd(&sheet.board, &sheet.syndrome) {
        Some(vertex) => refuse(NO_CORRECTION, vertex),
        None => Ok(()),
    }
}

/// The correction in the forest of the full edges, once growth has ended.
pub(crate) fn peeled(sheet: &Sheet, support: &[u8]) -> Vec<u8> {
    let board = &sheet.board;
    let full = |edge: usize| support[edge] == FULL;
    let wanted = wanted_ends(board, &sheet.syndrome, &components(board, full));
    peeling::peel(board, &peeling::forest(board, full), &wanted)
        .expect("no cluster is odd, so the forest has the correction")
}

/// Document 02, K2 and K5: the smallest vertex of all connected parts of the board that hold an odd
/// number of syndrome vertices and no open vertex.
pub fn smallest_odd(board: &Board, syndrome: &[u8]) -> Option<usize> {
    let part = components(board, |_| true);
    // A part is named by its smallest vertex.
    odd_components(board, syndrome, &part).iter().position(|&odd| odd)
}
