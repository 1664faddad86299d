//! Document 02, K8, "Growing in rounds": all odd clusters grow together. By K5 none that holds an open
//! vertex is odd.

use crate::board::{Board, Sheet, size};
use crate::components::components;
use crate::decoding::{every_part_even, peeled};
use crate::growth::{FULL, start};
use crate::open_sides::odd_components;
use crate::refusal::{self, Refusal};

/// What decoding in rounds returns and writes.
#[derive(Clone, Debug, PartialEq, Eq)]
pub struct RoundsKey {
    pub rounds: usize,
    pub support: Vec<u8>,
    pub correction: Vec<u8>,
}

impl RoundsKey {
    /// The number of correction edges.
    pub fn edges(&self) -> usize {
        size(&self.correction)
    }
}

/// Decoding in rounds with buffers of the right lengths to fill.
pub fn decode_rounds(sheet: &Sheet) -> Result<RoundsKey, Refusal> {
    let edges = sheet.board.edges();
    decode_rounds_into(sheet, edges, edges)
}

/// Decoding in rounds with buffers of these lengths to fill. Refusals and peeling are shared with
/// decoding.
pub fn decode_rounds_into(
    sheet: &Sheet,
    support: usize,
    correction: usize,
) -> Result<RoundsKey, Refusal> {
    refusal::decoding(sheet, support, correction)?;
    every_part_even(sheet)?;
    let (rounds, support) = grow(sheet);
    let correction = peeled(sheet, &support);
    Ok(RoundsKey { rounds, support, correction })
}

/// Rounds until no cluster is odd: how many there were, and the supports then. No connected part of
/// the board is odd, so an odd cluster has an edge that leaves it, which gains in the round.
fn grow(sheet: &Sheet) -> (usize, Vec<u8>) {
    let mut support = start(sheet);
    let mut rounds = 0;
    loop {
        let odd = in_odd_clusters(sheet, &support);
        if !odd.contains(&true) {
            return (rounds, support);
        }
        support = after_round(&sheet.board, &support, &odd);
        rounds += 1;
    }
}

/// Of each vertex, whether it lies in an odd cluster.
fn in_odd_clusters(sheet: &Sheet, support: &[u8]) -> Vec<bool> {
    let cluster = components(&sheet.board, |edge| support[edge] == FULL);
    let odd = odd_components(&sheet.board, &sheet.syndrome, &cluster);
    cluster.iter().map(|&name| odd[name]).collect()
}

/// The supports after a round at whose beginning these vertices lay in odd clusters: each edge gains
/// a half-edge for each end that did, up to 2.
fn after_round(board: &Board, support: &[u8], odd: &[bool]) -> Vec<u8> {
    let gain = |edge: usize| board.ends_of(edge).into_iter().filter(|&end| odd[end]).count() as u8;
    (0..board.edges()).map(|edge| FULL.min(support[edge] + gain(edge))).collect()
}
