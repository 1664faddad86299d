//! Closed sets to hand in.

use reference::Random;
use reference::board::{Board, together};
use reference::open_sides::joined;
use reference::peeling::{forest, peel};

/// A random edge with a way back between its ends, over the open sides too; empty where there is no
/// other way back.
pub fn closed_set(random: &mut Random, board: &Board) -> Vec<u8> {
    let board = &joined(board);
    let mut edge = vec![0; board.edges()];
    if edge.is_empty() {
        return edge;
    }
    let chosen = random.below(edge.len());
    edge[chosen] = 1;
    let others = forest(board, |other| other != chosen);
    match peel(board, &others, &board.odd_ends(&edge)) {
        Some(back) => together(&edge, &back),
        None => vec![0; board.edges()],
    }
}
