//! Document 02, K5, "Boards with open sides": what an open vertex changes for the parts of a board,
//! for its clusters and for its loops.

use crate::board::{Board, members};

/// Whether each component holds an odd number of lit vertices, at the component's name. Of each vertex
/// the name of its component is given, which is its smallest vertex.
fn odd_syndrome(syndrome: &[u8], component: &[usize]) -> Vec<bool> {
    let mut odd = vec![false; component.len()];
    for vertex in members(syndrome) {
        odd[component[vertex]] ^= true;
    }
    odd
}

/// Whether each component is odd, at its name: one that holds an open vertex never is.
pub fn odd_components(board: &Board, syndrome: &[u8], component: &[usize]) -> Vec<bool> {
    let mut odd = odd_syndrome(syndrome, component);
    for vertex in members(&board.open) {
        odd[component[vertex]] = false;
    }
    odd
}

/// The odd ends that a correction must have: the lit vertices and, of each component with an odd
/// number of them, its smallest open vertex.
pub fn wanted_ends(board: &Board, syndrome: &[u8], component: &[usize]) -> Vec<u8> {
    let mut open_ended = odd_syndrome(syndrome, component);
    let mut wanted = syndrome.to_vec();
    for vertex in members(&board.open) {
        // Open vertices are met in rising order, so the first of a component is its smallest.
        if open_ended[component[vertex]] {
            open_ended[component[vertex]] = false;
            wanted[vertex] = 1;
        }
    }
    wanted
}

/// The board with all its open vertices made one, the smallest of them, which is not open; the others
/// are left without an edge.
///
/// A set is closed on one of the two boards exactly where it is on the other. Every edge has two ends,
/// so where all other vertices touch an even number of a set's edges, the one made of the open
/// vertices does too.
pub fn joined(board: &Board) -> Board {
    let smallest = members(&board.open).next();
    let name = |end: u16| match smallest {
        Some(smallest) if board.open[usize::from(end)] == 1 => smallest as u16,
        _ => end,
    };
    Board {
        ends: board.ends.iter().map(|&end| name(end)).collect(),
        open: vec![0; board.vertices],
        ..board.clone()
    }
}
