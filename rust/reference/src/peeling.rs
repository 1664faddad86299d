//! Document 01, "Peeling".

use crate::board::{Board, members};

/// The full edges in rising number, each taken whose ends aren't already joined by taken edges. The
/// ends of a loop edge are one vertex, so it is never taken.
pub fn forest(board: &Board, full: impl Fn(usize) -> bool) -> Vec<u8> {
    let mut taken = vec![0; board.edges()];
    // Vertices joined by taken edges bear the same name.
    let mut name: Vec<usize> = (0..board.vertices).collect();
    for edge in (0..board.edges()).filter(|&edge| full(edge)) {
        let [kept, dropped] = board.ends_of(edge).map(|end| name[end]);
        if kept != dropped {
            taken[edge] = 1;
            name.iter_mut().filter(|n| **n == dropped).for_each(|n| *n = kept);
        }
    }
    taken
}

/// The one subset of a forest that has these odd ends. None if there is no such subset.
///
/// A leaf of the forest decides its edge: the edge is in the subset exactly where the leaf is wanted,
/// and then its other end changes. Without that edge the rest is a smaller forest.
pub fn peel(board: &Board, forest: &[u8], odd_ends: &[u8]) -> Option<Vec<u8>> {
    let mut correction = vec![0; board.edges()];
    let mut wanted = odd_ends.to_vec();
    let mut left: Vec<usize> = members(forest).collect();
    while let Some((at, leaf)) = find_leaf(board, &left) {
        let edge = left.swap_remove(at);
        if wanted[leaf] == 1 {
            correction[edge] = 1;
            for end in board.ends_of(edge) {
                wanted[end] ^= 1;
            }
        }
    }
    assert!(left.is_empty(), "a forest with edges has a leaf");
    (!wanted.contains(&1)).then_some(correction)
}

/// An edge of the list, by its index there, with an end that no other edge of the list touches.
fn find_leaf(board: &Board, list: &[usize]) -> Option<(usize, usize)> {
    let mut degree = vec![0; board.vertices];
    for &edge in list {
        for end in board.ends_of(edge) {
            degree[end] += 1;
        }
    }
    list.iter().enumerate().find_map(|(at, &edge)| {
        let leaf = board.ends_of(edge).into_iter().find(|&end| degree[end] == 1);
        leaf.map(|leaf| (at, leaf))
    })
}
