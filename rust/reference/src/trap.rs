//! Document 02, K12, "Set a trap": the fewest edges of a set on which the key misleads, found in two
//! ways. Loops are meant as K5 widens them.

use crate::board::{Board, Sheet, members, set_of, size, together};
use crate::decoding::decode;
use crate::open_sides::joined;
use crate::peeling::forest;
use crate::refusal::{self, Refusal};

/// The largest edge count of a board that a trap is set on.
pub const TRAP_LIMIT: usize = 16;

/// The fewest edges of a trap, or none without a trap, or a refusal; the buffer lent to show a trap has
/// this length.
pub fn trap_into(board: &Board, loss: &[u8], set: usize) -> Result<Option<usize>, Refusal> {
    refusal::trap(board, loss, set)?;
    Ok(by_loops(board, loss))
}

/// The correction that the table answers a set's syndrome with.
fn answered(board: &Board, loss: &[u8], set: &[u8]) -> Vec<u8> {
    let syndrome = board.syndrome(set);
    let sheet = Sheet { board: board.clone(), syndrome, loss: loss.to_vec() };
    decode(&sheet).expect("a correction, as the set has the syndrome").correction
}

/// Whether the table answers a set's syndrome with a correction that winds together with the set.
pub fn is_trap(board: &Board, loss: &[u8], set: &[u8]) -> bool {
    board.winds(&together(set, &answered(board, loss, set)))
}

/// All choices from a list of few edges, each as a set of so many edges.
fn choices(list: Vec<usize>, edges: usize) -> impl Iterator<Item = Vec<u8>> {
    assert!(list.len() < 24, "too many sets");
    (0_u32..1 << list.len()).map(move |bits| {
        let chosen = (0..list.len()).filter(|at| bits >> at & 1 == 1);
        set_of(edges, &chosen.map(|at| list[at]).collect::<Vec<usize>>())
    })
}

/// All sets of so many edges, for few of them.
pub fn all_sets(edges: usize) -> impl Iterator<Item = Vec<u8>> {
    choices((0..edges).collect(), edges)
}

/// The definition: all sets of edges, each with its own syndrome and correction.
pub fn by_search(board: &Board, loss: &[u8]) -> Option<usize> {
    let mut fewest = None;
    for set in all_sets(board.edges()) {
        let fewer = fewest.is_none_or(|fewest| size(&set) < fewest);
        if fewer && is_trap(board, loss, &set) {
            fewest = Some(size(&set));
        }
    }
    fewest
}

/// One correction for each syndrome, together with each winding loop.
///
/// A trap and the correction of its syndrome are a winding loop together, so the trap is that loop and
/// the correction together; and such a set has the correction's syndrome, so it is a trap. Each syndrome
/// that a set of edges has is that of exactly one choice from a spanning forest of the board whose open
/// vertices are made one.
pub fn by_loops(board: &Board, loss: &[u8]) -> Option<usize> {
    let edges = board.edges();
    let loops: Vec<Vec<u8>> = all_sets(edges).filter(|set| board.winds(set)).collect();
    if loops.is_empty() {
        return None;
    }
    let tree = members(&forest(&joined(board), |_| true)).collect();
    let fewest = |set: Vec<u8>| {
        let correction = answered(board, loss, &set);
        loops.iter().map(|around| size(&together(around, &correction))).min()
    };
    choices(tree, edges).filter_map(fewest).min()
}
