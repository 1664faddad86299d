//! Document 01, "Growth", steps 1 to 4, with document 02, K5: a cluster that holds an open vertex is
//! never odd, so it never grows.

use crate::board::{Board, Sheet};
use crate::components::components;
use crate::open_sides::odd_components;

/// An edge with this support, in half-edges, is full.
pub const FULL: u8 = 2;

/// The supports at the end of growth, and how often step 4 was done.
#[derive(Clone, Debug, PartialEq, Eq)]
pub struct Grown {
    pub growths: usize,
    pub support: Vec<u8>,
}

/// Growth of a sheet of which no connected part is odd: a part with an open vertex never is.
pub fn grow(sheet: &Sheet) -> Grown {
    let board = &sheet.board;
    let mut support = start(sheet);
    // Each growth adds to the support of an edge of any set that has the syndrome.
    for growths in 0..=2 * board.edges() {
        let cluster = components(board, |edge| support[edge] == FULL);
        let Some(chosen) = choice(sheet, &support, &cluster) else {
            return Grown { growths, support };
        };
        gain(board, &mut support, |vertex| cluster[vertex] == chosen);
    }
    unreachable!("no set has this syndrome")
}

/// Step 1: lost edges start full, others empty.
pub(crate) fn start(sheet: &Sheet) -> Vec<u8> {
    sheet.loss.iter().map(|lost| lost * FULL).collect()
}

/// Steps 2 and 3: the odd cluster with the smallest boundary size and, among equals, the smallest
/// vertex. Clusters are named by their smallest vertex.
fn choice(sheet: &Sheet, support: &[u8], cluster: &[usize]) -> Option<usize> {
    let vertices = sheet.board.vertices;
    let odd = odd_components(&sheet.board, &sheet.syndrome, cluster);
    let mut boundary = vec![0; vertices];
    let exposed = exposed(&sheet.board, support);
    for vertex in (0..vertices).filter(|&vertex| exposed[vertex]) {
        boundary[cluster[vertex]] += 1;
    }
    (0..vertices).filter(|&name| odd[name]).min_by_key(|&name| (boundary[name], name))
}

/// The vertices that touch an edge that isn't full; a loop edge is touched by its vertex.
fn exposed(board: &Board, support: &[u8]) -> Vec<bool> {
    let mut exposed = vec![false; board.vertices];
    for edge in (0..board.edges()).filter(|&edge| support[edge] < FULL) {
        for end in board.ends_of(edge) {
            exposed[end] = true;
        }
    }
    exposed
}

/// Step 4: each edge that isn't full gains a half-edge for each end in the cluster, up to 2. A loop
/// edge has both ends there or none, so it gains two at once.
fn gain(board: &Board, support: &mut [u8], in_cluster: impl Fn(usize) -> bool) {
    for (edge, support) in support.iter_mut().enumerate() {
        let ends = board.ends_of(edge).map(|end| u8::from(in_cluster(end)));
        *support = FULL.min(*support + ends[0] + ends[1]);
    }
}

#[cfg(test)]
mod tests {
    use super::gain;
    use crate::board::Board;

    /// No key shows what one growth gave. Where all supports are 0 or 2, as at the start, the cluster
    /// that grows fuses with nothing, and with a boundary no larger it is chosen once more, which
    /// makes them 0 or 2 again.
    #[test]
    fn half_edges_of_one_growth() {
        let board = Board::new(3, &[(0, 0, 0), (0, 1, 0), (1, 0, 0), (1, 2, 0), (2, 2, 0)]);
        let mut support = vec![0; 5];
        gain(&board, &mut support, |vertex| vertex == 0);
        assert_eq!(support, [2, 1, 1, 0, 0]);
        let mut support = vec![0; 5];
        gain(&board, &mut support, |vertex| vertex < 2);
        assert_eq!(support, [2, 2, 2, 1, 0]);
    }
}
