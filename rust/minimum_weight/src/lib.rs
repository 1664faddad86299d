//! A decoder that has nothing to do with growing clusters: a set of fewest edges with a syndrome.
//!
//! Such a set joins the syndrome vertices in pairs by shortest walks, so it is found by a perfect
//! matching of the syndrome vertices with the smallest sum of distances. The matching is exact: it
//! goes through all sets of syndrome vertices, of which there must be few. No shortest walk passes a
//! loop edge, so the set has none.
//!
//! The open vertices of a board are made one, at which a set may end: it is matched too where the parts
//! that it joins have an odd number of syndrome vertices.

pub mod comparison;

use std::collections::VecDeque;

use reference::board::{Board, members};
use reference::components::components;
use reference::open_sides::joined;

/// The largest number of syndrome vertices.
pub const LIT_LIMIT: usize = 16;

/// A set of fewest edges with this syndrome, a byte for each edge; none if no set has it.
pub fn minimum_weight(board: &Board, syndrome: &[u8]) -> Option<Vec<u8>> {
    let mut lit: Vec<usize> = members(syndrome).collect();
    assert!(lit.len() <= LIT_LIMIT, "too many syndrome vertices");
    let outside = members(&board.open).next();
    let board = &joined(board);
    if let Some(outside) = outside {
        let part = components(board, |_| true);
        if lit.iter().filter(|&&vertex| part[vertex] == part[outside]).count() % 2 == 1 {
            lit.push(outside);
        }
    }
    let walks: Vec<Walks> = lit.iter().map(|&start| Walks::from(board, start)).collect();
    let length = |a: usize, b: usize| walks[a].length[lit[b]];
    let mut set = vec![0; board.edges()];
    for (a, b) in matching(lit.len(), length)? {
        for edge in walks[a].edges_to(board, lit[b]) {
            set[edge] ^= 1;
        }
    }
    Some(set)
}

/// A perfect matching of the numbers below `count` with the smallest sum of lengths, as pairs; none
/// if every perfect matching has a pair without a length.
fn matching(
    count: usize,
    length: impl Fn(usize, usize) -> Option<usize>,
) -> Option<Vec<(usize, usize)>> {
    // At each set of numbers, as bits: the smallest sum, and the partner of its largest number.
    let mut best: Vec<Option<(usize, usize)>> = vec![None; 1 << count];
    best[0] = Some((0, 0));
    for set in 1..best.len() {
        let largest = set.ilog2() as usize;
        let with_partner = |partner: usize| {
            let (rest, _) = best[set ^ (1 << largest) ^ (1 << partner)]?;
            Some((rest + length(partner, largest)?, partner))
        };
        let partners = (0..largest).filter(|partner| set >> partner & 1 == 1);
        best[set] = partners.filter_map(with_partner).min();
    }
    let mut pairs = Vec::new();
    let mut set = best.len() - 1;
    while set != 0 {
        let largest = set.ilog2() as usize;
        let (_, partner) = best[set]?;
        pairs.push((partner, largest));
        set ^= (1 << largest) ^ (1 << partner);
    }
    Some(pairs)
}

/// Shortest walks from one vertex to all others.
struct Walks {
    /// The length of the walk to each vertex, if there is one.
    length: Vec<Option<usize>>,
    /// The last edge of the walk to each vertex, and the vertex before it.
    last: Vec<Option<(usize, usize)>>,
}

impl Walks {
    fn from(board: &Board, start: usize) -> Walks {
        let mut incident = vec![Vec::new(); board.vertices];
        for edge in 0..board.edges() {
            let [a, b] = board.ends_of(edge);
            incident[a].push((edge, b));
            incident[b].push((edge, a));
        }
        let mut length = vec![None; board.vertices];
        let mut last = vec![None; board.vertices];
        length[start] = Some(0);
        let mut queue = VecDeque::from([(start, 0)]);
        while let Some((vertex, steps)) = queue.pop_front() {
            for &(edge, next) in &incident[vertex] {
                if length[next].is_none() {
                    length[next] = Some(steps + 1);
                    last[next] = Some((edge, vertex));
                    queue.push_back((next, steps + 1));
                }
            }
        }
        Walks { length, last }
    }

    /// The edges of the walk to a vertex, from its end to its start.
    fn edges_to(&self, board: &Board, vertex: usize) -> Vec<usize> {
        let mut edges = Vec::new();
        let mut at = vertex;
        while let Some((edge, before)) = self.last[at] {
            edges.push(edge);
            at = before;
        }
        assert!(edges.len() < board.vertices, "a shortest walk meets no vertex twice");
        edges
    }
}
