//! Document 01, "Distance and torus": the fewest edges in a winding loop, found in two ways. Loops are
//! meant as document 02, K5, widens them.

use std::collections::VecDeque;

use crate::board::Board;
use crate::open_sides::joined;
use crate::refusal::{self, Refusal};

/// The distance, or none without a winding loop, or a refusal; the buffer lent to show a loop has
/// this length.
pub fn distance_into(board: &Board, shown: usize) -> Result<Option<usize>, Refusal> {
    refusal::distance(board, shown)?;
    Ok(by_trees(board))
}

/// The definition: all sets of edges, for boards of few edges.
pub fn by_search(board: &Board) -> Option<usize> {
    let edges = board.edges();
    assert!(edges < 24, "too many sets");
    let mut fewest = None;
    for bits in 0_u32..1 << edges {
        let size = bits.count_ones() as usize;
        if fewest.is_none_or(|fewest| size < fewest) {
            let set: Vec<u8> = (0..edges).map(|edge| (bits >> edge & 1) as u8).collect();
            if board.winds(&set) {
                fewest = Some(size);
            }
        }
    }
    fewest
}

/// The shortest closed walk with a mark that consists of one edge and of two shortest walks to its
/// ends, over all starts.
///
/// A smallest winding loop is a cycle, or a loop edge, which is a cycle of one edge. Start at one of
/// its vertices: the cycle is the exclusive or, over its edges, of the walks out to the edge's first
/// end, along it and back, none of which is longer than the cycle, and one of which has a mark as the
/// cycle has one. What that walk passes an odd number of times winds, so it isn't shorter either.
///
/// All this is of the board whose open vertices are made one, on which the same sets wind.
pub fn by_trees(board: &Board) -> Option<usize> {
    let board = &joined(board);
    (0..board.vertices).filter_map(|start| through(board, &shortest_walks(board, start))).min()
}

/// A shortest walk from the start to a vertex: its length and the exclusive or of its marks.
type Walk = Option<(usize, u8)>;

fn through(board: &Board, walks: &[Walk]) -> Option<usize> {
    let closed = |edge: usize| {
        let [a, b] = board.ends_of(edge);
        let ((to, out), (from, back)) = (walks[a]?, walks[b]?);
        (out ^ back != board.marks[edge]).then_some(to + 1 + from)
    };
    (0..board.edges()).filter_map(closed).min()
}

fn shortest_walks(board: &Board, start: usize) -> Vec<Walk> {
    let mut neighbours = vec![Vec::new(); board.vertices];
    for (edge, &mark) in board.marks.iter().enumerate() {
        let [a, b] = board.ends_of(edge);
        neighbours[a].push((b, mark));
        neighbours[b].push((a, mark));
    }
    let mut walks = vec![None; board.vertices];
    walks[start] = Some((0, 0));
    let mut queue = VecDeque::from([(start, 0, 0)]);
    while let Some((vertex, length, marks)) = queue.pop_front() {
        for &(next, mark) in &neighbours[vertex] {
            if walks[next].is_none() {
                walks[next] = Some((length + 1, marks ^ mark));
                queue.push_back((next, length + 1, marks ^ mark));
            }
        }
    }
    walks
}
