//! Connected components of a board's vertices and some of its edges.

use crate::board::Board;

/// For each vertex the smallest vertex of its component, by the edges for which `within` holds.
pub fn components(board: &Board, within: impl Fn(usize) -> bool) -> Vec<usize> {
    let mut neighbours = vec![Vec::new(); board.vertices];
    for edge in (0..board.edges()).filter(|&edge| within(edge)) {
        let [a, b] = board.ends_of(edge);
        neighbours[a].push(b);
        neighbours[b].push(a);
    }
    let mut label = vec![None; board.vertices];
    for smallest in 0..board.vertices {
        // Vertices are met in rising order, so one that has no label yet is its component's smallest.
        let mut reached = vec![smallest];
        while let Some(vertex) = reached.pop() {
            if label[vertex].is_none() {
                label[vertex] = Some(smallest);
                reached.extend(&neighbours[vertex]);
            }
        }
    }
    label.into_iter().flatten().collect()
}
