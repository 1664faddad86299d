//! The boards that demand 3 is tried on.

use reference::generators::{Kind, cycle, opened};
use reference::planar::planar;
use reference::torus::torus;
use reference::{Board, Random};

/// So many small boards of several kinds, each with its lost edges: the tori of sides 1, 2 and 3, and
/// random ones with at most 8 vertices and 11 edges, many of which have loop edges.
pub fn boards(seed: u64, count: usize) -> Vec<(Board, Vec<u8>)> {
    let mut random = Random::new(seed);
    let mut boards: Vec<_> = [1, 2, 3].map(|side| (torus(side), vec![0; 2 * side * side])).into();
    while boards.len() < count {
        let board = small(&mut random);
        if board.vertices <= 8 && board.edges() <= 11 {
            let loss = lost(&mut random, &board);
            boards.push((board, loss));
        }
    }
    boards
}

/// So many small boards with open vertices, each with its lost edges: the planar boards of sides 2 and
/// 3, with nothing lost and with some, and random ones of the kinds and sizes of [`boards`].
pub fn open_boards(seed: u64, count: usize) -> Vec<(Board, Vec<u8>)> {
    let mut random = Random::new(seed);
    let mut boards = vec![(planar(2), vec![0; 5]), (planar(3), vec![0; 13])];
    for _ in 0..5 {
        let board = planar(3);
        let loss = lost(&mut random, &board);
        boards.push((board, loss));
    }
    while boards.len() < count {
        let drawn = small(&mut random);
        let board = opened(&mut random, drawn);
        if board.vertices <= 8 && board.edges() <= 11 && board.open.contains(&1) {
            let loss = lost(&mut random, &board);
            boards.push((board, loss));
        }
    }
    boards
}

/// A board of a kind of which most are small.
fn small(random: &mut Random) -> Board {
    match random.below(6) {
        0 => Kind::Parallel.board(random),
        1 => Kind::Parts.board(random),
        2 => Kind::Small.board(random),
        3 => Kind::Loops.board(random),
        _ => {
            let (vertices, chords) = (random.from_to(4, 8), random.from_to(0, 3));
            cycle(random, vertices, chords)
        }
    }
}

/// No lost edges, few, or all.
fn lost(random: &mut Random, board: &Board) -> Vec<u8> {
    let rate = [0, 0, 100, 300, 1000][random.below(5)];
    random.set(board.edges(), rate)
}

/// Every board with so many edges and marks 0 and 1 on which each vertex has an edge, with every set
/// of lost edges. The edges stand in any order, and vertices are numbered as they come in it: rounds
/// don't look at a vertex's number.
pub fn every_board(edges: usize) -> impl Iterator<Item = (Board, Vec<u8>)> {
    every_list(edges).into_iter().flat_map(move |list| {
        let vertices = list.iter().map(|&(_, b)| usize::from(b) + 1).max().unwrap_or(1);
        (0..1_u32 << (2 * edges)).map(move |bits| {
            let bit = |at: usize| (bits >> at & 1) as u8;
            let marked = |edge: usize| (list[edge].0, list[edge].1, bit(edge));
            let board = Board::new(vertices, &(0..edges).map(marked).collect::<Vec<_>>());
            (board, (edges..2 * edges).map(bit).collect())
        })
    })
}

/// The boards of [`every_board`], each with every set of open vertices that is not empty. Where a
/// vertex's number counts, these are not all boards: the vertices are numbered as they come.
pub fn every_open_board(edges: usize) -> impl Iterator<Item = (Board, Vec<u8>)> {
    every_board(edges).flat_map(|(board, loss)| {
        (1..1_u32 << board.vertices).map(move |bits| {
            let open = (0..board.vertices).map(|vertex| (bits >> vertex & 1) as u8).collect();
            (Board { open, ..board.clone() }, loss.clone())
        })
    })
}

/// The lists of so many pairs of vertices, the smaller one first, in which no vertex comes before all
/// smaller ones have come.
fn every_list(edges: usize) -> Vec<Vec<(u16, u16)>> {
    let Some(fewer) = edges.checked_sub(1) else { return vec![Vec::new()] };
    let mut lists = Vec::new();
    for list in every_list(fewer) {
        let next = list.iter().map(|&(_, b)| b + 1).max().unwrap_or(0);
        let old = (0..=next).flat_map(|b| (0..=b).map(move |a| (a, b)));
        for pair in old.chain([(next, next + 1)]) {
            lists.push([&list[..], &[pair]].concat());
        }
    }
    lists
}
