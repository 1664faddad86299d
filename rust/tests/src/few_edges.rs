//! Boards of few edges, for the calls that try all choices of them.

use reference::Random;
use reference::board::{Board, set_of};
use reference::generators::{crowd, crowd_with_loops, opened, path, ring};
use reference::planar::planar;
use reference::torus::torus;

/// A board of so many edges, with loop edges and open vertices now and then. Where many marks are rubbed
/// out there are few winding loops, or none.
pub fn drawn_board(random: &mut Random, edges: usize) -> Board {
    let vertices = random.from_to(1, 7);
    let mut board = match random.below(3) {
        0 => crowd_with_loops(random, vertices, edges),
        _ => crowd(random, vertices, edges),
    };
    let rate = [100, 300, 1000][random.below(3)];
    let kept = random.set(edges, rate);
    board.marks.iter_mut().zip(kept).for_each(|(mark, kept)| *mark *= kept);
    if random.chance(400) { opened(random, board) } else { board }
}

/// Boards of up to eight edges that somebody drew: no edge, no winding loop, loop edges, edges side by
/// side, and open sides among them.
pub fn small_boards() -> Vec<Board> {
    let mut boards = vec![ring(), torus(1), torus(2), planar(2), Board::new(1, &[])];
    boards.push(Board::new(1024, &[]));
    boards.push(Board { open: vec![1; 3], ..Board::new(3, &[]) });
    for edges in 1..=8_u16 {
        let marked =
            |mark: fn(u16) -> u8| -> Vec<_> { (0..edges).map(|edge| (0, 1, mark(edge))).collect() };
        boards.push(Board::new(2, &marked(|edge| u8::from(edge == 0))));
        boards.push(Board::new(2, &marked(|edge| (edge % 4) as u8)));
        boards.push(Board::new(2, &marked(|_| 3)));
        boards.push(Board::new(2, &marked(|_| 3)).with_open(&[1]));
        boards.push(Board::new(2, &marked(|_| 0)).with_open(&[0, 1]));
    }
    for marked in 0..6 {
        let mut board = path(7);
        board.marks[marked] = 1 + (marked % 3) as u8;
        boards.push(board.clone());
        boards.push(board.clone().with_open(&[0, 6]));
        boards.push(board.with_open(&[0, 3, 6]));
    }
    let loops = |marks: &[u8]| {
        let edges: Vec<_> = marks.iter().map(|&mark| (0, 0, mark)).collect();
        Board::new(1, &edges)
    };
    boards.extend([loops(&[0]), loops(&[3]), loops(&[0, 0, 0, 2]), loops(&[1, 2, 3, 0, 1])]);
    boards
}

/// The same board with its vertices far apart among as many as there may be, each of the others open or
/// not.
pub fn spread(random: &mut Random, board: &Board) -> Board {
    let places = random.set_of_size(1024, board.vertices);
    let names: Vec<usize> = (0..1024).filter(|&vertex| places[vertex] == 1).collect();
    let mut wide = Board {
        vertices: 1024,
        ends: board.ends.iter().map(|&end| names[usize::from(end)] as u16).collect(),
        marks: board.marks.clone(),
        open: if random.chance(500) { set_of(1024, &[]) } else { random.set(1024, 500) },
    };
    for (&name, &open) in names.iter().zip(&board.open) {
        wide.open[name] = open;
    }
    wide
}
