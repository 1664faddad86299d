//! Boards and sheets that decoders are tried on.

use crate::board::{Board, Sheet};
use crate::planar::planar;
use crate::random::Random;
use crate::stack::History;
use crate::text;
use crate::torus::torus;

/// A kind of random board. Those whose edges are drawn anywhere have some loop edges now and then.
#[derive(Clone, Copy, Debug, PartialEq, Eq)]
pub enum Kind {
    /// A few vertices and edges, each edge anywhere.
    Small,
    /// Few vertices and many edges, so that most pairs are joined.
    Dense,
    /// Two to four vertices, so that most edges have edges beside them.
    Parallel,
    /// Vertices in groups, with no edge between two groups.
    Parts,
    /// A cycle with some chords or loop edges and few marks, so that the distance is large for its
    /// size.
    Cycle,
    /// A torus of a small side.
    Torus,
    /// A path, its vertices numbered at random.
    Path,
    /// A star, its vertices numbered at random.
    Star,
    /// Some dozens of vertices.
    Medium,
    /// A few vertices, and about as many loop edges as others; often no loop edge has a mark.
    Loops,
}

impl Kind {
    pub const ALL: [Kind; 10] = [
        Kind::Small,
        Kind::Dense,
        Kind::Parallel,
        Kind::Parts,
        Kind::Cycle,
        Kind::Torus,
        Kind::Path,
        Kind::Star,
        Kind::Medium,
        Kind::Loops,
    ];

    /// A random board of this kind.
    pub fn board(self, random: &mut Random) -> Board {
        match self {
            Kind::Small => anywhere(random, (1, 8), (0, 14)),
            Kind::Dense => anywhere(random, (3, 12), (20, 80)),
            Kind::Parallel => anywhere(random, (2, 4), (2, 16)),
            Kind::Parts => parts(random),
            Kind::Cycle => {
                let vertices = random.from_to(3, 14);
                let chords = random.from_to(0, 3);
                cycle(random, vertices, chords)
            }
            Kind::Torus => torus(random.from_to(1, 6)),
            Kind::Path => {
                let vertices = random.from_to(2, 40);
                renumbered(random, &path(vertices))
            }
            Kind::Star => {
                let vertices = random.from_to(2, 40);
                renumbered(random, &star(vertices))
            }
            Kind::Medium => anywhere(random, (20, 60), (20, 120)),
            Kind::Loops => loops(random),
        }
    }
}

/// So many vertices and edges, each within its range, every edge anywhere.
fn anywhere(random: &mut Random, vertices: (usize, usize), edges: (usize, usize)) -> Board {
    let vertices = random.from_to(vertices.0, vertices.1);
    let edges = random.from_to(edges.0, edges.1);
    let loops = few_loops(random);
    joined(random, vertices, edges, loops)
}

/// The chance of a loop edge, in thousandths, on a board that may have some: on most it has none.
fn few_loops(random: &mut Random) -> usize {
    [0, 0, 0, 150][random.below(4)]
}

/// So many vertices and edges, each edge anywhere, with this chance of a loop edge.
fn joined(random: &mut Random, vertices: usize, edges: usize, loops: usize) -> Board {
    let list: Vec<_> = (0..edges).map(|_| edge(random, 0, vertices, loops)).collect();
    Board::new(vertices, &list)
}

/// An edge between two of `count` vertices from `first`, with any mark. With so many chances in a
/// thousand it is a loop edge, and it must be one where there is one vertex.
fn edge(random: &mut Random, first: usize, count: usize, loops: usize) -> (u16, u16, u8) {
    let a = random.below(count);
    let is_loop = count == 1 || random.chance(loops);
    let b = if is_loop { a } else { (a + random.from_to(1, count - 1)) % count };
    ((first + a) as u16, (first + b) as u16, random.below(4) as u8)
}

fn loops(random: &mut Random) -> Board {
    let (vertices, edges) = (random.from_to(1, 8), random.from_to(1, 14));
    let mut board = joined(random, vertices, edges, 500);
    if random.chance(500) {
        for edge in 0..edges {
            if board.is_loop(edge) {
                board.marks[edge] = 0;
            }
        }
    }
    board
}

fn parts(random: &mut Random) -> Board {
    let groups = random.from_to(2, 5);
    let loops = few_loops(random);
    let mut vertices = 0;
    let mut edges = Vec::new();
    for _ in 0..groups {
        let count = random.from_to(1, 6);
        let inside = if count == 1 && loops == 0 { 0 } else { random.from_to(0, 8) };
        edges.extend((0..inside).map(|_| edge(random, vertices, count, loops)));
        vertices += count;
    }
    renumbered(random, &Board::new(vertices, &edges))
}

/// Parts of one to six vertices, numbered at random. Each is a tree to which its smallest vertex is
/// joined last, so that no union by size has it for a root where the part has three vertices.
pub fn late_smallest(random: &mut Random) -> Board {
    let sizes: Vec<_> = (0..random.from_to(2, 5)).map(|_| random.from_to(1, 6)).collect();
    let vertices = sizes.iter().sum();
    let name = order(random, vertices);
    let mut edges = Vec::new();
    let mut first = 0;
    for size in sizes {
        let mut part = name[first..first + size].to_vec();
        let smallest = (0..size).min_by_key(|&at| part[at]).expect("a vertex");
        part.swap(smallest, size - 1);
        for at in 1..size {
            let ends = [part[at], part[random.below(at)]];
            let turned = random.below(2);
            edges.push((ends[turned] as u16, ends[1 - turned] as u16, random.below(4) as u8));
        }
        first += size;
    }
    Board::new(vertices, &edges)
}

/// A cycle through all vertices, one of its edges marked, with further edges that have no mark, some
/// of them loop edges.
pub fn cycle(random: &mut Random, vertices: usize, chords: usize) -> Board {
    let marked = random.below(vertices);
    let around = |at: usize| {
        let mark = if at == marked { 1 } else { 0 };
        (at as u16, ((at + 1) % vertices) as u16, mark)
    };
    let mut edges: Vec<_> = (0..vertices).map(around).collect();
    for _ in 0..chords {
        let (a, b, _) = edge(random, 0, vertices, 250);
        edges.push((a, b, 0));
    }
    renumbered(random, &Board::new(vertices, &edges))
}

/// The ring of document 01: four vertices, the last edge crossing line A.
pub fn ring() -> Board {
    Board::new(4, &[(0, 1, 0), (1, 2, 0), (2, 3, 0), (3, 0, 1)])
}

/// The path 0, 1, 2, .. with no marks.
pub fn path(vertices: usize) -> Board {
    let edges: Vec<_> = (1..vertices).map(|v| (v as u16 - 1, v as u16, 0)).collect();
    Board::new(vertices, &edges)
}

/// The ring 0, 1, 2, .. and back to 0 with no marks.
pub fn long_ring(vertices: usize) -> Board {
    let edges: Vec<_> = (0..vertices).map(|v| (v as u16, ((v + 1) % vertices) as u16, 0)).collect();
    Board::new(vertices, &edges)
}

/// The star around vertex 0 with no marks.
pub fn star(vertices: usize) -> Board {
    let edges: Vec<_> = (1..vertices).map(|v| (0, v as u16, 0)).collect();
    Board::new(vertices, &edges)
}

/// So many vertices and edges, every edge between any two different vertices: for the limits.
pub fn crowd(random: &mut Random, vertices: usize, edges: usize) -> Board {
    joined(random, vertices, edges, 0)
}

/// So many vertices and edges, about as many loop edges as others: for the limits.
pub fn crowd_with_loops(random: &mut Random, vertices: usize, edges: usize) -> Board {
    joined(random, vertices, edges, 500)
}

/// A sheet at the limits whose text has so many bytes, some 60,000 to 80,000. Each edge's line has 14
/// bytes, and the line of a lost edge 4 to 7 by the number of its digits.
pub fn sheet_of_bytes(bytes: usize) -> Sheet {
    let board = Board::new(1024, &vec![(1000, 1023, 0); 4096]);
    let missing = |lost: &[usize]| {
        let sheet = Sheet::new(board.clone(), &[], lost);
        bytes - text::write(&sheet).len()
    };
    let few: [&[usize]; 7] = [&[], &[0, 1], &[0, 10], &[0, 100], &[0], &[10], &[100]];
    let mut lost = few[missing(&[]) % 7].to_vec();
    lost.extend(1000..1000 + missing(&lost) / 7);
    assert_eq!(missing(&lost), 0);
    Sheet::new(board, &[], &lost)
}

/// The same board with its vertices and its edges in another order, and edges turned about.
fn renumbered(random: &mut Random, board: &Board) -> Board {
    let name = order(random, board.vertices);
    let mut edges = Vec::new();
    for edge in order(random, board.edges()) {
        let [a, b] = board.ends_of(edge).map(|end| name[end] as u16);
        let mark = board.marks[edge];
        edges.push(if random.chance(500) { (a, b, mark) } else { (b, a, mark) });
    }
    let mut open = vec![0; board.vertices];
    for (vertex, &byte) in board.open.iter().enumerate() {
        open[name[vertex]] = byte;
    }
    Board { open, ..Board::new(board.vertices, &edges) }
}

/// The numbers below `count` in a random order.
fn order(random: &mut Random, count: usize) -> Vec<usize> {
    let mut order: Vec<usize> = (0..count).collect();
    for i in 1..count {
        order.swap(i, random.from_to(0, i));
    }
    order
}

/// The board with random open vertices: one, few, half of them, most, or all. Where several are drawn
/// there may be none on a small board.
pub fn opened(random: &mut Random, board: Board) -> Board {
    let open = match random.below(8) {
        0 | 1 => random.set_of_size(board.vertices, 1),
        2..=4 => random.set(board.vertices, 150),
        5 => random.set(board.vertices, 500),
        6 => random.set(board.vertices, 850),
        _ => vec![1; board.vertices],
    };
    Board { open, ..board }
}

/// A board of any kind with open vertices, or a planar one of a small side, its vertices numbered at
/// random now and then.
pub fn open_board(random: &mut Random) -> Board {
    match random.below(Kind::ALL.len() + 2) {
        0 => planar(random.from_to(2, 6)),
        1 => {
            let board = planar(random.from_to(2, 5));
            renumbered(random, &board)
        }
        kind => {
            let board = Kind::ALL[kind - 2].board(random);
            opened(random, board)
        }
    }
}

/// A history of a torus of a side, read in so many rounds, in which each edge flips before each
/// reading, and each reading but the last is wrong, with so many chances in a thousand.
pub fn history(
    random: &mut Random,
    side: usize,
    rounds: usize,
    flips: usize,
    wrong: usize,
) -> History {
    let vertices = side * side;
    History {
        side,
        flips: (0..rounds).map(|_| random.set(2 * vertices, flips)).collect(),
        wrong: (1..rounds).map(|_| random.set(vertices, wrong)).collect(),
    }
}

/// The board with random lost edges and any syndrome at all; no open vertex is in it.
pub fn any_syndrome(random: &mut Random, board: Board) -> Sheet {
    let loss = random.set(board.edges(), 200);
    let rate = [100, 300, 500][random.below(3)];
    let syndrome = board.dark_where_open(random.set(board.vertices, rate));
    Sheet { board, syndrome, loss }
}

/// The board with random lost edges and the syndrome of a random set of edges, often few of each,
/// and now and then with any syndrome at all, which may leave parts odd; no open vertex is in it.
pub fn sheet(random: &mut Random, board: Board) -> Sheet {
    let edges = board.edges();
    let rate = [0, 50, 200, 500, 1000][random.below(5)];
    let loss = random.set(edges, rate);
    let rate = [20, 100, 300, 500][random.below(4)];
    let syndrome = if random.chance(850) {
        board.syndrome(&random.set(edges, rate))
    } else {
        board.dark_where_open(random.set(board.vertices, rate))
    };
    Sheet { board, syndrome, loss }
}
