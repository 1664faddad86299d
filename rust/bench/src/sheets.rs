//! The seeded sheets of the benchmark's tables.

use reference::generators::{crowd, path, ring};
use reference::planar::planar;
use reference::torus::torus;
use reference::{Board, Random, Sheet};

const SEED: u64 = 301;

/// The sides of the tori.
pub const SIDES: [usize; 3] = [8, 16, 32];

/// Flips for each 2,048 edges, which is a torus of side 32: about 2.5, 5 and 10 %.
pub const RATES: [usize; 3] = [50, 100, 200];

/// About 5 %.
pub const RATE: usize = RATES[1];

/// How many sheets there are for each side and rate.
pub const SHEETS: usize = 1000;

/// How many edges are flipped at a rate.
pub fn flips(board: &Board, rate: usize) -> usize {
    rate * board.edges() / 2048
}

/// So many sheets of a board with so many flips for each 2,048 edges, nothing lost.
pub fn flipped(board: &Board, rate: usize, count: usize) -> Vec<Sheet> {
    let mut random = Random::new(SEED + (board.vertices * 1000 + rate) as u64);
    let sheet = |_| {
        let error = random.set_of_size(board.edges(), flips(board, rate));
        let loss = vec![0; board.edges()];
        Sheet { syndrome: board.syndrome(&error), board: board.clone(), loss }
    };
    (0..count).map(sheet).collect()
}

/// The rows of the second table, which has boards of other shapes and sizes: each row's name and its
/// sheets.
pub fn other_boards() -> Vec<(&'static str, Vec<Sheet>)> {
    let multigraph = crowd(&mut Random::new(304), 1024, 4096);
    let all_lost = |sheet: Sheet| Sheet { loss: vec![1; sheet.loss.len()], ..sheet };
    vec![
        ("torus-8", flipped(&torus(8), RATE, 500)),
        ("torus-16", flipped(&torus(16), RATE, 200)),
        ("torus-32", flipped(&torus(32), RATE, 50)),
        ("planar-8", flipped(&planar(8), RATE, 500)),
        ("planar-31", flipped(&planar(31), RATE, 50)),
        ("path-1024", one(path(1024), &[0, 1023])),
        ("multigraph-1024-4096", flipped(&multigraph, RATE / 2, 50)),
        ("nothing-lit-8", one(torus(8), &[])),
        ("nothing-lit-32", one(torus(32), &[])),
        ("everything-lost-32", flipped(&torus(32), RATE, 50).into_iter().map(all_lost).collect()),
        ("m1-ring-4", one(ring(), &[0, 3])),
        ("m4-path-4", one(path(4), &[0, 3])),
    ]
}

/// One sheet with these vertices lit, nothing lost.
fn one(board: Board, lit: &[usize]) -> Vec<Sheet> {
    vec![Sheet::new(board, lit, &[])]
}

/// A sheet on which nothing grows, though all else is done: the edge in the middle is lost, and its
/// two ends are lit.
pub fn still(board: &Board) -> Sheet {
    let middle = board.edges() / 2;
    Sheet::new(board.clone(), &board.ends_of(middle), &[middle])
}

/// The sheet as the library is lent it.
pub fn lent(sheet: &Sheet) -> table::Sheet<'_> {
    let Board { vertices, ends, marks, open } = &sheet.board;
    let board = table::Board { vertices: *vertices, ends, marks, open };
    table::Sheet { board, syndrome: &sheet.syndrome, loss: &sheet.loss }
}
