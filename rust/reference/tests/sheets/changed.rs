//! Sheets that break rules, or just keep them.

use reference::board::{Board, Sheet};
use reference::generators::ring;

/// Ring with {0,3}, changed.
pub fn changed(change: impl Fn(&mut Sheet)) -> Sheet {
    let mut sheet = Sheet::new(ring(), &[0, 3], &[]);
    change(&mut sheet);
    sheet
}

/// Changes the vertex count, with as many open and syndrome bytes.
pub fn of_vertices(sheet: &mut Sheet, vertices: usize) {
    sheet.board.vertices = vertices;
    sheet.board.open.resize(vertices, 0);
    sheet.syndrome.resize(vertices, 0);
}

/// Sheets that break every rule from 1, from 2, and so on up to 8, and one that breaks only 10. No
/// rule has number 5: all but one of the edges are loop edges, to the end.
pub fn breaking() -> Vec<Sheet> {
    let board = Board {
        vertices: 1025,
        ends: vec![0, 1, 2, 2, 3, 3, 4],
        marks: vec![0, 4, 5, 0],
        open: vec![0; 4],
    };
    let mut sheet = Sheet { board, syndrome: vec![0, 2, 2], loss: vec![0, 2, 3, 0] };
    let mut sheets = vec![sheet.clone()];
    let mut keep = |change: fn(&mut Sheet)| {
        change(&mut sheet);
        sheets.push(sheet.clone());
    };
    keep(|sheet| sheet.board.vertices = 4);
    keep(|sheet| sheet.board.ends.push(4));
    keep(|sheet| sheet.syndrome.push(0));
    keep(|sheet| of_vertices(sheet, 5));
    keep(|sheet| sheet.board.marks = ring().marks);
    keep(|sheet| sheet.syndrome = vec![0, 1, 0, 0, 0]);
    keep(|sheet| sheet.loss = vec![0, 1, 1, 0]);
    sheets
}

/// The names of those that decoding and the verdict refuse alike, in order.
pub const ORDER: [&str; 6] =
    ["1 before 2", "2 before 3", "3 before 4", "4 before 6", "6 before 7", "7 before 8"];
