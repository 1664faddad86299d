//! Document 01's marked sheets in its own numbers, held against the library alone, plain and packed.

use reference::board::{Board, Sheet, members, together};
use reference::generators::{path, ring};
use reference::refusal::{NO_CORRECTION, Refusal};
use reference::torus::torus;
use reference::{Key, PackedSheet};
use table_tests::library;

fn pair() -> Board {
    Board::new(2, &[(0, 1, 0), (0, 1, 1)])
}

fn point() -> Board {
    Board::new(1, &[])
}

/// The library's answer on a sheet, which is the same where the sheet is packed.
fn decode(sheet: &Sheet) -> Result<Key, Refusal> {
    let key = library::decode(sheet);
    assert_eq!(library::decode_packed(&PackedSheet::new(sheet)), key);
    key
}

/// The growths, the correction and the full edges of a sheet.
fn key(board: Board, lit: &[usize], lost: &[usize]) -> (usize, Vec<usize>, Vec<usize>) {
    let key = decode(&Sheet::new(board, lit, lost)).expect("a correction");
    let full = (0..key.support.len()).filter(|&edge| key.support[edge] == 2).collect();
    (key.growths, members(&key.correction).collect(), full)
}

/// The growths and the correction alone.
fn short_key(board: Board, lit: &[usize], lost: &[usize]) -> (usize, Vec<usize>) {
    let (growths, correction, _) = key(board, lit, lost);
    (growths, correction)
}

/// The vertex that number 10 shows.
fn shown(board: Board, lit: &[usize]) -> u64 {
    let refusal = decode(&Sheet::new(board, lit, &[])).expect_err("no correction");
    let Refusal { number, place } = refusal;
    assert_eq!(number, NO_CORRECTION);
    place
}

#[test]
fn keys() {
    assert_eq!(short_key(ring(), &[0, 3], &[]), (2, vec![3]), "m1");
    assert_eq!(short_key(ring(), &[0, 3], &[0, 1, 2]), (0, vec![0, 1, 2]), "m2");
    assert_eq!(short_key(ring(), &[0, 3], &[0, 1, 2, 3]), (0, vec![0, 1, 2]), "m3");
    assert_eq!(short_key(path(4), &[0, 3], &[]), (6, vec![0, 1, 2]), "m4");
    assert_eq!(shown(path(4), &[0, 1, 2]), 0, "m5");
    assert_eq!(key(torus(3), &[0, 1], &[]), (2, vec![0], vec![0, 1, 4, 13]), "m6");
    let m7 = (4, vec![0, 3], vec![0, 1, 3, 4, 6, 8, 9, 13]);
    assert_eq!(key(torus(3), &[0, 4], &[]), m7, "m7");
    assert_eq!(short_key(pair(), &[0, 1], &[]), (2, vec![0]), "m8");
    assert_eq!(short_key(point(), &[], &[]), (0, vec![]), "m9");
    assert_eq!(shown(point(), &[0]), 0, "m9");
}

#[test]
fn m3_winds_with_its_error() {
    let key = decode(&Sheet::new(ring(), &[0, 3], &[0, 1, 2, 3])).expect("a correction");
    assert!(ring().winds(&together(&[0, 0, 0, 1], &key.correction)));
}

#[test]
fn distances() {
    assert_eq!(library::distance(&ring()), (Some(4), vec![1; 4]));
    assert_eq!(library::distance(&pair()), (Some(2), vec![1; 2]));
    assert_eq!(library::distance(&path(4)), (None, vec![0; 3]));
    assert_eq!(library::distance(&point()), (None, vec![]));
}

#[test]
fn boundary_counts_vertices() {
    let board = Board::new(3, &[(0, 1, 0), (0, 2, 0)]);
    assert_eq!(key(board, &[0, 2], &[]), (2, vec![1], vec![0, 1]));
}
