//! Document 01, "Marked sheets": m1 to m9 with all that is said of them; and sheets by hand for what
//! document 02, K3, says of loop edges.

use reference::board::{Board, Sheet, members, set_of, size, together};
use reference::decoding::{Key, decode};
use reference::generators::{path, ring};
use reference::peeling::forest;
use reference::refusal::{NO_CORRECTION, Refusal};
use reference::torus::torus;
use reference::{distance, growth::FULL, program, text};

fn pair() -> Board {
    Board::new(2, &[(0, 1, 0), (0, 1, 1)])
}

fn key(board: Board, lit: &[usize], lost: &[usize]) -> Key {
    decode(&Sheet::new(board, lit, lost)).expect("this sheet has a correction")
}

fn refusal(board: Board, lit: &[usize]) -> Refusal {
    decode(&Sheet::new(board, lit, &[])).expect_err("this sheet has no correction")
}

/// Number 10 with this vertex.
fn none_at(place: u64) -> Refusal {
    Refusal { number: NO_CORRECTION, place }
}

fn listed(set: &[u8]) -> Vec<usize> {
    members(set).collect()
}

fn full(key: &Key) -> Vec<usize> {
    (0..key.support.len()).filter(|&edge| key.support[edge] == FULL).collect()
}

fn found_distance(board: &Board) -> Option<usize> {
    let fewest = distance::by_search(board);
    assert_eq!(fewest, distance::by_trees(board));
    fewest
}

/// t + 2s of a set of edges.
fn weight(lost: &[usize], set: &[usize]) -> usize {
    lost.len() + 2 * set.iter().filter(|edge| !lost.contains(edge)).count()
}

#[test]
fn m1() {
    let key = key(ring(), &[0, 3], &[]);
    assert_eq!((key.growths, listed(&key.correction)), (2, vec![3]));
    assert_eq!(key.edges(), 1);
}

#[test]
fn m2() {
    let lost = [0, 1, 2];
    let key = key(ring(), &[0, 3], &lost);
    assert_eq!((key.growths, listed(&key.correction)), (0, vec![0, 1, 2]));
    let error = [0, 1, 2];
    assert_eq!(ring().syndrome(&set_of(4, &error)), set_of(4, &[0, 3]));
    assert_eq!((weight(&lost, &error), found_distance(&ring())), (3, Some(4)));
}

#[test]
fn m3() {
    let lost = [0, 1, 2, 3];
    let key = key(ring(), &[0, 3], &lost);
    assert_eq!((key.growths, listed(&key.correction)), (0, vec![0, 1, 2]));
    let error = set_of(4, &[3]);
    assert_eq!(ring().syndrome(&error), set_of(4, &[0, 3]));
    assert_eq!(weight(&lost, &[3]), 4);
    assert!(ring().winds(&together(&error, &key.correction)));
}

#[test]
fn m4() {
    let key = key(path(4), &[0, 3], &[]);
    assert_eq!((key.growths, listed(&key.correction)), (6, vec![0, 1, 2]));
}

#[test]
fn m5() {
    assert_eq!(refusal(path(4), &[0, 1, 2]), none_at(0));
}

#[test]
fn m6() {
    let key = key(torus(3), &[0, 1], &[]);
    assert_eq!((key.growths, listed(&key.correction)), (2, vec![0]));
    assert_eq!(full(&key), [0, 1, 4, 13]);
}

#[test]
fn m7() {
    let key = key(torus(3), &[0, 4], &[]);
    assert_eq!((key.growths, listed(&key.correction)), (4, vec![0, 3]));
    assert_eq!(full(&key), [0, 1, 3, 4, 6, 8, 9, 13]);
}

#[test]
fn m8() {
    let key = key(pair(), &[0, 1], &[]);
    assert_eq!((key.growths, listed(&key.correction)), (2, vec![0]));
    assert_eq!(found_distance(&pair()), Some(2));
}

#[test]
fn m9() {
    let point = Board::new(1, &[]);
    let key = key(point.clone(), &[], &[]);
    assert_eq!((key.growths, size(&key.correction)), (0, 0));
    assert_eq!(refusal(point.clone(), &[0]), none_at(0));
    assert_eq!(found_distance(&point), None);
}

/// Both edges are odd parts, with the larger end lit. Vertex 1 is neither lit nor the smallest of the
/// board.
#[test]
fn smallest_of_two_odd_parts() {
    let board = Board::new(5, &[(2, 1, 0), (4, 3, 0)]);
    assert_eq!(refusal(board, &[2, 4]), none_at(1));
}

/// The boundary counts vertices: {0} and {2} have one each, so 0 grows, and both edges end full.
/// Counted by edges it would be two and one, and the edge to 1 would stay empty.
#[test]
fn boundary_counts_vertices() {
    let board = Board::new(3, &[(0, 1, 0), (0, 2, 0)]);
    let key = key(board, &[0, 2], &[]);
    assert_eq!((key.growths, full(&key)), (2, vec![0, 1]));
    assert_eq!(listed(&key.correction), [1]);
}

/// Two vertices with a loop edge at each, and an edge between them.
fn two_loops() -> Board {
    Board::new(2, &[(0, 0, 1), (0, 1, 0), (1, 1, 2)])
}

/// {0} grows twice, which fills its loop edge and the edge to 1. The loop edge at 1 gains nothing.
#[test]
fn loop_edge_of_the_cluster_that_grows() {
    let key = key(two_loops(), &[0, 1], &[]);
    assert_eq!((key.growths, listed(&key.correction)), (2, vec![1]));
    assert_eq!(key.support, [2, 2, 0]);
    assert_eq!(found_distance(&two_loops()), Some(1));
}

/// {0, 1} has a boundary of two, as vertex 1 touches its loop edge, so {2} grows and the loop edge
/// stays empty. Were it not counted, {0, 1} would grow, having the smaller vertex.
#[test]
fn loop_edge_counts_at_the_boundary() {
    let board = Board::new(3, &[(0, 1, 0), (1, 1, 0), (0, 2, 0)]);
    let key = key(board, &[0, 2], &[0]);
    assert_eq!((key.growths, listed(&key.correction)), (2, vec![2]));
    assert_eq!(key.support, [2, 0, 2]);
}

/// The same with the loop edge lost, and one more edge at 2. The loop edge is full, so vertex 1 is at
/// no boundary, and {0, 1} grows. Were it counted, {2} would grow, and fill its other edge too.
#[test]
fn full_loop_edge_does_not_count_at_the_boundary() {
    let board = Board::new(4, &[(0, 1, 0), (1, 1, 0), (0, 2, 0), (2, 3, 0)]);
    let key = key(board, &[0, 2], &[0, 1]);
    assert_eq!((key.growths, listed(&key.correction)), (2, vec![2]));
    assert_eq!(key.support, [2, 2, 2, 0]);
}

/// A loop edge comes first among the full edges and joins nothing.
#[test]
fn loop_edge_is_never_in_the_forest() {
    let lost = key(two_loops(), &[0, 1], &[0, 1, 2]);
    assert_eq!((lost.growths, listed(&lost.correction)), (0, vec![1]));
    assert_eq!(listed(&forest(&two_loops(), |_| true)), [1]);
    assert_eq!(listed(&forest(&torus(1), |_| true)), []);
}

/// It adds nothing to any syndrome, so it is closed by itself and winds where it has a mark; and it
/// doesn't help a lit vertex.
#[test]
fn loop_edge_is_closed_by_itself() {
    let board = Board::new(2, &[(0, 0, 3), (1, 1, 0)]);
    for set in [[0, 0], [1, 0], [0, 1], [1, 1]] {
        assert_eq!(board.syndrome(&set), [0, 0]);
        assert_eq!(board.winds(&set), set[0] == 1);
    }
    assert_eq!(refusal(board.clone(), &[1]), none_at(1));
    assert_eq!(refusal(board.clone(), &[0, 1]), none_at(0));
    assert_eq!(key(board, &[], &[1]).support, [0, 2]);
}

/// Both edges return to the one vertex. t counts a lost one and s the others: E = {0} has t + 2s = 2,
/// or 1 where it is lost, which is not below the distance, and winds with the empty correction.
#[test]
fn torus_of_side_1() {
    assert_eq!(torus(1), Board::new(1, &[(0, 0, 1), (0, 0, 2)]));
    assert_eq!(found_distance(&torus(1)), Some(1));
    assert_eq!(refusal(torus(1), &[0]), none_at(0));
    for (lost, reach) in [(&[][..], 2), (&[0], 1)] {
        let key = key(torus(1), &[], lost);
        assert_eq!((key.growths, key.edges()), (0, 0));
        assert_eq!(weight(lost, &[0]), reach);
        assert!(torus(1).winds(&together(&[1, 0], &key.correction)));
    }
}

#[test]
fn ring_text() {
    let input = b"V\t4\nE\t0\t1\t0\nE\t1\t2\t0\nE\t2\t3\t0\nE\t3\t0\t1\nS\t0\nS\t3\n";
    let sheet = Sheet::new(ring(), &[0, 3], &[]);
    assert_eq!(text::read(input), Ok(sheet.clone()));
    assert_eq!(text::write(&sheet), input);
    assert_eq!(program::output(input), b"G\t2\nC\t3\nD\t4\n");
}
