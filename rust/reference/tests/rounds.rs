//! Document 02, K8: sheets by hand for what it says of growing in rounds, among them document 01's
//! marked sheets.

use reference::board::{Board, Sheet, members, set_of};
use reference::generators::{path, ring};
use reference::refusal::{NO_CORRECTION, Refusal};
use reference::rounds::decode_rounds_into;
use reference::torus::torus;
use reference::{RoundsKey, decode, decode_rounds};

fn key(board: Board, lit: &[usize], lost: &[usize]) -> RoundsKey {
    decode_rounds(&Sheet::new(board, lit, lost)).expect("this sheet has a correction")
}

/// The rounds and the correction.
fn short(key: &RoundsKey) -> (usize, Vec<usize>) {
    (key.rounds, members(&key.correction).collect())
}

fn refused(board: Board, lit: &[usize]) -> (u8, u64) {
    let Refusal { number, place } =
        decode_rounds(&Sheet::new(board, lit, &[])).expect_err("this sheet has no correction");
    (number, place)
}

#[test]
fn marked_sheets() {
    let m1 = key(ring(), &[0, 3], &[]);
    assert_eq!(short(&m1), (1, vec![3]), "m1");
    assert_eq!(m1.support, [1, 0, 1, 2], "m1");
    assert_eq!(short(&key(ring(), &[0, 3], &[0, 1, 2])), (0, vec![0, 1, 2]), "m2");
    assert_eq!(short(&key(ring(), &[0, 3], &[0, 1, 2, 3])), (0, vec![0, 1, 2]), "m3");
    assert_eq!(short(&key(path(4), &[0, 3], &[])), (3, vec![0, 1, 2]), "m4");
    assert_eq!(refused(path(4), &[0, 1, 2]), (NO_CORRECTION, 0), "m5");
    assert_eq!(short(&key(torus(3), &[0, 1], &[])), (1, vec![0]), "m6");
    let m7 = key(torus(3), &[0, 4], &[]);
    assert_eq!(short(&m7), (2, vec![0, 3]), "m7");
    let support =
        set_of(18, &[0, 1, 3, 4, 6, 8, 9, 13]).iter().map(|full| 2 * full).collect::<Vec<_>>();
    assert_eq!(m7.support, support, "m7");
    let m8 = key(Board::new(2, &[(0, 1, 0), (0, 1, 1)]), &[0, 1], &[]);
    assert_eq!((short(&m8), m8.support), ((1, vec![0]), vec![2, 2]), "m8");
    assert_eq!(short(&key(Board::new(1, &[]), &[], &[])), (0, vec![]), "m9");
    assert_eq!(refused(Board::new(1, &[]), &[0]), (NO_CORRECTION, 0), "m9");
}

/// {0} and {1} were odd when the round began, so the edge to 2 gains from 1, though {0, 1} is even
/// once the edge before it is full.
#[test]
fn odd_when_the_round_began() {
    let key = key(path(4), &[0, 1], &[]);
    assert_eq!((short(&key), key.support), ((1, vec![0]), vec![2, 1, 0]));
}

/// Edge 2 gains from both of its ends, so that it alone is full. With one half-edge in a round all
/// edges would be full after two, and the correction, edges 0 and 1, would wind with E = {2}, though
/// the one winding loop has 3 edges and 2s is 2.
#[test]
fn edge_between_odd_clusters() {
    let triangle = Board::new(3, &[(0, 1, 1), (0, 2, 0), (1, 2, 0)]);
    let key = key(triangle, &[1, 2], &[]);
    assert_eq!((short(&key), key.support), ((1, vec![2]), vec![1, 1, 2]));
}

/// The edges between three odd clusters gain from both ends in the one round, and {0, 1, 2} is odd:
/// it grows in the next, and meets {4} at 3, half of the way from each.
#[test]
fn odd_cluster_of_three() {
    let key = key(path(5), &[0, 1, 2, 4], &[]);
    assert_eq!((short(&key), key.support), ((2, vec![0, 2, 3]), vec![2; 4]));
}

/// {3, 4} is even after the first round and gains nothing more, until {0, 1, 2} and {5, 6, 7} reach
/// its half-edges in the fifth round. All is one cluster then.
#[test]
fn even_cluster_waits() {
    let waits = key(path(8), &[0, 3, 4, 7], &[]);
    assert_eq!(short(&waits), (5, vec![0, 1, 2, 4, 5, 6]));
    // Were it not there, {0} and {7} would meet after 7 rounds.
    assert_eq!(key(path(8), &[0, 7], &[]).rounds, 7);
}

/// A lost edge is full from the start, so {0, 1, 2} is odd or even as a whole, and grows at both of
/// its ends.
#[test]
fn lost_edges_start_full() {
    let odd = key(path(5), &[1, 4], &[0, 1]);
    assert_eq!((short(&odd), odd.support), ((2, vec![1, 2, 3]), vec![2; 4]));
    let even = key(path(5), &[0, 1], &[0, 1]);
    assert_eq!((short(&even), even.support), ((0, vec![0]), vec![2, 2, 0, 0]));
}

/// Both ends of a loop edge lie in its cluster, so it gains two half-edges in a round where that is
/// odd. It is in no correction.
#[test]
fn loop_edges() {
    let board = Board::new(3, &[(0, 0, 1), (0, 1, 0), (1, 1, 2), (2, 2, 0), (1, 2, 0)]);
    let two = key(board.clone(), &[0, 1], &[]);
    assert_eq!((short(&two), two.support), ((1, vec![1]), vec![2, 2, 2, 0, 1]));
    let lost = key(board, &[], &[0, 3]);
    assert_eq!((short(&lost), lost.support), ((0, vec![]), vec![2, 0, 0, 2, 0]));
}

/// Edge 2 has both ends in {0, 1, 2}, which its lost edges 3 and 4 hold together, so it gains two
/// half-edges. Edges are taken by number, so 4 comes too late; in the order in which they became full
/// 2 would. The forest of the whole board would give edges 0 and 1, which are not full.
#[test]
fn forest_of_the_full_edges() {
    let board = Board::new(5, &[(3, 4, 0), (4, 0, 0), (0, 1, 0), (1, 2, 0), (0, 2, 0), (2, 3, 0)]);
    let key = key(board, &[0, 3], &[3, 4]);
    assert_eq!((short(&key), key.support), ((1, vec![2, 3, 5]), vec![1, 1, 2, 2, 2, 2]));
}

/// Where nothing is odd at the start nothing grows, in rounds or otherwise.
#[test]
fn no_round() {
    let sheet = Sheet::new(torus(3), &[0, 1, 4, 5], &[0, 8, 17]);
    let rounds = decode_rounds(&sheet).expect("a correction");
    let key = decode(&sheet).expect("a correction");
    assert_eq!((rounds.rounds, key.growths), (0, 0));
    assert_eq!((rounds.support, rounds.correction), (key.support, key.correction));
}

/// Refusals are decoding's, number 10 among them, which comes last.
#[test]
fn refusals() {
    let mut sheet = Sheet::new(path(4), &[0], &[]);
    let number = |sheet: &Sheet, support, correction| {
        let Refusal { number, place } =
            decode_rounds_into(sheet, support, correction).expect_err("a refusal");
        (number, place)
    };
    assert_eq!(number(&sheet, 3, 3), (10, 0));
    sheet.loss[2] = 2;
    assert_eq!(number(&sheet, 3, 3), (8, 2));
    assert_eq!(number(&sheet, 3, 2), (3, 0));
    assert_eq!(number(&sheet, 4, 3), (3, 0));
    sheet.board.vertices = 1025;
    assert_eq!(number(&sheet, 4, 3), (1, 0));
}
