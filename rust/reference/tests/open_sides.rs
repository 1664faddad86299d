//! Document 02, K5: sheets by hand for what it says of open vertices, and the planar board.

use reference::board::{Board, Sheet, members, set_of, together};
use reference::generators::{path, ring};
use reference::open_sides::joined;
use reference::planar::planar;
use reference::refusal::{NO_CORRECTION, Refusal};
use reference::verdict::{Verdict, verdict};
use reference::{Key, decode, decode_rounds, program, text};

fn key(board: &Board, lit: &[usize], lost: &[usize]) -> Key {
    decode(&Sheet::new(board.clone(), lit, lost)).expect("this sheet has a correction")
}

/// The growths, the correction and the supports.
fn whole(key: Key) -> (usize, Vec<usize>, Vec<u8>) {
    (key.growths, members(&key.correction).collect(), key.support)
}

/// The rounds, the correction and the supports.
fn rounds(board: &Board, lit: &[usize], lost: &[usize]) -> (usize, Vec<usize>, Vec<u8>) {
    let sheet = Sheet::new(board.clone(), lit, lost);
    let key = decode_rounds(&sheet).expect("this sheet has a correction");
    (key.rounds, members(&key.correction).collect(), key.support)
}

/// The vertex that number 10 shows, the same in both decoders and in the verdict.
fn shown(board: &Board, lit: &[usize]) -> Option<u64> {
    let sheet = Sheet::new(board.clone(), lit, &[]);
    let refusal = decode(&sheet).err();
    assert_eq!(decode_rounds(&sheet).err(), refusal);
    assert_eq!(verdict(&sheet, &vec![0; board.edges()]).err(), refusal);
    refusal.map(|Refusal { number, place }| {
        assert_eq!(number, NO_CORRECTION);
        place
    })
}

/// The set {0, 1} of a path runs from vertex 0 to 2. Its syndrome has neither where it is open.
#[test]
fn no_open_vertex_has_a_syndrome() {
    let set = set_of(3, &[0, 1]);
    for (open, syndrome) in [(&[][..], &[0, 2][..]), (&[0], &[2]), (&[1], &[0, 2]), (&[0, 2], &[])]
    {
        let board = path(4).with_open(open);
        assert_eq!(board.syndrome(&set), set_of(4, syndrome), "{open:?} open");
        assert_eq!(board.odd_ends(&set), set_of(4, &[0, 2]));
        assert_eq!(board.is_closed(&set), syndrome.is_empty());
    }
}

/// {2} grows until it has the open vertex 0, with an odd number of lit vertices, and no longer.
#[test]
fn cluster_runs_off_the_board() {
    let board = path(4).with_open(&[0]);
    assert_eq!(whole(key(&board, &[2], &[])), (4, vec![0, 1], vec![2, 2, 2]));
    assert_eq!(rounds(&board, &[2], &[]), (4, vec![0, 1], vec![2, 2, 2]));
    let near = path(4).with_open(&[1]);
    assert_eq!(whole(key(&near, &[2], &[])), (2, vec![1], vec![0, 2, 2]));
    assert_eq!(rounds(&near, &[2], &[]), (2, vec![1], vec![0, 2, 2]));
}

/// {0, 1} holds an open vertex from the start, as edge 0 is lost. It never grows, and {3} comes to it.
#[test]
fn cluster_with_an_open_vertex_never_grows() {
    let board = path(4).with_open(&[0]);
    assert_eq!(whole(key(&board, &[1], &[0])), (0, vec![0], vec![2, 0, 0]));
    assert_eq!(rounds(&board, &[1], &[0]), (0, vec![0], vec![2, 0, 0]));
    assert_eq!(whole(key(&board, &[1, 3], &[0])), (4, vec![1, 2], vec![2, 2, 2]));
    assert_eq!(rounds(&board, &[1, 3], &[0]), (4, vec![1, 2], vec![2, 2, 2]));
}

/// All edges are lost, so that all is one cluster. With one lit vertex the smallest of its open
/// vertices is an odd end of the correction, wherever it lies; with two none is.
#[test]
fn smallest_open_vertex_of_the_cluster() {
    let lost = [0, 1, 2, 3];
    let board = path(5).with_open(&[1, 4]);
    assert_eq!(whole(key(&board, &[3], &lost)), (0, vec![1, 2], vec![2; 4]));
    assert_eq!(rounds(&board, &[3], &lost), (0, vec![1, 2], vec![2; 4]));
    assert_eq!(whole(key(&board, &[0], &lost)), (0, vec![0], vec![2; 4]));
    assert_eq!(whole(key(&board, &[2, 3], &lost)), (0, vec![2], vec![2; 4]));
    assert_eq!(whole(key(&board, &[0, 2, 3], &lost)), (0, vec![0, 2], vec![2; 4]));
}

/// Two clusters with an odd syndrome, each with an open vertex of its own.
#[test]
fn each_cluster_has_its_own_open_end() {
    let board = path(6).with_open(&[0, 2, 5]);
    let lost = [0, 1, 3, 4];
    assert_eq!(whole(key(&board, &[1, 4], &lost)), (0, vec![0, 4], vec![2, 2, 0, 2, 2]));
    assert_eq!(rounds(&board, &[1, 4], &lost), (0, vec![0, 4], vec![2, 2, 0, 2, 2]));
}

/// An odd cluster takes an open vertex that is a cluster by itself. Which of two it meets first is a
/// matter of growth: all edges at the cluster gain, and both are in it at the end.
#[test]
fn open_vertices_on_both_sides() {
    let board = path(3).with_open(&[0, 2]);
    assert_eq!(whole(key(&board, &[1], &[])), (2, vec![0], vec![2, 2]));
    assert_eq!(rounds(&board, &[1], &[]), (2, vec![0], vec![2, 2]));
    let turned = Board::new(3, &[(2, 1, 0), (1, 0, 0)]).with_open(&[0, 2]);
    assert_eq!(whole(key(&turned, &[1], &[])), (2, vec![1], vec![2, 2]));
}

/// {2} is the one odd cluster of the ring, where all others are open or none is.
#[test]
fn single_lit_vertex() {
    assert_eq!(shown(&ring(), &[2]), Some(0));
    let board = ring().with_open(&[0, 1, 3]);
    assert_eq!(whole(key(&board, &[2], &[])), (2, vec![1], vec![0, 2, 2, 0]));
    assert_eq!(rounds(&board, &[2], &[]), (2, vec![1], vec![0, 2, 2, 0]));
}

/// Two parts with one lit vertex each. An open vertex in a part takes it out of number 10.
#[test]
fn odd_parts_without_an_open_vertex() {
    let board = Board::new(6, &[(2, 1, 0), (4, 3, 0), (3, 5, 0)]);
    let open = |list: &[usize]| board.clone().with_open(list);
    assert_eq!(shown(&open(&[]), &[2, 4]), Some(1));
    assert_eq!(shown(&open(&[1]), &[2, 4]), Some(3));
    assert_eq!(shown(&open(&[5]), &[2, 4]), Some(1));
    assert_eq!(shown(&open(&[0]), &[2, 4]), Some(1), "open, but in no odd part");
    assert_eq!(shown(&open(&[1, 5]), &[2, 4]), None);
    assert_eq!(shown(&open(&[0, 1, 5]), &[2, 4]), None);
    assert_eq!(shown(&open(&[1, 3]), &[0, 2, 4]), Some(0));
}

/// Every vertex is open: nothing may be lit, every set is closed, and an edge with a mark winds.
#[test]
fn every_vertex_open() {
    let board = ring().with_open(&[0, 1, 2, 3]);
    for lost in [&[][..], &[1], &[0, 1, 2, 3]] {
        let key = key(&board, &[], lost);
        assert_eq!((key.growths, key.edges()), (0, 0));
    }
    let sheet = Sheet::new(board, &[], &[]);
    assert_eq!(verdict(&sheet, &[1, 0, 1, 0]), Ok(Verdict::Same));
    assert_eq!(verdict(&sheet, &[1, 0, 1, 1]), Ok(Verdict::Wound(1)));
}

/// Off is at a vertex that is not open, though the set ends at a smaller one that is.
#[test]
fn off_at_no_open_vertex() {
    let board = path(5).with_open(&[0, 4]);
    let sheet = Sheet::new(board, &[2], &[]);
    assert_eq!(verdict(&sheet, &[1, 1, 0, 0]), Ok(Verdict::Same));
    assert_eq!(verdict(&sheet, &[0, 0, 1, 1]), Ok(Verdict::Same));
    assert_eq!(verdict(&sheet, &[1, 0, 0, 0]), Ok(Verdict::Off(1)));
    assert_eq!(verdict(&sheet, &[1, 1, 1, 1]), Ok(Verdict::Off(2)));
    assert_eq!(verdict(&sheet, &[0, 0, 1, 0]), Ok(Verdict::Off(3)));
}

/// A set is closed on a board exactly where it is on the one whose open vertices are made one.
#[test]
fn open_vertices_made_one() {
    let board = planar(2);
    let joined = joined(&board);
    assert_eq!(joined.open, [0; 6]);
    assert_eq!(joined.ends, [0, 1, 1, 0, 0, 4, 4, 0, 1, 4]);
    for bits in 0..32 {
        let set: Vec<u8> = (0..5).map(|edge| (bits >> edge & 1) as u8).collect();
        assert_eq!(board.is_closed(&set), joined.is_closed(&set), "{set:?}");
    }
}

#[test]
fn planar_boards() {
    let side_2 = Board::new(6, &[(0, 1, 1), (1, 2, 0), (3, 4, 1), (4, 5, 0), (1, 4, 0)]);
    assert_eq!(planar(2), side_2.with_open(&[0, 2, 3, 5]));
    let rows = [
        [(0, 1, 1), (1, 2, 0), (2, 3, 0)],
        [(4, 5, 1), (5, 6, 0), (6, 7, 0)],
        [(8, 9, 1), (9, 10, 0), (10, 11, 0)],
    ];
    let columns = [[(1, 5, 0), (2, 6, 0)], [(5, 9, 0), (6, 10, 0)]];
    let edges = [rows.concat(), columns.concat()].concat();
    assert_eq!(planar(3), Board::new(12, &edges).with_open(&[0, 3, 4, 7, 8, 11]));
    for side in 2..=31 {
        let board = planar(side);
        assert_eq!(board.vertices, side * (side + 1));
        assert_eq!(board.edges(), side * side + (side - 1) * (side - 1));
        assert!((0..board.edges()).all(|edge| board.ends_of(edge)[0] < board.ends_of(edge)[1]));
    }
}

/// A row of a planar board is a winding loop, from one open column to the other; a way down an inner
/// column is none, and what goes out and back on one side does not wind.
#[test]
fn loops_of_a_planar_board() {
    let board = planar(3);
    assert!(board.winds(&set_of(13, &[0, 1, 2])));
    assert!(board.winds(&set_of(13, &[3, 9, 1, 2])));
    assert!(!board.is_closed(&set_of(13, &[9])));
    assert!(board.is_closed(&set_of(13, &[0, 9, 3])));
    assert!(!board.winds(&set_of(13, &[0, 9, 3])));
}

/// The error {3, 4} runs from the left side to vertex 6, which alone is lit; t + 2s = 4. The
/// correction leaves on the right by edge 5, which is nearer, and both together are row 1.
#[test]
fn nearer_side_of_a_planar_board() {
    let board = planar(3);
    let sheet = Sheet::new(board.clone(), &[6], &[]);
    let error = set_of(13, &[3, 4]);
    assert_eq!(board.syndrome(&error), sheet.syndrome);
    let key = decode(&sheet).expect("a correction");
    assert_eq!((key.growths, members(&key.correction).collect::<Vec<_>>()), (2, vec![5]));
    assert!(board.winds(&together(&error, &key.correction)));
    assert_eq!(verdict(&sheet, &error), Ok(Verdict::Wound(1)));
    let input = text::write(&sheet);
    assert_eq!(program::output(&input), b"G\t2\nC\t5\nD\t3\n");
}
