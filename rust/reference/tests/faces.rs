//! Document 02, K9: faces by hand, and the closed sets of small tori beside all choices of faces.

use std::collections::HashMap;

use reference::board::{Board, members, set_of, size, together};
use reference::faces::{edges_of, faces_into, made_up, making_up};
use reference::generators;
use reference::torus::{column_loop, row_loop, torus};
use reference::verdict::Verdict;
use reference::{Random, decode};

/// The bytes of a set whose members are bits.
fn bytes(bits: usize, count: usize) -> Vec<u8> {
    (0..count).map(|at| (bits >> at & 1) as u8).collect()
}

#[test]
fn edges_by_hand() {
    assert_eq!(edges_of(1, 0), [0, 0, 1, 1]);
    assert_eq!(edges_of(2, 0), [0, 4, 1, 3]);
    assert_eq!(edges_of(2, 3), [6, 2, 7, 5]);
    assert_eq!(edges_of(3, 0), [0, 6, 1, 3]);
    assert_eq!(edges_of(3, 2), [4, 10, 5, 1]);
    assert_eq!(edges_of(3, 7), [14, 2, 15, 17]);
    assert_eq!(edges_of(3, 8), [16, 4, 17, 13]);
    assert_eq!(edges_of(32, 1023), [2046, 62, 2047, 1985]);
}

/// Each edge lies beside two faces, and the edges of a face lead once round it.
#[test]
fn faces_of_every_side() {
    for side in 1..=32 {
        let board = torus(side);
        let mut beside = vec![0; board.edges()];
        for face in 0..side * side {
            for edge in edges_of(side, face) {
                beside[edge] += 1;
            }
            let face = made_up(side, &set_of(side * side, &[face]));
            assert!(board.is_closed(&face) && !board.winds(&face), "side {side}");
            assert_eq!(size(&face), if side == 1 { 0 } else { 4 }, "side {side}");
        }
        assert_eq!(beside, vec![2; board.edges()], "side {side}");
        assert_eq!(size(&made_up(side, &vec![1; side * side])), 0, "side {side}");
    }
}

/// Two rows together are the faces between them; one row alone is no faces at all.
#[test]
fn rows_and_columns() {
    let rows = together(&row_loop(4, 1), &row_loop(4, 3));
    let between: Vec<usize> = (4..12).collect();
    assert_eq!(making_up(4, &rows), Some(set_of(16, &between)));
    let columns = together(&column_loop(4, 0), &column_loop(4, 3));
    assert_eq!(making_up(4, &columns), Some(set_of(16, &[3, 7, 11, 15])));
    assert_eq!(making_up(4, &row_loop(4, 0)), None);
    assert_eq!(making_up(4, &column_loop(4, 2)), None);
    assert_eq!(making_up(4, &set_of(32, &[0])), None, "not closed");
}

/// Every set of edges that some faces make up, with all choices of faces that do.
fn all_made_up(side: usize) -> HashMap<Vec<u8>, Vec<Vec<u8>>> {
    let count = side * side;
    let mut choices: HashMap<Vec<u8>, Vec<Vec<u8>>> = HashMap::new();
    for bits in 0..1 << count {
        let faces = bytes(bits, count);
        choices.entry(made_up(side, &faces)).or_default().push(faces);
    }
    choices
}

/// Going through all sets of edges and all choices of faces: a set is made up of faces exactly where it
/// is closed and doesn't wind; two choices do it, each all faces but those of the other, and the one
/// without face 0 is found.
#[test]
fn every_set_of_small_sides() {
    for side in 1..=3 {
        let board = torus(side);
        let choices = all_made_up(side);
        let (mut unwound, mut wound) = (0, 0);
        for bits in 0..1 << board.edges() {
            let set = bytes(bits, board.edges());
            let found = making_up(side, &set);
            if !board.is_closed(&set) || board.winds(&set) {
                assert_eq!((choices.get(&set), found), (None, None), "side {side}, {set:?}");
                wound += usize::from(board.winds(&set));
                continue;
            }
            let [one, other] = choices[&set].as_slice() else {
                panic!("{:?} make up {set:?}", choices[&set]);
            };
            assert_eq!(together(one, other), vec![1; side * side]);
            let without_0 = if one[0] == 0 { one } else { other };
            assert_eq!(found.as_ref(), Some(without_0), "side {side}, {set:?}");
            unwound += 1;
        }
        // As many choices of faces as there are without face 0, and three values to wind with.
        let choices = 1 << (side * side - 1);
        assert_eq!((unwound, wound), (choices, 3 * choices), "side {side}");
    }
}

/// The answer for sets on the torus of side 3 where 0 and 1 are lit, whose correction is edge 0.
#[test]
fn answers_by_hand() {
    let judge = |handed: &[usize]| {
        let (lit, handed) = (set_of(9, &[0, 1]), set_of(18, handed));
        faces_into(3, &lit, &[0; 18], &handed, 9)
    };
    let same = |faces: &[usize]| Ok((Verdict::Same, Some(set_of(9, faces))));
    assert_eq!(judge(&[0]), same(&[]));
    assert_eq!(judge(&[1, 3, 6]), same(&[1, 2, 3, 4, 5, 6, 7, 8]));
    assert_eq!(judge(&[12, 13, 15]), same(&[6]));
    assert_eq!(judge(&[0, 8, 9, 11, 14]), same(&[4]));
    assert_eq!(judge(&[2, 4]), Ok((Verdict::Wound(1), None)));
    assert_eq!(judge(&[0, 1, 7, 13]), Ok((Verdict::Wound(2), None)));
    assert_eq!(judge(&[1, 2, 4, 7, 13]), Ok((Verdict::Wound(3), None)));
    assert_eq!(judge(&[]), Ok((Verdict::Off(0), None)));
    assert_eq!(judge(&[0, 17]), Ok((Verdict::Off(2), None)));
}

/// Random sheets and sets: the faces that are found are held to make up the set and the correction
/// together, and there are none where they wind.
#[test]
fn random_sheets() {
    let mut random = Random::new(63);
    let (mut same, mut wound, mut off) = (0, 0, 0);
    for round in 0..600 {
        let side = 1 + round % 8;
        let sheet = generators::sheet(&mut random, torus(side));
        let Ok(key) = decode(&sheet) else {
            continue;
        };
        let faces = random.set(side * side, 500);
        let mut handed = together(&key.correction, &made_up(side, &faces));
        match random.below(4) {
            0 => handed = together(&handed, &row_loop(side, random.below(side))),
            1 => handed = together(&handed, &random.set(2 * side * side, 20)),
            _ => {}
        }
        let set = together(&handed, &key.correction);
        let Board { vertices, .. } = sheet.board;
        match faces_into(side as u32, &sheet.syndrome, &sheet.loss, &handed, vertices) {
            Ok((Verdict::Same, Some(shown))) => {
                assert!(shown.len() == vertices && shown[0] == 0);
                assert_eq!(made_up(side, &shown), set, "{sheet:?}");
                same += 1;
            }
            Ok((Verdict::Wound(marks), None)) => {
                assert_eq!(sheet.board.crossings(&set), marks);
                assert_eq!(making_up(side, &set), None, "{sheet:?}");
                wound += 1;
            }
            Ok((Verdict::Off(vertex), None)) => {
                let odd = sheet.board.syndrome(&set);
                assert_eq!(members(&odd).next(), Some(vertex));
                off += 1;
            }
            other => panic!("{other:?}: {handed:?} on {sheet:?}"),
        }
    }
    assert!(same > 100 && wound > 50 && off > 20, "{same} same, {wound} wound, {off} off");
}
