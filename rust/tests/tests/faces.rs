//! Document 02, K9: the verdict on a torus, with faces as evidence.

use reference::board::{Sheet, set_of, together};
use reference::faces::made_up;
use reference::torus::{column_loop, row_loop, torus};
use reference::{Random, generators};
use table::{Refusal, Verdict};
use table_tests::faces::{Answer, Lent, judge};
use table_tests::{agrees, library};

/// The call where nothing is lit, so that the correction is empty and this set is all that faces are to
/// make up.
fn judge_set(side: usize, set: &[u8]) -> Answer {
    judge(side, &Lent { handed: set.to_vec(), ..Lent::blank(side) })
}

/// The answer same, by these faces or by all others: by those without face 0.
fn same_by(faces: &[u8]) -> Answer {
    let shown = faces.iter().map(|&face| face ^ faces[0]).collect();
    Ok((Verdict::Same, Some(shown)))
}

/// The answer wound.
fn wound(marks: u8) -> Answer {
    Ok((Verdict::Wound(marks), None))
}

/// The answer off.
fn off(vertex: usize) -> Answer {
    Ok((Verdict::Off(vertex), None))
}

/// The bytes of a set whose members are bits.
fn bytes(bits: usize, count: usize) -> Vec<u8> {
    (0..count).map(|at| (bits >> at & 1) as u8).collect()
}

/// A random sheet on a torus that has a correction, with that.
fn random_sheet(random: &mut Random, side: usize) -> (Sheet, Vec<u8>) {
    let board = torus(side);
    let (rate, lost) = ([10, 50, 100, 300][random.below(4)], [0, 20, 100, 500][random.below(4)]);
    let syndrome = board.syndrome(&random.set(board.edges(), rate));
    let loss = random.set(board.edges(), lost);
    let sheet = Sheet { board, syndrome, loss };
    let key = library::decode(&sheet).expect("the error has the syndrome");
    (sheet, key.correction)
}

/// The torus of side 3 with vertices 0 and 1 lit, whose correction is edge 0.
#[test]
fn sets_by_hand() {
    let sheet = Sheet::new(torus(3), &[0, 1], &[]);
    let judged = |handed: &[usize]| judge(3, &Lent::new(&sheet, &set_of(18, handed)));
    let same = |faces: &[usize]| Ok((Verdict::Same, Some(set_of(9, faces))));
    assert_eq!(judged(&[0]), same(&[]));
    assert_eq!(judged(&[12, 13, 15]), same(&[6]), "round face 6");
    assert_eq!(judged(&[1, 3, 6]), same(&[1, 2, 3, 4, 5, 6, 7, 8]), "round face 0");
    assert_eq!(judged(&[0, 8, 9, 11, 14]), same(&[4]), "face 4 beside the correction");
    assert_eq!(judged(&[0, 4, 13, 16, 17]), same(&[8]), "the last face");
    assert_eq!(judged(&[2, 4]), wound(1));
    assert_eq!(judged(&[0, 1, 7, 13]), wound(2));
    assert_eq!(judged(&[1, 2, 4, 7, 13]), wound(3));
    assert_eq!(judged(&[]), off(0));
    assert_eq!(judged(&[0, 17]), off(2));
}

/// Which edges are lost decides on the correction, and so on the answer: with edges 2 and 4 lost, which
/// go round the torus, they are the correction.
#[test]
fn lost_edges_count() {
    let sheet = Sheet::new(torus(3), &[0, 1], &[2, 4]);
    assert_eq!(judge(3, &Lent::new(&sheet, &set_of(18, &[2, 4]))), same_by(&[0; 9]));
    assert_eq!(judge(3, &Lent::new(&sheet, &set_of(18, &[0]))), wound(1));
    let sheet = Sheet::new(torus(3), &[0, 1], &[12, 13, 15]);
    assert_eq!(judge(3, &Lent::new(&sheet, &set_of(18, &[0]))), same_by(&set_of(9, &[6])));
}

/// Every syndrome and every set on the tori of sides 1 and 2, with several losses. An even syndrome is
/// that of 4 or 32 sets, a quarter of which are same and three quarters wound.
#[test]
fn every_syndrome_and_set_of_sides_1_and_2() {
    for (side, losses) in [(1, 4), (2, 11)] {
        let board = torus(side);
        let (vertices, edges) = (board.vertices, board.edges());
        let (mut same, mut wound, mut off, mut refused) = (0, 0, 0, 0);
        for lost in 0..losses {
            let loss = bytes(lost * 25, edges);
            for lit in 0..1 << vertices {
                let sheet = Sheet {
                    board: board.clone(),
                    syndrome: bytes(lit, vertices),
                    loss: loss.clone(),
                };
                for bits in 0..1 << edges {
                    let handed = bytes(bits, edges);
                    match judge(side, &Lent::new(&sheet, &handed)) {
                        Ok((Verdict::Same, Some(_))) => same += 1,
                        Ok((Verdict::Wound(1..=3), None)) => wound += 1,
                        Ok((Verdict::Off(_), None)) => off += 1,
                        Err(Refusal::NoCorrection(0)) => refused += 1,
                        other => panic!("{other:?}: {handed:?} on {sheet:?}"),
                    }
                }
            }
        }
        let even = losses << (vertices - 1);
        let closed = 1 << (vertices + 1);
        assert_eq!((same, wound), (even * closed / 4, even * closed / 4 * 3));
        assert_eq!((off, refused), (even * ((1 << edges) - closed), even << edges));
    }
}

/// The closed sets of a torus, each with the faces without face 0 that make it up together with a row,
/// a column, both or neither, and with the value of these.
fn closed_sets(side: usize) -> Vec<(Vec<u8>, Vec<u8>, u8)> {
    let (row, column) = (row_loop(side, 0), column_loop(side, 0));
    let loops = [
        (vec![0; row.len()], 0),
        (row.clone(), 1),
        (column.clone(), 2),
        (together(&row, &column), 3),
    ];
    let mut sets = Vec::new();
    for bits in 0..1 << (side * side - 1) {
        let faces = bytes(bits << 1, side * side);
        for (winding, marks) in &loops {
            sets.push((together(&made_up(side, &faces), winding), faces.clone(), *marks));
        }
    }
    sets
}

/// Every closed set of the tori of sides 1 to 3, alone and beside the correction of some sheet: it is
/// same exactly where it doesn't wind, by the faces that make it up.
#[test]
fn every_closed_set_of_sides_1_to_3() {
    let mut random = Random::new(211);
    for side in 1..=3 {
        let board = torus(side);
        let sets = closed_sets(side);
        let mut all: Vec<&Vec<u8>> = sets.iter().map(|(set, ..)| set).collect();
        all.sort_unstable();
        all.dedup();
        // A connected board has 2^(edges - vertices + 1) closed sets.
        assert_eq!(all.len(), 1 << (board.edges() - board.vertices + 1));
        assert!(all.iter().all(|set| board.is_closed(set)));
        for round in 0..6 {
            let (sheet, correction) = match round {
                0 => (Sheet::new(board.clone(), &[], &[]), vec![0; board.edges()]),
                _ => random_sheet(&mut random, side),
            };
            for (set, faces, marks) in &sets {
                assert_eq!(board.winds(set), *marks != 0);
                let answer = judge(side, &Lent::new(&sheet, &together(set, &correction)));
                assert_eq!(answer, if *marks == 0 { same_by(faces) } else { wound(*marks) });
            }
        }
    }
}

/// Every face of every side by itself: it comes back, or all others do for face 0.
#[test]
fn single_faces() {
    for side in 1..=32 {
        for face in 0..side * side {
            let Lent { syndrome, loss, .. } = Lent::blank(side);
            let faces = set_of(side * side, &[face]);
            let answer = agrees::faces(side as u32, &syndrome, &loss, &made_up(side, &faces));
            assert_eq!(answer, same_by(&faces), "side {side}, face {face}");
        }
    }
}

/// Every row and column winds; one of each does too, with 3; and two rows, or two columns, are the faces
/// between them.
#[test]
fn rows_and_columns() {
    let mut random = Random::new(212);
    for side in 1..=32 {
        for at in 0..side {
            let (row, column) = (row_loop(side, at), column_loop(side, at));
            assert_eq!(judge_set(side, &row), wound(1), "side {side}, row {at}");
            assert_eq!(judge_set(side, &column), wound(2), "side {side}, column {at}");
            let other = random.below(side);
            let both = together(&row, &column_loop(side, other));
            assert_eq!(judge_set(side, &both), wound(3), "side {side}, row {at}, column {other}");
            let between = |at_face: fn(usize, usize) -> usize| -> Vec<u8> {
                let (first, last) = (at.min(other), at.max(other));
                let inside = |face| (first..last).contains(&at_face(face, side));
                (0..side * side).map(|face| inside(face).into()).collect()
            };
            let rows = together(&row, &row_loop(side, other));
            assert_eq!(judge_set(side, &rows), same_by(&between(|face, side| face / side)));
            let columns = together(&column, &column_loop(side, other));
            assert_eq!(judge_set(side, &columns), same_by(&between(|face, side| face % side)));
        }
    }
}

/// Random syndromes, losses and faces on every side. The correction with the faces is same, by them or
/// by all others; with loops that wind it is wound; with an edge flipped it is off.
#[test]
fn faces_beside_the_correction() {
    let mut random = Random::new(213);
    for side in 1..=32 {
        for _ in 0..if side <= 12 { 12 } else { 2 } {
            let (sheet, correction) = random_sheet(&mut random, side);
            let none = vec![0; side * side];
            assert_eq!(judge(side, &Lent::new(&sheet, &correction)), same_by(&none), "{sheet:?}");
            let rate = [20, 500, 900][random.below(3)];
            let faces = random.set(side * side, rate);
            let handed = together(&correction, &made_up(side, &faces));
            assert_eq!(judge(side, &Lent::new(&sheet, &handed)), same_by(&faces), "{sheet:?}");
            let row = together(&handed, &row_loop(side, random.below(side)));
            assert_eq!(judge(side, &Lent::new(&sheet, &row)), wound(1), "{sheet:?}");
            let column = together(&handed, &column_loop(side, random.below(side)));
            assert_eq!(judge(side, &Lent::new(&sheet, &column)), wound(2), "{sheet:?}");
            let both = together(&row, &column_loop(side, random.below(side)));
            assert_eq!(judge(side, &Lent::new(&sheet, &both)), wound(3), "{sheet:?}");
            let edge = random.below(2 * side * side);
            let [a, b] = sheet.board.ends_of(edge);
            if a != b {
                let flipped = together(&handed, &set_of(2 * side * side, &[edge]));
                assert_eq!(judge(side, &Lent::new(&sheet, &flipped)), off(a.min(b)), "{sheet:?}");
            }
        }
    }
}

/// Every edge of some sides by itself is off at its smaller end, but for the loop edges of side 1.
#[test]
fn single_edges() {
    for side in [1, 2, 3, 4, 5, 8, 13] {
        let board = torus(side);
        for edge in 0..board.edges() {
            let answer = judge_set(side, &set_of(board.edges(), &[edge]));
            let [a, b] = board.ends_of(edge);
            let expected = if a == b { wound(board.marks[edge]) } else { off(a.min(b)) };
            assert_eq!(answer, expected, "side {side}, edge {edge}");
        }
    }
}

/// The secret error is handed in, with few and with many flips and losses. Now and then the syndrome is
/// another one.
#[test]
fn random_sheets() {
    let mut random = Random::new(214);
    let (mut same, mut wound, mut off, mut refused) = (0, 0, 0, 0);
    for round in 0..1500 {
        let side = 1 + round % 15;
        let board = torus(side);
        let (rate, lost) =
            ([20, 100, 300, 500][random.below(4)], [0, 50, 200, 1000][random.below(4)]);
        let (error, loss) = (random.set(board.edges(), rate), random.set(board.edges(), lost));
        let syndrome = match random.below(4) {
            0 => generators::any_syndrome(&mut random, board.clone()).syndrome,
            _ => board.syndrome(&error),
        };
        let sheet = Sheet { board, syndrome, loss };
        match judge(side, &Lent::new(&sheet, &error)) {
            Ok((Verdict::Same, Some(_))) => same += 1,
            Ok((Verdict::Wound(_), None)) => wound += 1,
            Ok((Verdict::Off(_), None)) => off += 1,
            Err(Refusal::NoCorrection(0)) => refused += 1,
            other => panic!("{other:?}: {error:?} on {sheet:?}"),
        }
    }
    println!("{same} same, {wound} wound, {off} off, {refused} refused");
    assert!([same, wound, off, refused].iter().all(|&count| count > 80));
}

/// The largest side, with no, some and all edges lost.
#[test]
fn largest_side() {
    let mut random = Random::new(215);
    let board = torus(32);
    for (flips, lost) in [(50, 0), (200, 0), (1024, 100), (300, 2048)] {
        let error = random.set_of_size(2048, flips);
        let loss = random.set_of_size(2048, lost);
        let sheet = Sheet { syndrome: board.syndrome(&error), board: board.clone(), loss };
        let correction = library::decode(&sheet).expect("the error has the syndrome").correction;
        let faces = random.set(1024, 500);
        for set in [correction, error] {
            let handed = together(&set, &made_up(32, &faces));
            assert!(judge(32, &Lent::new(&sheet, &handed)).is_ok(), "the set has the syndrome");
        }
    }
}

/// The buffer is filled whatever it held, and left whatever it held.
#[test]
fn whatever_the_buffer_held() {
    let lit = set_of(9, &[0, 1]);
    let mut broken = set_of(18, &[0]);
    broken[17] = 2;
    for held in [0, 1, 2, 254, 255] {
        let judged = |side: u32, lit: &[u8], handed: &[u8]| {
            let mut faces = vec![held; 9];
            let answer = table::faces(side, lit, &[0; 18], handed, &mut faces);
            (answer, faces)
        };
        let left = vec![held; 9];
        let round_face_6 = judged(3, &lit, &set_of(18, &[12, 13, 15]));
        assert_eq!(round_face_6, (Ok(Verdict::Same), set_of(9, &[6])));
        let round_face_0 = judged(3, &lit, &set_of(18, &[1, 3, 6]));
        assert_eq!(round_face_0, (Ok(Verdict::Same), vec![0, 1, 1, 1, 1, 1, 1, 1, 1]));
        let round_the_torus = judged(3, &lit, &set_of(18, &[2, 4]));
        assert_eq!(round_the_torus, (Ok(Verdict::Wound(1)), left.clone()));
        assert_eq!(judged(3, &lit, &[0; 18]), (Ok(Verdict::Off(0)), left.clone()));
        for (side, lit, handed, refusal) in [
            (4, &lit[..], &broken[..], Refusal::BufferLength),
            (33, &lit, &broken, Refusal::TorusSide(33)),
            (3, &lit, &broken, Refusal::HandedByte(17)),
            (3, &[3; 9], &broken, Refusal::SyndromeByte(0)),
            (3, &[1; 9], &[0; 18], Refusal::NoCorrection(0)),
        ] {
            assert_eq!(judged(side, lit, handed), (Err(refusal), left.clone()));
        }
    }
}
