//! Document 02, K5: the planar boards of every side.

use reference::board::{Board, Sheet, size, together};
use reference::planar::planar;
use reference::{Random, decode};
use table::{Refusal, Verdict};
use table_tests::{agrees, library};

/// The counts of edges and vertices of a planar board.
fn counts(side: usize) -> (usize, usize) {
    (side * side + (side - 1) * (side - 1), side * (side + 1))
}

/// The board that the library builds.
fn built(side: usize) -> Board {
    let (edges, vertices) = counts(side);
    agrees::planar_with(side as u32, 2 * edges, edges, vertices).expect("a side in range")
}

/// Each entry by its number, in document 02's words.
#[test]
fn entries_of_every_side() {
    for side in 2..=31 {
        let board = built(side);
        let (edges, vertices) = counts(side);
        assert_eq!((board.edges(), board.vertices), (edges, vertices));
        for vertex in 0..vertices {
            let column = vertex % (side + 1);
            assert_eq!(board.open[vertex] == 1, column == 0 || column == side, "side {side}");
        }
        let along = |edge: usize| {
            let (row, column) = (edge / side, edge % side);
            let first = row * (side + 1) + column;
            ([first, first + 1], if column == 0 { 1 } else { 0 })
        };
        let down = |number: usize| {
            let (row, column) = (number / (side - 1), number % (side - 1) + 1);
            let first = row * (side + 1) + column;
            ([first, first + side + 1], 0)
        };
        for edge in 0..edges {
            let (ends, mark) =
                if edge < side * side { along(edge) } else { down(edge - side * side) };
            assert_eq!((board.ends_of(edge), board.marks[edge]), (ends, mark), "side {side}");
        }
    }
}

#[test]
fn distance_is_the_side() {
    for side in 2..=31 {
        let board = planar(side);
        let (fewest, shown) = library::distance(&board);
        assert_eq!(fewest, Some(side));
        assert!(size(&shown) == side && board.winds(&shown), "side {side}: {shown:?}");
    }
}

/// A call on each side with flips and losses: the flips have the syndrome, so they are same or wound.
#[test]
fn flips_and_losses_on_every_side() {
    let mut random = Random::new(181);
    let (mut same, mut wound) = (0, 0);
    for side in 2..=31 {
        let board = planar(side);
        for (rate, lost) in [(10, 0), (50, 0), (100, 0), (25, 25), (100, 50), (300, 100)] {
            let error = random.set(board.edges(), rate);
            let loss = random.set(board.edges(), lost);
            let syndrome = board.syndrome(&error);
            let sheet = Sheet { board: board.clone(), syndrome, loss };
            let key = agrees::decode(&sheet).expect("the flips have the syndrome");
            agrees::decode_rounds(&sheet).expect("the flips have the syndrome");
            let winds = board.winds(&together(&error, &key.correction));
            let verdict = if winds { Verdict::Wound(1) } else { Verdict::Same };
            assert_eq!(agrees::verdict(&sheet, &error), Ok(verdict), "{sheet:?}");
            *(if winds { &mut wound } else { &mut same }) += 1;
            let text = agrees::write(&sheet).expect("a text within the limit");
            assert_eq!(agrees::read(&text).as_ref(), Ok(&sheet));
        }
    }
    assert!(same > 50 && wound > 20, "{same} same, {wound} wound");
}

/// Fewer flips than half of the side, with nothing lost: no loop is short enough to hide them.
#[test]
fn few_flips_never_wind() {
    let mut random = Random::new(182);
    for side in 3..=20 {
        let board = planar(side);
        for _ in 0..40 {
            let error = random.set_of_size(board.edges(), (side - 1) / 2);
            let loss = vec![0; board.edges()];
            let sheet = Sheet { syndrome: board.syndrome(&error), board: board.clone(), loss };
            assert_eq!(agrees::verdict(&sheet, &error), Ok(Verdict::Same), "{sheet:?}");
        }
    }
}

/// The bytes of a set whose members are bits.
fn bytes(bits: usize, count: usize) -> Vec<u8> {
    (0..count).map(|at| (bits >> at & 1) as u8).collect()
}

/// Every syndrome, every loss and every handed-in set.
#[test]
fn every_sheet_of_side_2() {
    let board = planar(2);
    let (mut same, mut wound, mut off) = (0, 0, 0);
    for lit in 0..4 {
        for lost in 0..32 {
            let mut syndrome = vec![0; 6];
            (syndrome[1], syndrome[4]) = (lit & 1, lit >> 1);
            let sheet = Sheet { board: board.clone(), syndrome, loss: bytes(lost, 5) };
            agrees::decode(&sheet).expect("every syndrome is met");
            agrees::decode_rounds(&sheet).expect("every syndrome is met");
            for set in 0..32 {
                match agrees::verdict(&sheet, &bytes(set, 5)) {
                    Ok(Verdict::Same) => same += 1,
                    Ok(Verdict::Wound(1)) => wound += 1,
                    Ok(Verdict::Off(1 | 4)) => off += 1,
                    other => panic!("{other:?}: set {set:b} on {sheet:?}"),
                }
            }
            let text = agrees::write(&sheet).expect("a short text");
            assert_eq!(agrees::read(&text).as_ref(), Ok(&sheet));
        }
    }
    // A quarter of the sets has each syndrome, and half of these cross the line.
    assert_eq!((same, wound, off), (512, 512, 3072));
}

/// Every syndrome, with up to two edges lost and with many; and every handed-in set, where it fits.
#[test]
fn every_syndrome_of_side_3() {
    let board = planar(3);
    let inner: Vec<usize> = (0..12).filter(|&vertex| board.open[vertex] == 0).collect();
    assert_eq!(inner, [1, 2, 5, 6, 9, 10]);
    for lit in 0..64 {
        let lit: Vec<usize> = (0..6).filter(|at| lit >> at & 1 == 1).map(|at| inner[at]).collect();
        let few = (0..1_usize << 13).filter(|lost| lost.count_ones() <= 2);
        for lost in few.chain((0..1 << 13).step_by(97)) {
            let mut sheet = Sheet::new(board.clone(), &lit, &[]);
            sheet.loss = bytes(lost, 13);
            agrees::decode(&sheet).expect("every syndrome is met");
            agrees::decode_rounds(&sheet).expect("every syndrome is met");
        }
    }
    for set in 0..1 << 13 {
        let handed = bytes(set, 13);
        let syndrome = board.syndrome(&handed);
        let sheet = Sheet { board: board.clone(), syndrome, loss: vec![0; 13] };
        let correction = decode(&sheet).expect("the set has it").correction;
        let winds = board.winds(&together(&handed, &correction));
        let verdict = if winds { Verdict::Wound(1) } else { Verdict::Same };
        assert_eq!(agrees::verdict(&sheet, &handed), Ok(verdict));
    }
}

/// 18 at its limits, before any length.
#[test]
fn sides_and_lengths() {
    for side in [0, 1, 32, 33, 1 << 16, u32::MAX] {
        let refusal = Err(Refusal::PlanarSide(side));
        for (ends, marks, open) in [(0, 0, 0), (10, 5, 6), (8192, 4096, 1024)] {
            assert_eq!(agrees::planar_with(side, ends, marks, open), refusal);
        }
    }
    // The lengths that the boards next to the limits would have.
    assert_eq!(agrees::planar_with(1, 2, 1, 2), Err(Refusal::PlanarSide(1)));
    assert_eq!(agrees::planar_with(32, 3970, 1985, 1056), Err(Refusal::PlanarSide(32)));
    for side in 2..=31 {
        let (edges, vertices) = counts(side as usize);
        for (ends, marks, open) in [
            (2 * edges - 1, edges, vertices),
            (2 * edges + 2, edges, vertices),
            (2 * edges, edges - 1, vertices),
            (2 * edges, edges + 1, vertices),
            (2 * edges, edges, vertices - 1),
            (2 * edges, edges, vertices + 1),
            (2 * edges, edges, 1024),
            (0, 0, 0),
            (8192, 4096, 1024),
        ] {
            assert_eq!(agrees::planar_with(side, ends, marks, open), Err(Refusal::BufferLength));
        }
    }
}
