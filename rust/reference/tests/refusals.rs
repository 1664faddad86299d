//! Document 01, "Numbers and places": the smallest number wins, then the smallest place.

use reference::board::{Board, Sheet};
use reference::decoding::decode_into;
use reference::distance::distance_into;
use reference::faces::faces_into;
use reference::generators::{path, ring};
use reference::planar::planar_into;
use reference::refusal::{Refusal, reader};
use reference::stack::stack_into;
use reference::text::write_into;
use reference::torus::torus_into;
use reference::verdict::{Verdict, verdict};

fn refused<T: std::fmt::Debug>(answer: Result<T, Refusal>) -> (u8, u64) {
    let Refusal { number, place } = answer.expect_err("a refusal");
    (number, place)
}

/// A sheet that breaks every rule from 4 on, each at its second edge or vertex or later. Its last two
/// edges are loop edges, which break none by that.
fn broken() -> Sheet {
    let board = Board::new(3, &[(0, 1, 0), (0, 3, 4), (2, 2, 4), (3, 3, 0)]);
    Sheet { board, syndrome: vec![0, 2, 2], loss: vec![0, 1, 3, 3] }
}

#[test]
fn smallest_number_then_smallest_place() {
    let mut sheet = broken();
    assert_eq!(refused(decode_into(&sheet, 4, 4)), (4, 1));
    assert_eq!(refused(decode_into(&sheet, 5, 4)), (3, 0));
    assert_eq!(refused(distance_into(&sheet.board, 4)), (4, 1));
    sheet.board.ends[3] = 2;
    assert_eq!(refused(decode_into(&sheet, 4, 4)), (4, 3), "a loop edge at no vertex");
    sheet.board.ends[6] = 1;
    sheet.board.ends[7] = 1;
    assert_eq!(refused(decode_into(&sheet, 4, 4)), (6, 1), "two loop edges");
    assert_eq!(refused(distance_into(&sheet.board, 4)), (6, 1));
    sheet.board.marks[1] = 3;
    assert_eq!(refused(decode_into(&sheet, 4, 4)), (6, 2), "a loop edge with mark 4");
    sheet.board.marks = vec![3; 4];
    assert_eq!(refused(decode_into(&sheet, 4, 4)), (7, 1));
    assert_eq!(refused(verdict(&sheet, &[2; 4])), (7, 1));
    assert_eq!(distance_into(&sheet.board, 4), Ok(Some(1)));
    sheet.syndrome = vec![0, 1, 0];
    assert_eq!(refused(verdict(&sheet, &[2; 4])), (8, 2));
    sheet.loss = vec![0; 4];
    assert_eq!(refused(verdict(&sheet, &[0, 0, 0, 2])), (9, 3));
    assert_eq!(refused(verdict(&sheet, &[0; 4])), (10, 0));
    assert_eq!(refused(decode_into(&sheet, 4, 4)), (10, 0));
    sheet.board.ends.pop();
    assert_eq!(refused(decode_into(&sheet, 4, 4)), (2, 0));
    sheet.board.vertices = 0;
    assert_eq!(refused(decode_into(&sheet, 4, 4)), (1, 0));
}

#[test]
fn verdicts() {
    let sheet = Sheet::new(ring(), &[0, 3], &[]);
    assert_eq!(verdict(&sheet, &[0, 0, 0, 1]), Ok(Verdict::Same));
    assert_eq!(verdict(&sheet, &[1, 1, 1, 0]), Ok(Verdict::Wound(1)));
    assert_eq!(verdict(&sheet, &[0, 1, 1, 0]), Ok(Verdict::Off(0)));
    assert_eq!(verdict(&sheet, &[1, 1, 0, 0]), Ok(Verdict::Off(2)));
}

#[test]
fn limits() {
    let sheet = |vertices| Sheet::new(Board::new(vertices, &[]), &[], &[]);
    assert!(decode_into(&sheet(1024), 0, 0).is_ok());
    assert_eq!(refused(decode_into(&sheet(1025), 0, 0)), (1, 0));
    let parallel = |edges| Sheet::new(Board::new(2, &vec![(0, 1, 0); edges]), &[], &[]);
    assert!(decode_into(&parallel(4096), 4096, 4096).is_ok());
    assert_eq!(refused(decode_into(&parallel(4097), 4097, 4097)), (2, 0));
    let loops = |edges| Sheet::new(Board::new(1, &vec![(0, 0, 0); edges]), &[], &[]);
    assert!(decode_into(&loops(4096), 4096, 4096).is_ok());
    assert_eq!(refused(decode_into(&loops(4097), 4097, 4097)), (2, 0));
    assert_eq!(refused(decode_into(&Sheet::new(path(3), &[], &[]), 2, 1)), (3, 0));
}

#[test]
fn torus_sides_and_reader_lengths() {
    for side in [1, 2, 32] {
        let edges = 2 * (side * side) as usize;
        assert!(torus_into(side, 2 * edges, edges).is_ok());
        assert_eq!(refused(torus_into(side, 2 * edges, edges + 1)), (3, 0));
        assert_eq!(refused(torus_into(side, 2 * edges - 1, edges)), (3, 0));
    }
    for side in [0, 33, u32::MAX] {
        assert_eq!(refused(torus_into(side, 0, 0)), (11, side.into()));
    }
    assert_eq!(reader(8192, 4096, 1024, 1024, 4096), Ok(()));
    assert_eq!(refused(reader(8192, 4096, 1024, 1024, 4095)), (3, 0));
    assert_eq!(refused(reader(8192, 4096, 1023, 1024, 4096)), (3, 0));
    assert_eq!(refused(reader(8192, 4096, 1025, 1024, 4096)), (3, 0));
    assert_eq!(refused(reader(8190, 4096, 1024, 1024, 4096)), (3, 0));
}

/// Side 2 has 5 edges and 6 vertices, side 31 has 1,861 edges and 992 vertices.
#[test]
fn planar_sides() {
    for (side, edges, vertices) in [(2, 5, 6), (3, 13, 12), (31, 1861, 992)] {
        assert!(planar_into(side, 2 * edges, edges, vertices).is_ok());
        assert_eq!(refused(planar_into(side, 2 * edges + 1, edges, vertices)), (3, 0));
        assert_eq!(refused(planar_into(side, 2 * edges, edges - 1, vertices)), (3, 0));
        assert_eq!(refused(planar_into(side, 2 * edges, edges, vertices + 1)), (3, 0));
    }
    for side in [0, 1, 32, u32::MAX] {
        assert_eq!(refused(planar_into(side, 0, 0, 0)), (18, side.into()));
    }
}

/// Side 1 has 5 edges in two rounds, side 5 has 200 in three, and side 32 its 2,048 in one. Tests are in
/// the order 11, 15, 3, 7.
#[test]
fn stack_sides_and_rounds() {
    for (side, rounds, vertices, edges) in [
        (1, 2, 2, 5),
        (1, 1024, 1024, 3071),
        (5, 3, 75, 200),
        (5, 40, 1000, 2975),
        (32, 1, 1024, 2048),
    ] {
        let right = (2 * edges, edges, vertices);
        assert!(stack_into(side, rounds, &vec![1; vertices], right).is_ok());
        let broken = vec![2; vertices];
        assert_eq!(refused(stack_into(side, rounds, &broken, right)), (7, 0));
        for wrong in [
            (2 * edges - 1, edges, vertices),
            (2 * edges, edges + 1, vertices),
            (2 * edges, edges, vertices - 1),
        ] {
            assert_eq!(refused(stack_into(side, rounds, &broken, wrong)), (3, 0));
        }
        assert_eq!(refused(stack_into(side, rounds, &broken[1..], right)), (3, 0));
        assert_eq!(refused(stack_into(side, 0, &broken, right)), (15, 0));
        assert_eq!(refused(stack_into(33, 0, &broken, right)), (11, 33));
    }
    for (side, rounds) in [(1, 1025), (5, 41), (32, 2), (32, 1 << 22), (16, 1 << 24), (1, u32::MAX)]
    {
        assert_eq!(refused(stack_into(side, rounds, &[], (0, 0, 0))), (15, 0));
    }
    for side in [0, 33, u32::MAX] {
        assert_eq!(refused(stack_into(side, 1, &[], (0, 0, 0))), (11, side.into()));
    }
    let mut readings = vec![0; 75];
    (readings[74], readings[26]) = (2, 255);
    assert_eq!(refused(stack_into(5, 3, &readings, (400, 200, 75))), (7, 26));
}

/// Side 1 has one face and two edges, side 32 has 1,024 and 2,048. Tests are in the order 11, 3, 7, 8, 9,
/// 10.
#[test]
fn faces_of_a_side() {
    for (side, vertices) in [(1, 1), (2, 4), (5, 25), (32, 1024)] {
        let (lit, twice) = (vec![2; vertices], vec![2; 2 * vertices]);
        let (dark, none) = (vec![0; vertices], vec![0; 2 * vertices]);
        let mut one_lit = dark.clone();
        one_lit[vertices - 1] = 1;
        let refusal = |lit: &[u8], loss: &[u8], handed: &[u8], faces: usize| {
            refused(faces_into(side, lit, loss, handed, faces))
        };
        assert_eq!(refused(faces_into(33, &lit, &twice, &twice, vertices)), (11, 33));
        assert_eq!(refusal(&lit, &twice, &twice, vertices + 1), (3, 0));
        assert_eq!(refusal(&lit, &twice, &twice, vertices - 1), (3, 0));
        assert_eq!(refusal(&lit[1..], &twice, &twice, vertices), (3, 0));
        assert_eq!(refusal(&lit, &twice[1..], &twice, vertices), (3, 0));
        assert_eq!(refusal(&lit, &twice, &twice[1..], vertices), (3, 0));
        assert_eq!(refusal(&lit, &twice, &twice, vertices), (7, 0));
        assert_eq!(refusal(&one_lit, &twice, &twice, vertices), (8, 0));
        assert_eq!(refusal(&one_lit, &none, &twice, vertices), (9, 0));
        assert_eq!(refusal(&one_lit, &none, &none, vertices), (10, 0));
        let answer = faces_into(side, &dark, &none, &none, vertices);
        assert_eq!(answer, Ok((Verdict::Same, Some(dark))));
    }
    for side in [0, 33, u32::MAX] {
        assert_eq!(refused(faces_into(side, &[], &[], &[], 0)), (11, side.into()));
    }
    let mut handed = [0; 18];
    (handed[17], handed[5]) = (2, 255);
    assert_eq!(refused(faces_into(3, &[0; 9], &[0; 18], &handed, 9)), (9, 5));
}

/// 16 comes after 8 and 9, 17 right after it, and 10 or the writer's own numbers last. The distance is
/// lent no syndrome, so that it has no 17.
#[test]
fn open_bytes_and_open_vertices_that_are_lit() {
    let board = path(4).with_open(&[1, 2]);
    let mut sheet = Sheet { board, syndrome: vec![0, 0, 1, 0], loss: vec![0, 0, 2] };
    sheet.board.open[3] = 2;
    assert_eq!(refused(verdict(&sheet, &[0, 2, 0])), (8, 2));
    sheet.loss[2] = 0;
    assert_eq!(refused(verdict(&sheet, &[0, 2, 0])), (9, 1));
    assert_eq!(refused(verdict(&sheet, &[0; 3])), (16, 3));
    assert_eq!(refused(decode_into(&sheet, 3, 3)), (16, 3));
    assert_eq!(refused(distance_into(&sheet.board, 3)), (16, 3));
    assert_eq!(refused(write_into(&sheet, 0)), (16, 3));
    sheet.board.open[3] = 0;
    assert_eq!(refused(verdict(&sheet, &[0; 3])), (17, 2));
    assert_eq!(refused(decode_into(&sheet, 3, 3)), (17, 2));
    assert_eq!(refused(write_into(&sheet, 0)), (17, 2));
    assert_eq!(distance_into(&sheet.board, 3), Ok(None));
    sheet.syndrome[2] = 0;
    assert_eq!(refused(write_into(&sheet, 0)), (14, 0));
    sheet.board.open.push(0);
    assert_eq!(refused(decode_into(&sheet, 3, 3)), (3, 0));
    assert_eq!(refused(distance_into(&sheet.board, 3)), (3, 0));
}
