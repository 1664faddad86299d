//! Every refusal at its limit and one past it, and sheets with several rules broken at once.

use reference::board::{Board, Sheet};
use reference::generators::{Kind, opened, path, sheet, sheet_of_bytes};
use reference::{Random, text};
use table::{Refusal, Verdict};
use table_tests::agrees::{self, Lengths};
use table_tests::refused::{blank, board_refused, judged, none_refuses, refused, sheet_refused};

#[test]
fn number_1() {
    none_refuses(&blank(Board::new(1, &[])));
    none_refuses(&blank(Board::new(1024, &[])));
    assert_eq!(board_refused(&blank(Board::new(0, &[]))), (1, 0));
    assert_eq!(board_refused(&blank(Board::new(1025, &[]))), (1, 0));
    for vertices in [65_536, 65_537, u32::MAX as usize, usize::MAX] {
        let mut sheet = blank(path(2));
        sheet.board.vertices = vertices;
        assert_eq!(board_refused(&sheet), (1, 0));
    }
}

#[test]
fn number_2() {
    let parallel = |edges| blank(Board::new(2, &vec![(0, 1, 0); edges]));
    none_refuses(&parallel(4096));
    assert_eq!(board_refused(&parallel(4097)), (2, 0));
    for ends in [1, 3, 8191, 8193, 20_000] {
        let mut sheet = parallel(ends / 2);
        sheet.board.ends.resize(ends, 1);
        assert_eq!(board_refused(&sheet), (2, 0), "{ends} ends");
    }
}

#[test]
fn number_3() {
    let sheet = Sheet::new(path(4), &[0, 3], &[]);
    for wrong in [0, 2, 4, 1000] {
        assert_eq!(refused(agrees::decode_with(&sheet, wrong, 3)), (3, 0));
        assert_eq!(refused(agrees::decode_with(&sheet, 3, wrong)), (3, 0));
        assert_eq!(refused(agrees::decode_rounds_with(&sheet, wrong, 3)), (3, 0));
        assert_eq!(refused(agrees::decode_rounds_with(&sheet, 3, wrong)), (3, 0));
        assert_eq!(judged(&sheet, &vec![0; wrong]), (3, 0));
        assert_eq!(refused(agrees::distance_with(&sheet.board, wrong)), (3, 0));
        let mut marks = sheet.clone();
        marks.board.marks.resize(wrong, 0);
        assert_eq!(board_refused(&marks), (3, 0));
        let mut loss = sheet.clone();
        loss.loss.resize(wrong, 0);
        assert_eq!(sheet_refused(&loss), (3, 0));
    }
    for wrong in [0, 3, 5, 1024] {
        let mut syndrome = sheet.clone();
        syndrome.syndrome.resize(wrong, 0);
        assert_eq!(sheet_refused(&syndrome), (3, 0));
        let mut open = sheet.clone();
        open.board.open.resize(wrong, 0);
        assert_eq!(board_refused(&open), (3, 0));
    }
}

/// A path with one rule broken at an edge or a vertex, by a value at the limit and one past it.
fn broken_at(change: impl Fn(&mut Sheet, usize, bool), count: usize, number: u8) {
    for place in 0..count {
        let mut sheet = blank(path(6));
        change(&mut sheet, place, false);
        let refusal = agrees::decode(&sheet).err();
        assert!(matches!(refusal, None | Some(Refusal::NoCorrection(_))), "{refusal:?}");
        assert_eq!(agrees::decode_rounds(&sheet).err(), refusal);
        agrees::write(&sheet).expect("a value at its limit");
        change(&mut sheet, place, true);
        assert_eq!(sheet_refused(&sheet), (number, place as u64));
        change(&mut sheet, count - 1, true);
        assert_eq!(sheet_refused(&sheet), (number, place as u64), "the smallest place");
    }
}

#[test]
fn numbers_4_and_6_to_8() {
    for end in [0, 1] {
        let past = |sheet: &mut Sheet, edge: usize, past: bool| {
            sheet.board.ends[2 * edge + end] = if past { 6 } else { 5 };
        };
        broken_at(past, 5, 4);
    }
    let both = |sheet: &mut Sheet, edge: usize, past: bool| {
        sheet.board.ends[2 * edge..2 * edge + 2].fill(if past { 6 } else { 5 });
    };
    broken_at(both, 5, 4);
    broken_at(|sheet, edge, past| sheet.board.marks[edge] = if past { 4 } else { 3 }, 5, 6);
    broken_at(|sheet, vertex, past| sheet.syndrome[vertex] = if past { 2 } else { 1 }, 6, 7);
    broken_at(|sheet, edge, past| sheet.loss[edge] = if past { 2 } else { 1 }, 5, 8);
    broken_at(|sheet, edge, past| sheet.loss[edge] = if past { 255 } else { 1 }, 5, 8);
}

/// Equal ends, on one edge or on all, are no rule broken.
#[test]
fn equal_ends() {
    for vertex in 0..6 {
        for edge in 0..5 {
            let mut sheet = blank(path(6));
            sheet.board.ends[2 * edge..2 * edge + 2].fill(vertex);
            none_refuses(&sheet);
        }
        none_refuses(&blank(Board::new(6, &[(vertex, vertex, 3); 5])));
    }
    none_refuses(&blank(Board::new(6, &[0, 1, 2, 3, 4, 5].map(|v| (v, v, 0)))));
}

#[test]
fn number_9() {
    let sheet = Sheet::new(path(4), &[0, 3], &[]);
    assert_eq!(agrees::verdict(&sheet, &[1, 1, 1]), Ok(Verdict::Same));
    assert_eq!(judged(&sheet, &[1, 2, 3]), (9, 1));
    assert_eq!(judged(&sheet, &[1, 1, 255]), (9, 2));
    let odd = Sheet::new(path(4), &[0], &[]);
    assert_eq!(judged(&odd, &[0, 0, 2]), (9, 2), "9 comes before 10");
    assert_eq!(judged(&odd, &[0, 0, 1]).0, 10, "10 comes before off");
}

#[test]
fn number_11() {
    for side in 1..=32 {
        let edges = 2 * (side * side) as usize;
        agrees::torus_with(side, 2 * edges, edges).expect("a side in range");
        for (ends, marks) in [
            (2 * edges - 1, edges),
            (2 * edges + 1, edges),
            (2 * edges, edges - 1),
            (2 * edges, edges + 1),
            (0, 0),
            (8192, 4096),
        ] {
            assert_eq!(refused(agrees::torus_with(side, ends, marks)), (3, 0));
        }
    }
    for side in [0, 33, 1 << 16, u32::MAX] {
        assert_eq!(refused(agrees::torus_with(side, 0, 0)), (11, side.into()), "11 before 3");
        assert_eq!(refused(agrees::torus_with(side, 16, 8)), (11, side.into()));
    }
}

#[test]
fn reader_lengths() {
    let right = Lengths::RIGHT;
    for (past, by) in [(0, 1), (0, 2), (1, 1), (2, 1), (3, 1), (4, 1)] {
        for longer in [false, true] {
            let mut lengths = right;
            let length = match past {
                0 => &mut lengths.ends,
                1 => &mut lengths.marks,
                2 => &mut lengths.syndrome,
                3 => &mut lengths.open,
                _ => &mut lengths.loss,
            };
            *length = if longer { *length + by } else { *length - by };
            assert_eq!(refused(agrees::read_with(b"V\t4\n", lengths)), (3, 0));
            assert_eq!(refused(agrees::read_with(b"", lengths)), (3, 0), "3 before 13");
            let long = vec![b'V'; 65_537];
            assert_eq!(refused(agrees::read_with(&long, lengths)), (3, 0), "3 before 12");
        }
    }
}

#[test]
fn numbers_12_and_14() {
    let largest = sheet_of_bytes(65_536);
    let text = agrees::write_with(&largest, 65_536).expect("a text at the limit");
    assert_eq!(agrees::read(&text), Ok(largest.clone()));
    agrees::write_with(&largest, 65_537).expect("a buffer longer than the text");
    assert_eq!(refused(agrees::write_with(&largest, 65_535)), (14, 0));
    assert_eq!(refused(agrees::write_with(&largest, 0)), (14, 0));
    let larger = sheet_of_bytes(65_537);
    for buffer in [0, 65_536, 65_537, 100_000] {
        assert_eq!(refused(agrees::write_with(&larger, buffer)), (12, 0));
    }
    assert_eq!(refused(agrees::read(&text::write(&larger))), (12, 0));
    assert_eq!(refused(agrees::read(&vec![b'\n'; 65_536])), (13, 1));
    assert_eq!(refused(agrees::read(&vec![b'\n'; 65_537])), (12, 0));
    // The line of an open vertex counts like any other: 4 bytes for vertex 5, 5 for vertex 15.
    for (vertex, fits) in [(5, true), (15, false)] {
        let mut sheet = sheet_of_bytes(65_532);
        sheet.board.open[vertex] = 1;
        match agrees::write(&sheet) {
            Ok(text) => assert_eq!((text.len(), agrees::read(&text)), (65_536, Ok(sheet))),
            Err(refusal) => assert!(!fits && refusal == Refusal::TextLength, "{refusal:?}"),
        }
    }
    let small = Sheet::new(path(3).with_open(&[1]), &[0, 2], &[1]);
    let bytes = text::write(&small).len();
    agrees::write_with(&small, bytes).expect("a buffer of the text's length");
    for buffer in 0..bytes {
        assert_eq!(refused(agrees::write_with(&small, buffer)), (14, 0));
    }
}

/// A sheet that breaks every rule of a decoder, mended from the first test on.
#[test]
fn numbers_in_their_order() {
    let board = Board {
        vertices: 1025,
        ends: vec![0, 1, 2, 2, 3, 3, 4],
        marks: vec![0, 4, 5, 0],
        open: vec![0, 1, 2],
    };
    let mut sheet = Sheet { board, syndrome: vec![0, 2, 2], loss: vec![0, 2, 3, 0] };
    assert_eq!(sheet_refused(&sheet), (1, 0));
    sheet.board.vertices = 4;
    assert_eq!(sheet_refused(&sheet), (2, 0));
    sheet.board.ends.push(4);
    assert_eq!(sheet_refused(&sheet), (3, 0));
    sheet.syndrome.push(0);
    assert_eq!(sheet_refused(&sheet), (3, 0), "the open bytes");
    sheet.board.open.push(0);
    assert_eq!(sheet_refused(&sheet), (4, 3));
    sheet.board.vertices = 5;
    sheet.board.open.push(0);
    sheet.syndrome.push(0);
    assert_eq!(sheet_refused(&sheet), (6, 1));
    sheet.board.marks = vec![0, 3, 3, 0];
    assert_eq!(sheet_refused(&sheet), (7, 1));
    sheet.syndrome[1..].copy_from_slice(&[1, 0, 0, 0]);
    assert_eq!(sheet_refused(&sheet), (8, 1));
    sheet.loss = vec![0, 1, 1, 0];
    assert_eq!(sheet_refused(&sheet), (16, 2));
    sheet.board.open[2] = 0;
    assert_eq!(sheet_refused(&sheet), (17, 1));
    sheet.board.open[1] = 0;
    assert_eq!(refused(agrees::decode(&sheet)), (10, 0));
    assert_eq!(refused(agrees::decode_rounds(&sheet)), (10, 0));
    sheet.syndrome[0] = 1;
    none_refuses(&sheet);
}

/// Breaks one rule at random, or none where it makes an edge a loop edge.
fn break_a_rule(random: &mut Random, sheet: &mut Sheet) {
    let edges = sheet.board.edges().max(1);
    let vertices = sheet.board.vertices.clamp(1, 1024);
    let edge = random.below(edges);
    let vertex = random.below(vertices);
    match random.below(13) {
        0 => sheet.board.vertices = [0, 1025, vertices + 1, vertices - 1][random.below(4)],
        1 => sheet.board.ends.truncate(2 * edge + 1),
        2 => sheet.board.marks.push(0),
        3 => sheet.syndrome.truncate(vertex),
        4 => sheet.loss.push(3),
        5 => put(&mut sheet.board.ends, 2 * edge + random.below(2), random.below(1200) as u16),
        6 => put(&mut sheet.board.marks, edge, random.below(8) as u8),
        7 => put(&mut sheet.syndrome, vertex, random.below(4) as u8),
        8 => put(&mut sheet.loss, edge, random.below(4) as u8),
        9 => put(&mut sheet.board.open, vertex, random.below(4) as u8),
        10 => {
            put(&mut sheet.board.open, vertex, 1);
            put(&mut sheet.syndrome, vertex, 1);
        }
        11 => sheet.board.open.truncate(vertex),
        _ => {
            if let Some([a, b]) = sheet.board.ends.chunks_exact_mut(2).nth(edge) {
                *b = *a;
            }
        }
    }
}

fn put<T>(buffer: &mut [T], at: usize, value: T) {
    if let Some(element) = buffer.get_mut(at) {
        *element = value;
    }
}

#[test]
fn several_rules_broken() {
    let mut random = Random::new(110);
    let mut seen = [0; 20];
    for round in 0..20_000 {
        let mut board = Kind::ALL[round % Kind::ALL.len()].board(&mut random);
        if random.chance(300) {
            board = opened(&mut random, board);
        }
        let mut sheet = sheet(&mut random, board);
        for _ in 0..random.from_to(1, 3) {
            break_a_rule(&mut random, &mut sheet);
        }
        let edges = sheet.board.edges();
        let mut handed = random.set(edges, 300);
        if random.chance(300) && edges > 0 {
            handed[random.below(edges)] = 2;
        }
        let length = random.below(200);
        let outcomes = [
            agrees::decode(&sheet).err(),
            agrees::decode_rounds(&sheet).err(),
            agrees::distance(&sheet.board).err(),
            agrees::write_with(&sheet, length).err(),
            agrees::verdict(&sheet, &handed).err(),
        ];
        for refusal in outcomes.into_iter().flatten() {
            seen[usize::from(refusal.number())] += 1;
        }
    }
    println!("refusals by number: {seen:?}");
    for number in [1, 2, 3, 4, 6, 7, 8, 9, 10, 14, 16, 17] {
        assert!(seen[number] > 100, "number {number}: {seen:?}");
    }
    // 5 is no call's, 15 is given by the builder of stacks alone, and 19 by the calls of packed sheets.
    assert_eq!((seen[5], seen[15], seen[19]), (0, 0, 0), "{seen:?}");
}
