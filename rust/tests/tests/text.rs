//! Texts: round trips, and damage to each byte and each line.

use reference::board::{Board, Sheet};
use reference::generators::{Kind, open_board, ring, sheet};
use reference::{Random, damage, text};
use table::Refusal;
use table_tests::agrees;

/// A small sheet with every kind of line, one of them of a loop edge.
fn small() -> Sheet {
    let board = Board::new(12, &[(0, 11, 0), (10, 2, 3), (2, 10, 3), (7, 7, 1), (9, 0, 2)]);
    Sheet::new(board.with_open(&[1, 8, 11]), &[0, 7, 10], &[1, 2, 4])
}

/// Reads all of them, and sees that some are refused and some stand for a sheet.
fn read_all(texts: &[Vec<u8>]) {
    let read = texts.iter().filter(|text| agrees::read(text).is_ok()).count();
    assert!(0 < read && read < texts.len(), "{read} of {}", texts.len());
}

#[test]
fn reading_and_writing_undo_each_other() {
    let mut random = Random::new(111);
    for round in 0..4000 {
        let board = Kind::ALL[round % Kind::ALL.len()].board(&mut random);
        let sheet = sheet(&mut random, board);
        let text = agrees::write(&sheet).expect("a short text");
        assert_eq!(agrees::read(&text), Ok(sheet));
    }
}

/// The `O` lines of every set of open vertices, with every set of lit ones: a text exactly where they
/// have no vertex in common.
#[test]
fn open_and_lit_vertices() {
    let board = Board::new(5, &[(0, 4, 1)]);
    let lines = |letter: char, bits: u32| -> String {
        (0..5).filter(|v| bits >> v & 1 == 1).map(|v| format!("{letter}\t{v}\n")).collect()
    };
    let members = |bits: u32| (0..5).filter(|v| bits >> v & 1 == 1).collect::<Vec<_>>();
    for open in 0..32_u32 {
        for lit in 0..32_u32 {
            let (o, s) = (lines('O', open), lines('S', lit));
            let text = format!("V\t5\nE\t0\t4\t1\n{o}{s}X\t0\n").into_bytes();
            let sheet = Sheet::new(board.clone().with_open(&members(open)), &members(lit), &[0]);
            match members(lit).iter().position(|&v| open >> v & 1 == 1) {
                None => {
                    assert_eq!(agrees::write(&sheet).as_ref(), Ok(&text));
                    assert_eq!(agrees::read(&text), Ok(sheet));
                }
                Some(at) => {
                    let line = 3 + members(open).len() + at;
                    assert_eq!(agrees::read(&text), Err(Refusal::MalformedLine(line)));
                    let vertex = members(lit)[at];
                    assert_eq!(agrees::write(&sheet), Err(Refusal::LitOpen(vertex)));
                }
            }
        }
    }
}

#[test]
fn each_byte_damaged() {
    read_all(&damage::each_byte(&text::write(&small())));
}

#[test]
fn each_line_damaged() {
    read_all(&damage::each_line(&text::write(&small())));
}

#[test]
fn each_byte_of_every_value() {
    let text = text::write(&Sheet::new(ring().with_open(&[1]), &[0, 3], &[2]));
    let changed = |at: usize, byte: u8| [&text[..at], &[byte], &text[at + 1..]].concat();
    let texts: Vec<_> =
        (0..text.len()).flat_map(|at| (0..=255).map(move |byte| (at, byte))).collect();
    read_all(&texts.into_iter().map(|(at, byte)| changed(at, byte)).collect::<Vec<_>>());
}

#[test]
fn larger_texts_damaged() {
    let mut random = Random::new(112);
    let damaged = |_| {
        let board = Kind::Medium.board(&mut random);
        let text = text::write(&sheet(&mut random, board));
        damage::anywhere(&mut random, &text)
    };
    read_all(&(0..500).map(damaged).collect::<Vec<_>>());
    let damaged = |round: usize| {
        let board = open_board(&mut random);
        let text = text::write(&sheet(&mut random, board));
        [damage::anywhere, damage::any_line][round % 2](&mut random, &text)
    };
    read_all(&(0..2000).map(damaged).collect::<Vec<_>>());
}

#[test]
fn edge_count() {
    for line in [b"E\t0\t1\t0\n", b"E\t0\t0\t0\n"] {
        let lines = |count| [b"V\t2\n".to_vec(), line.repeat(count)].concat();
        assert_eq!(agrees::read(&lines(4096)).map(|sheet| sheet.board.edges()), Ok(4096));
        assert_eq!(agrees::read(&lines(4097)), Err(Refusal::MalformedLine(4098)));
    }
}
