//! The programs that the library is measured against give the same keys as document 01's steps.

use reference::generators::{Kind, crowd_with_loops, open_board, path, sheet, star};
use reference::planar::planar;
use reference::torus::torus;
use reference::{Board, Key, Random, Refusal, Sheet, decode};
use table_bench::counted::Counted;
use table_bench::plain::{Answer, Plain};
use table_bench::tuned::Tuned;

/// The programs, with the arrays that they keep from one sheet to the next.
#[derive(Default)]
struct Programs {
    plain: Plain,
    tuned: Box<Tuned>,
    counted: Box<Counted>,
}

impl Programs {
    fn agree(&mut self, sheet: &Sheet) {
        let key = decode(sheet);
        answers("plain", sheet, &key, |support, correction| {
            self.plain.decode(sheet, support, correction)
        });
        answers("tuned", sheet, &key, |support, correction| {
            self.tuned.decode(sheet, support, correction)
        });
        answers("counted", sheet, &key, |support, correction| {
            self.counted.decode(sheet, support, correction)
        });
    }
}

/// A program's answer and what it writes, held against the key; where it refuses it writes nothing.
fn answers(
    name: &str,
    sheet: &Sheet,
    key: &Result<Key, Refusal>,
    program: impl FnOnce(&mut [u8], &mut [u8]) -> Answer,
) {
    let untouched = vec![7; sheet.board.edges()];
    let (mut support, mut correction) = (untouched.clone(), untouched.clone());
    let answer = program(&mut support, &mut correction);
    let (expected, written) = match key {
        Ok(key) => (Some((key.growths, key.edges())), (&key.support, &key.correction)),
        Err(_) => (None, (&untouched, &untouched)),
    };
    assert_eq!(answer, expected, "{name}: {sheet:?}");
    assert_eq!((&support, &correction), written, "{name}: {sheet:?}");
}

#[test]
fn random_sheets() {
    let mut random = Random::new(302);
    let mut programs = Programs::default();
    for round in 0..7500 {
        let board = match round {
            0..4500 => Kind::ALL[round % Kind::ALL.len()].board(&mut random),
            _ => open_board(&mut random),
        };
        programs.agree(&sheet(&mut random, board));
    }
}

/// Large boards among small ones, so that what one sheet leaves in the arrays meets the next.
#[test]
fn large_sheets() {
    let mut random = Random::new(303);
    let mut programs = Programs::default();
    for _ in 0..3 {
        let boards = [
            torus(32),
            path(3),
            planar(31),
            path(1024),
            torus(2),
            crowd_with_loops(&mut random, 1024, 4096),
            star(1024),
            Board::new(1, &[(0, 0, 0); 4096]),
            torus(8),
        ];
        for board in boards {
            let error = random.set(board.edges(), 30);
            let loss = random.set(board.edges(), 60);
            programs.agree(&Sheet { syndrome: board.syndrome(&error), loss, board });
        }
    }
}

/// A cluster of hundreds of vertices, of which one is on the boundary, so that it grows and the lone
/// lit vertex never does.
#[test]
fn long_cluster() {
    Programs::default().agree(&Sheet::new(path(1024), &[0, 1000], &[]));
}

/// Each buffer broken in turn is refused, and the sheet itself is not.
#[test]
fn broken_sheets() {
    let mut programs = Programs::default();
    let whole = Sheet::new(planar(3), &[1, 2], &[0]);
    programs.agree(&whole);
    assert!(decode(&whole).is_ok());
    let breaks: [fn(&mut Sheet); 12] = [
        |sheet| sheet.board.vertices = 0,
        |sheet| sheet.board.vertices = 1025,
        |sheet| sheet.board.ends.push(0),
        |sheet| sheet.board.ends[5] = 12,
        |sheet| sheet.board.marks[12] = 4,
        |sheet| sheet.board.marks.push(0),
        |sheet| sheet.board.open[3] = 2,
        |sheet| sheet.syndrome[11] = 2,
        |sheet| sheet.syndrome.push(0),
        |sheet| sheet.syndrome[0] = 1,
        |sheet| sheet.loss[12] = 255,
        |sheet| sheet.loss.truncate(12),
    ];
    for (number, broken) in breaks.iter().enumerate() {
        let mut sheet = whole.clone();
        broken(&mut sheet);
        assert!(decode(&sheet).is_err(), "{number}");
        programs.agree(&sheet);
    }
}
