//! Document 02, K5: a board without open vertices answers as it did.
//!
//! `before_open.txt` has what was answered before boards had open vertices: for each group of the
//! sheets drawn here one line, with a sum over the sheets and a sum over all answers and all that was
//! written. The loop that the distance shows is left out, since which one it is was always free. The
//! answers stored are those of the library as it was then.

use std::fmt::Write;

use reference::board::Sheet;
use reference::generators::{Kind, sheet};
use reference::{Random, damage, text};
use table::{Board, Counts, EDGES, Key, Refusal, RoundsKey, VERTICES, Verdict};

const STORED: &str = include_str!("before_open.txt");

const GROUPS: usize = 150;
const SHEETS: usize = 20;

/// A sum over bytes, by FNV-1a.
struct Sum(u64);

impl Sum {
    fn new() -> Sum {
        Sum(0xcbf2_9ce4_8422_2325)
    }

    fn bytes(&mut self, bytes: &[u8]) {
        for &byte in bytes {
            self.0 = (self.0 ^ u64::from(byte)).wrapping_mul(0x0000_0100_0000_01b3);
        }
    }

    fn number(&mut self, number: usize) {
        self.bytes(&(number as u64).to_le_bytes());
    }

    fn ends(&mut self, ends: &[u16]) {
        ends.iter().for_each(|end| self.bytes(&end.to_le_bytes()));
    }

    /// Two numbers of an answer, or the refusal's.
    fn answer(&mut self, answer: Result<(usize, usize), Refusal>) {
        let (refusal, values) = match answer {
            Ok(values) => (0, values),
            Err(refusal) => (refusal.number(), (refusal.place() as usize, 0)),
        };
        self.bytes(&[refusal]);
        self.number(values.0);
        self.number(values.1);
    }
}

/// A sheet of every kind in turn, on which now and then a rule is broken.
fn drawn(random: &mut Random, round: usize) -> Sheet {
    let board = Kind::ALL[round % Kind::ALL.len()].board(random);
    let mut sheet = sheet(random, board);
    let (edges, vertices) = (sheet.board.edges(), sheet.board.vertices);
    let (broken, place) = (random.below(12), random.below(1024));
    match broken {
        0 => sheet.syndrome[place % vertices] = 2,
        1 if edges > 0 => sheet.loss[place % edges] = 2,
        2 if edges > 0 => sheet.board.marks[place % edges] = 4,
        3 if edges > 0 => sheet.board.ends[place % (2 * edges)] = vertices as u16,
        _ => {}
    }
    sheet
}

/// The sheet as the calls are lent it, without an open vertex.
fn lent(sheet: &Sheet) -> table::Sheet<'_> {
    let Sheet { board, syndrome, loss } = sheet;
    let open = &[0; VERTICES][..board.vertices];
    let board = Board { vertices: board.vertices, ends: &board.ends, marks: &board.marks, open };
    table::Sheet { board, syndrome, loss }
}

/// What the calls answer that are lent a sheet, and what they write.
fn sum_calls(sum: &mut Sum, sheet: &Sheet, handed: &[u8]) {
    let edges = sheet.board.edges();
    let (mut support, mut correction) = (vec![7; edges], vec![7; edges]);
    let key = table::decode(lent(sheet), &mut support, &mut correction);
    sum.answer(key.map(|Key { growths, edges }| (growths, edges)));
    sum.bytes(&support);
    sum.bytes(&correction);
    let key = table::decode_rounds(lent(sheet), &mut support, &mut correction);
    sum.answer(key.map(|RoundsKey { rounds, edges }| (rounds, edges)));
    sum.bytes(&support);
    sum.bytes(&correction);
    let verdict = table::verdict(lent(sheet), handed);
    sum.answer(verdict.map(|verdict| match verdict {
        Verdict::Off(vertex) => (1, vertex),
        Verdict::Same => (2, 0),
        Verdict::Wound(marks) => (3, marks.into()),
    }));
    let distance = table::distance(lent(sheet).board, &mut support);
    sum.answer(distance.map(|fewest| (fewest.unwrap_or(0), 0)));
    let mut text = vec![7; 4096];
    let written = table::write(lent(sheet), &mut text);
    sum.answer(written.map(|bytes| (bytes, 0)));
    sum.bytes(&text);
}

/// What the reader answers and writes; no open byte of what is read is set.
fn sum_reader(sum: &mut Sum, text: &[u8]) {
    let (mut ends, mut marks, mut open) = (vec![7; 2 * EDGES], vec![7; EDGES], vec![7; VERTICES]);
    let (mut syndrome, mut loss) = (vec![7; VERTICES], vec![7; EDGES]);
    let counts = table::read(text, &mut ends, &mut marks, &mut open, &mut syndrome, &mut loss);
    let read = counts.map_or(0, |Counts { vertices, .. }| vertices);
    assert!(open[..read].iter().all(|&byte| byte == 0), "{:?}", String::from_utf8_lossy(text));
    sum.answer(counts.map(|Counts { vertices, edges }| (vertices, edges)));
    sum.ends(&ends);
    [marks, syndrome, loss].iter().for_each(|buffer| sum.bytes(buffer));
}

fn sum_torus(sum: &mut Sum, side: u32) {
    let edges = 2 * (side * side) as usize;
    let (mut ends, mut marks) = (vec![7; 2 * edges], vec![7; edges]);
    sum.answer(table::torus(side, &mut ends, &mut marks).map(|vertices| (vertices, 0)));
    sum.ends(&ends);
    sum.bytes(&marks);
}

/// A line for each group: the sum over its sheets, and that over their answers.
fn lines() -> String {
    let mut random = Random::new(501);
    let mut lines = String::new();
    for group in 0..GROUPS {
        let (mut sheets, mut answers) = (Sum::new(), Sum::new());
        for at in 0..SHEETS {
            let sheet = drawn(&mut random, group * SHEETS + at);
            let handed = random.set(sheet.board.edges(), 200);
            let text = text::write(&sheet);
            let damaged = damage::any_line(&mut random, &text);
            [&text, &damaged, &handed].iter().for_each(|bytes| sheets.bytes(bytes));
            sum_calls(&mut answers, &sheet, &handed);
            sum_reader(&mut answers, &text);
            sum_reader(&mut answers, &damaged);
        }
        sum_torus(&mut answers, group as u32 % 35);
        writeln!(lines, "{:016x} {:016x}", sheets.0, answers.0).expect("a line");
    }
    lines
}

#[test]
fn answers_as_they_were() {
    let lines = lines();
    assert_eq!(lines.lines().count(), STORED.lines().count());
    for (group, (line, stored)) in lines.lines().zip(STORED.lines()).enumerate() {
        assert_eq!(line[..16], stored[..16], "other sheets were drawn for group {group}");
        assert_eq!(line[16..], stored[16..], "another answer in group {group}");
    }
}
