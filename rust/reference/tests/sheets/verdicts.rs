//! The lines of the sheets with a handed-in set that the program judges.

use crate::changed::{ORDER, breaking, changed, of_vertices};
use reference::Refusal;
use reference::board::{Board, Sheet, set_of};
use reference::generators::{path, ring};
use reference::torus::torus;
use reference::verdict::{Verdict, verdict};

/// The line of a sheet with these handed-in bytes.
fn judged(name: &str, sheet: &Sheet, handed: &[u8]) -> String {
    let answer = match verdict(sheet, handed) {
        Ok(Verdict::Off(vertex)) => format!("off at {vertex}"),
        Ok(Verdict::Same) => "same".to_string(),
        Ok(Verdict::Wound(marks)) => format!("wound {marks}"),
        Err(Refusal { number, place }) => format!("number {number}, place {place}"),
    };
    format!("{name}: {answer}")
}

/// The lines of sets that are handed in for a sheet, each given by its edges.
fn hands(sheet: &Sheet, sets: &[(&str, &[usize])]) -> Vec<String> {
    let edges = sheet.board.edges();
    sets.iter().map(|(name, set)| judged(name, sheet, &set_of(edges, set))).collect()
}

fn rings() -> Vec<String> {
    let sheet = |lost: &[usize]| Sheet::new(ring(), &[0, 3], lost);
    let m1 = hands(
        &sheet(&[]),
        &[
            ("m1, right", &[3]),
            ("m1, the long way", &[0, 1, 2]),
            ("m1, empty", &[]),
            ("m1, from 0 to 2", &[0, 1]),
            ("m1, from 1 to 3", &[1, 2]),
        ],
    );
    let m2 = hands(
        &sheet(&[0, 1, 2]),
        &[("m2, right", &[0, 1, 2]), ("m2, the short way", &[3]), ("m2, off", &[0, 1, 3])],
    );
    let m3 = hands(
        &sheet(&[0, 1, 2, 3]),
        &[("m3, right", &[0, 1, 2]), ("m3, the short way", &[3]), ("m3, all", &[0, 1, 2, 3])],
    );
    [m1, m2, m3].concat()
}

fn paths() -> Vec<String> {
    let m4 = hands(
        &Sheet::new(path(4), &[0, 3], &[]),
        &[
            ("m4, right", &[0, 1, 2]),
            ("m4, off at an end", &[1, 2]),
            ("m4, off at a later vertex", &[0, 1]),
        ],
    );
    let m5 = hands(
        &Sheet::new(path(4), &[0, 1, 2], &[]),
        &[("m5, empty", &[]), ("m5, all", &[0, 1, 2])],
    );
    [m4, m5].concat()
}

fn tori() -> Vec<String> {
    let m6 = hands(
        &Sheet::new(torus(3), &[0, 1], &[]),
        &[
            ("m6, right", &[0]),
            ("m6, around a square", &[1, 3, 6]),
            ("m6, across line A", &[2, 4]),
            ("m6, across line B", &[0, 1, 7, 13]),
            ("m6, across both", &[1, 2, 4, 7, 13]),
            ("m6, off", &[1]),
        ],
    );
    let m7 = hands(
        &Sheet::new(torus(3), &[0, 4], &[]),
        &[
            ("m7, right", &[0, 3]),
            ("m7, the other corner", &[1, 6]),
            ("m7, across line A", &[4, 5, 8]),
            ("m7, off", &[0, 2, 5]),
        ],
    );
    [m6, m7].concat()
}

fn points() -> Vec<String> {
    let two = Board::new(2, &[(0, 1, 0), (0, 1, 1)]);
    let one = Board::new(1, &[]);
    let m8 = hands(
        &Sheet::new(two, &[0, 1], &[]),
        &[("m8, right", &[0]), ("m8, the other edge", &[1]), ("m8, both", &[0, 1])],
    );
    let m9 = hands(&Sheet::new(one.clone(), &[], &[]), &[("m9", &[])]);
    let lit = hands(&Sheet::new(one, &[0], &[]), &[("m9, lit", &[])]);
    [m8, m9, lit].concat()
}

fn loops() -> Vec<String> {
    let board = Board::new(2, &[(0, 0, 1), (0, 1, 0), (1, 1, 2)]);
    let two = hands(
        &Sheet::new(board, &[0, 1], &[]),
        &[
            ("loop edges, right", &[1]),
            ("loop edges, with a loop", &[0, 1]),
            ("loop edges, off", &[0, 2]),
        ],
    );
    let side_1 = hands(
        &Sheet::new(torus(1), &[], &[]),
        &[
            ("side 1, empty", &[]),
            ("side 1, across line A", &[0]),
            ("side 1, across line B", &[1]),
            ("side 1, across both", &[0, 1]),
        ],
    );
    let lit = hands(&Sheet::new(torus(1), &[0], &[]), &[("side 1, lit", &[])]);
    [two, side_1, lit].concat()
}

/// Ring with {0,3}, changed, and its correction handed in.
fn ring_with(name: &str, change: impl Fn(&mut Sheet)) -> String {
    judged(name, &changed(change), &[0, 0, 0, 1])
}

fn counts() -> Vec<String> {
    let sheet = changed(|_| ());
    let zeros = |edges| {
        let board = Board::new(4, &vec![(0, 0, 0); edges]);
        Sheet { board, syndrome: vec![1, 0, 0, 1], loss: vec![0; edges] }
    };
    vec![
        ring_with("no vertex", |sheet| of_vertices(sheet, 0)),
        ring_with("1024 vertices", |sheet| of_vertices(sheet, 1024)),
        ring_with("1025 vertices", |sheet| of_vertices(sheet, 1025)),
        ring_with("7 ends", |sheet| sheet.board.ends.truncate(7)),
        judged("8192 ends", &zeros(4096), &[0; 4096]),
        judged("8194 ends", &zeros(4097), &[0; 4097]),
        ring_with("3 marks", |sheet| sheet.board.marks.truncate(3)),
        ring_with("5 marks", |sheet| sheet.board.marks.push(0)),
        ring_with("3 syndrome bytes", |sheet| sheet.syndrome.truncate(3)),
        ring_with("5 syndrome bytes", |sheet| sheet.syndrome.push(0)),
        ring_with("3 loss bytes", |sheet| sheet.loss.truncate(3)),
        ring_with("5 loss bytes", |sheet| sheet.loss.push(0)),
        judged("3 handed-in bytes", &sheet, &[0, 0, 0]),
        judged("5 handed-in bytes", &sheet, &[0, 0, 0, 1, 0]),
    ]
}

fn places() -> Vec<String> {
    let sheet = changed(|_| ());
    let marked = changed(|sheet| sheet.board.marks[3] = 3);
    vec![
        ring_with("first end 4 of 4 vertices", |sheet| sheet.board.ends[4] = 4),
        ring_with("second end 4 of 4 vertices", |sheet| sheet.board.ends[5] = 4),
        judged("mark 3", &marked, &[1, 1, 1, 0]),
        ring_with("mark 4", |sheet| sheet.board.marks[3] = 4),
        ring_with("syndrome byte 2", |sheet| sheet.syndrome[2] = 2),
        ring_with("loss byte 2", |sheet| sheet.loss[1] = 2),
        judged("handed-in byte 2", &sheet, &[0, 0, 2, 1]),
        judged("handed-in byte 255", &sheet, &[255, 0, 0, 2]),
    ]
}

fn order() -> Vec<String> {
    let names = ORDER.iter().chain(&["8 before 9", "9 before 10"]);
    let mut sheets = breaking();
    let mut lines: Vec<_> =
        names.zip(&sheets).map(|(name, sheet)| judged(name, sheet, &[0, 0, 2, 3])).collect();
    let mut sheet = sheets.pop().expect("the sheet that breaks only 10");
    lines.push(judged("10 before off", &sheet, &[0; 4]));
    sheet.syndrome = vec![1, 1, 0, 0, 0];
    lines.push(judged("off", &sheet, &[0; 4]));
    lines
}

pub fn lines() -> Vec<String> {
    [rings(), paths(), tori(), points(), loops(), counts(), places(), order()].concat()
}
