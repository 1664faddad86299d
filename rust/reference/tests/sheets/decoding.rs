//! The lines of the sheets that the program decodes.

use crate::changed::{ORDER, breaking, changed, of_vertices};
use reference::Refusal;
use reference::board::{Board, Sheet};
use reference::decoding::decode_into;
use reference::generators::{path, ring};
use reference::torus::torus;

/// What the program prints of a buffer: every byte, or a summary where they are many.
fn buffer(bytes: &[u8]) -> String {
    if bytes.is_empty() {
        return "-".to_string();
    }
    if bytes.len() <= 20 {
        return bytes.iter().map(u8::to_string).collect();
    }
    let count = |value| bytes.iter().filter(|&&byte| byte == value).count();
    let digest = bytes.iter().fold(0, |digest, &byte| (31 * digest + u32::from(byte)) % 65521);
    format!("{} {} {} {} digest {digest}", count(0), count(1), count(2), count(9))
}

/// The line of a sheet, decoded with buffers of these lengths, which are lent full of nines.
fn filled(name: &str, sheet: &Sheet, support: usize, correction: usize) -> String {
    let (answer, support, correction) = match decode_into(sheet, support, correction) {
        Ok(key) => {
            let answer = format!("{} growths, {} edges", key.growths, key.edges());
            (answer, key.support, key.correction)
        }
        Err(Refusal { number, place }) => {
            (format!("number {number}, place {place}"), vec![9; support], vec![9; correction])
        }
    };
    format!("{name}: {answer}, support {}, correction {}", buffer(&support), buffer(&correction))
}

/// The line of a sheet, decoded with a byte for each edge in both buffers.
fn decoded(name: &str, sheet: &Sheet) -> String {
    filled(name, sheet, sheet.board.edges(), sheet.board.edges())
}

fn line(name: &str, board: &Board, lit: &[usize], lost: &[usize]) -> String {
    decoded(name, &Sheet::new(board.clone(), lit, lost))
}

fn marked() -> Vec<String> {
    let two = Board::new(2, &[(0, 1, 0), (0, 1, 1)]);
    let one = Board::new(1, &[]);
    vec![
        line("m1", &ring(), &[0, 3], &[]),
        line("m2", &ring(), &[0, 3], &[0, 1, 2]),
        line("m3", &ring(), &[0, 3], &[0, 1, 2, 3]),
        line("m4", &path(4), &[0, 3], &[]),
        line("m5", &path(4), &[0, 1, 2], &[]),
        line("m6", &torus(3), &[0, 1], &[]),
        line("m7", &torus(3), &[0, 4], &[]),
        line("m8", &two, &[0, 1], &[]),
        line("m9", &one, &[], &[]),
        line("m9, lit", &one, &[0], &[]),
    ]
}

fn further() -> Vec<String> {
    let fork = Board::new(3, &[(0, 1, 0), (0, 2, 0)]);
    let uneven = Board::new(5, &[(0, 1, 0), (1, 2, 0), (0, 3, 0), (2, 4, 0)]);
    let tie = Board::new(5, &[(4, 0, 0), (4, 3, 0), (3, 1, 0), (4, 2, 0)]);
    let hexagon =
        Board::new(6, &[(0, 1, 0), (1, 2, 0), (2, 3, 0), (3, 4, 0), (4, 5, 0), (5, 0, 2)]);
    let parallel = Board::new(2, &[(0, 1, 3), (1, 0, 1), (0, 1, 2)]);
    let loops = Board::new(2, &[(0, 0, 1), (0, 1, 0), (1, 1, 2)]);
    let only_loops = Board::new(2, &[(0, 0, 3), (1, 1, 0)]);
    let parts = Board::new(6, &[(0, 1, 0), (4, 3, 0), (3, 2, 0)]);
    vec![
        line("ring, nothing lit", &ring(), &[], &[]),
        line("ring, nothing lit, all lost", &ring(), &[], &[0, 1, 2, 3]),
        line("boundary by vertices", &fork, &[0, 2], &[]),
        line("smaller boundary", &uneven, &[0, 2], &[0]),
        line("tie, ring", &ring(), &[1, 2], &[]),
        line("tie, cluster of two", &tie, &[3, 4], &[0]),
        line("even cluster", &path(4), &[0, 3], &[1]),
        line("even clusters in a ring", &hexagon, &[0, 3], &[1, 4]),
        line("parallel edges", &parallel, &[0, 1], &[]),
        line("parallel edges, the last lost", &parallel, &[0, 1], &[2]),
        line("parallel edges, all lost", &parallel, &[0, 1], &[0, 1, 2]),
        line("loop edges", &loops, &[0, 1], &[]),
        line("loop edges, all lost", &loops, &[0, 1], &[0, 1, 2]),
        line("loop edges, nothing lit", &loops, &[], &[1]),
        line("only loop edges", &only_loops, &[], &[1]),
        line("only loop edges, lit", &only_loops, &[1], &[1]),
        line("torus of side 1", &torus(1), &[], &[]),
        line("three parts", &parts, &[0, 1, 2, 4], &[]),
        line("three parts, one odd", &parts, &[0, 1, 4], &[]),
        line("three parts, a lone vertex lit", &parts, &[5], &[]),
        line("three parts, all odd", &parts, &[1, 4, 5], &[0, 1, 2]),
    ]
}

/// Edge e joins e and e + 1 + e / 1,024, around 1,024 vertices.
fn around(edges: usize) -> Board {
    let ends = |edge: usize| ((edge % 1024) as u16, ((edge + 1 + edge / 1024) % 1024) as u16);
    let edges: Vec<_> = (0..edges).map(ends).map(|(a, b)| (a, b, 0)).collect();
    Board::new(1024, &edges)
}

fn limits() -> Vec<String> {
    let path = around(1023);
    let largest = around(4096);
    let lit: Vec<_> = (0..1024).step_by(64).collect();
    let third: Vec<_> = (0..4096).step_by(3).collect();
    let all: Vec<_> = (0..4096).collect();
    vec![
        line("path of 1024, both ends lit", &path, &[0, 1023], &[]),
        line("path of 1024, both ends lit, all lost", &path, &[0, 1023], &all[..1023]),
        line("path of 1024, one end lit", &path, &[0], &[]),
        line("4096 edges, every 64th vertex lit", &largest, &lit, &[]),
        line("4096 edges, every 64th vertex lit, every third edge lost", &largest, &lit, &third),
        line("4096 edges, every 64th vertex lit, all lost", &largest, &lit, &all),
        line("4096 edges, all lit", &largest, &all[..1024], &[]),
    ]
}

/// Ring with {0,3}, changed so that it breaks a rule or just keeps it.
fn ring_with(name: &str, change: impl Fn(&mut Sheet)) -> String {
    decoded(name, &changed(change))
}

fn counts() -> Vec<String> {
    let sheet = changed(|_| ());
    vec![
        ring_with("no vertex", |sheet| of_vertices(sheet, 0)),
        ring_with("1024 vertices", |sheet| of_vertices(sheet, 1024)),
        ring_with("1025 vertices", |sheet| of_vertices(sheet, 1025)),
        ring_with("7 ends", |sheet| sheet.board.ends.truncate(7)),
        ring_with("9 ends", |sheet| sheet.board.ends.push(0)),
        line("8194 ends", &around(4097), &[], &[]),
        ring_with("3 marks", |sheet| sheet.board.marks.truncate(3)),
        ring_with("5 marks", |sheet| sheet.board.marks.push(0)),
        ring_with("3 syndrome bytes", |sheet| sheet.syndrome.truncate(3)),
        ring_with("5 syndrome bytes", |sheet| sheet.syndrome.push(0)),
        ring_with("3 loss bytes", |sheet| sheet.loss.truncate(3)),
        ring_with("5 loss bytes", |sheet| sheet.loss.push(0)),
        filled("3 support bytes", &sheet, 3, 4),
        filled("5 support bytes", &sheet, 5, 4),
        filled("3 correction bytes", &sheet, 4, 3),
        filled("5 correction bytes", &sheet, 4, 5),
    ]
}

fn places() -> Vec<String> {
    vec![
        ring_with("first end 4 of 4 vertices", |sheet| sheet.board.ends[4] = 4),
        ring_with("second end 4 of 4 vertices", |sheet| sheet.board.ends[5] = 4),
        ring_with("an end 65535", |sheet| sheet.board.ends[1] = 65535),
        ring_with("mark 3", |sheet| sheet.board.marks[3] = 3),
        ring_with("mark 4", |sheet| sheet.board.marks[3] = 4),
        ring_with("mark 255", |sheet| sheet.board.marks[0] = 255),
        ring_with("syndrome byte 2", |sheet| sheet.syndrome[2] = 2),
        ring_with("syndrome byte 255", |sheet| sheet.syndrome[3] = 255),
        ring_with("loss byte 2", |sheet| sheet.loss[1] = 2),
        ring_with("loss byte 255", |sheet| sheet.loss[0] = 255),
    ]
}

fn order() -> Vec<String> {
    let names = ORDER.iter().chain(&["8 before 10", "10"]);
    let sheets = breaking();
    names.zip(&sheets).map(|(name, sheet)| decoded(name, sheet)).collect()
}

pub fn lines() -> Vec<String> {
    [marked(), further(), limits(), counts(), places(), order()].concat()
}
