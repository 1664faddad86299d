//! Document 01, "Text": what the decode program prints.

use crate::board::{Board, members};
use crate::decoding::{Key, decode};
use crate::distance;
use crate::refusal::Refusal;
use crate::text;

/// What the program prints for this text on its standard input.
pub fn output(input: &[u8]) -> Vec<u8> {
    match text::read(input).and_then(|sheet| Ok((decode(&sheet)?, sheet.board))) {
        Ok((key, board)) => key_lines(&board, &key),
        Err(refusal) => refusal_line(refusal),
    }
}

fn key_lines(board: &Board, key: &Key) -> Vec<u8> {
    let mut lines = format!("G\t{}\n", key.growths);
    for edge in members(&key.correction) {
        lines += &format!("C\t{edge}\n");
    }
    lines += &match distance::by_trees(board) {
        Some(fewest) => format!("D\t{fewest}\n"),
        None => "D\t-\n".to_string(),
    };
    lines.into_bytes()
}

fn refusal_line(refusal: Refusal) -> Vec<u8> {
    format!("N\t{}\t{}\n", refusal.number, refusal.place).into_bytes()
}
