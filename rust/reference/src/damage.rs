//! Damaged texts: most are malformed, and some stand for another sheet.

use crate::random::Random;

/// What damage puts into a text: bytes that mean something there, some that look alike, and the
/// ends of the range.
pub const BYTES: [u8; 25] = *b"0123456789\t\n\r VEOSX-+vx\0\xff";

/// The text with each byte in turn changed, preceded by another, doubled, dropped, or made the first
/// that is missing.
pub fn each_byte(text: &[u8]) -> Vec<Vec<u8>> {
    let mut damaged = Vec::new();
    for at in 0..text.len() {
        for byte in BYTES {
            damaged.push(replaced(text, at, 1, &[byte]));
            damaged.push(replaced(text, at, 0, &[byte]));
        }
        damaged.push(replaced(text, at, 0, &[text[at]]));
        damaged.push(replaced(text, at, 1, &[]));
        damaged.push(text[..at].to_vec());
    }
    damaged
}

/// The text with each line in turn dropped, moved to each place, and doubled at each place.
pub fn each_line(text: &[u8]) -> Vec<Vec<u8>> {
    let lines = lines(text);
    let mut damaged = Vec::new();
    for from in 0..lines.len() {
        let mut dropped = lines.clone();
        let line = dropped.remove(from);
        for to in 0..lines.len() {
            damaged.push([&dropped[..to], &[line], &dropped[to..]].concat().concat());
            damaged.push([&lines[..to], &[line], &lines[to..]].concat().concat());
        }
        damaged.push(dropped.concat());
    }
    damaged
}

/// The text with one to three bytes changed, inserted or dropped anywhere.
pub fn anywhere(random: &mut Random, text: &[u8]) -> Vec<u8> {
    let mut text = text.to_vec();
    for _ in 0..random.from_to(1, 3) {
        let at = random.below(text.len());
        let byte = BYTES[random.below(BYTES.len())];
        text = match random.below(3) {
            0 => replaced(&text, at, 1, &[byte]),
            1 => replaced(&text, at, 0, &[byte]),
            _ => replaced(&text, at, 1, &[]),
        };
    }
    text
}

/// The text with any one line dropped, doubled, or changed for another in its place.
pub fn any_line(random: &mut Random, text: &[u8]) -> Vec<u8> {
    let mut lines = lines(text);
    let count = lines.len();
    let at = random.below(count);
    match random.below(3) {
        0 => drop(lines.remove(at)),
        1 => lines.insert(at, lines[at]),
        _ => lines.swap(at, random.below(count)),
    }
    lines.concat()
}

/// The lines, each with its newline.
fn lines(text: &[u8]) -> Vec<&[u8]> {
    text.split_inclusive(|&byte| byte == b'\n').collect()
}

/// The text with so many bytes from a place on replaced.
fn replaced(text: &[u8], at: usize, count: usize, by: &[u8]) -> Vec<u8> {
    [&text[..at], by, &text[at + count..]].concat()
}
