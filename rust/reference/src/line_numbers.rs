//! Document 02, K4: the number of a text's first malformed line, from positions and newline bytes.
//!
//! No line is counted and none is judged by itself here. Whether bytes are a text is asked of the
//! writer, for "each board with its syndrome and losses has one text": they are one exactly where
//! they are the text of the sheet whose numbers stand in them.

use crate::board::{Board, Sheet};
use crate::{refusal, text};

/// The number of the first malformed line; none where the bytes are a text.
pub fn first_malformed_line(text: &[u8]) -> Option<usize> {
    first_malformed(text).map(|at| line_number(text, at))
}

/// The number of the line that begins at a position: one more than the newline bytes before it.
pub fn line_number(text: &[u8], at: usize) -> usize {
    1 + text[..at].iter().filter(|&&byte| byte == b'\n').count()
}

/// The position at which the first malformed line begins: the bytes before it are a text, or there
/// are none, and with this line they are no text.
///
/// A malformed line ends the reading, so that nothing after it makes a text of the bytes again, and
/// the position is found by halving.
pub fn first_malformed(text: &[u8]) -> Option<usize> {
    let begins = |&at: &usize| at == 0 || text[at - 1] == b'\n';
    let positions: Vec<usize> = (0..=text.len()).filter(begins).collect();
    let first = positions.partition_point(|&at| is_text(with_line(text, at)));
    positions.get(first).copied()
}

/// The text up to a position and with the line that begins there.
fn with_line(text: &[u8], at: usize) -> &[u8] {
    match text[at..].iter().position(|&byte| byte == b'\n') {
        Some(length) => &text[..=at + length],
        None => text,
    }
}

/// Whether these bytes are the text of a sheet that keeps the rules.
pub fn is_text(bytes: &[u8]) -> bool {
    let is_text_of = |sheet: Sheet| refusal::writer(&sheet).is_ok() && text::write(&sheet) == bytes;
    named(bytes).is_some_and(is_text_of)
}

/// The sheet of which these bytes would be the text, if they are one. What is no number in them gives
/// none; order, repeats and spelling are left to the comparison with the sheet's text.
fn named(bytes: &[u8]) -> Option<Sheet> {
    let (mut vertices, mut edges) = (0, Vec::new());
    let (mut open, mut lit, mut lost) = (Vec::new(), Vec::new(), Vec::new());
    for line in str::from_utf8(bytes).ok()?.lines() {
        let (letter, fields) = line.split_once('\t')?;
        let numbers: Result<Vec<u16>, _> = fields.split('\t').map(str::parse).collect();
        match (letter, &numbers.ok()?[..]) {
            ("V", &[count]) => vertices = count.into(),
            ("E", &[a, b, mark]) => edges.push((a, b, mark.try_into().ok()?)),
            ("O", &[vertex]) => open.push(vertex.into()),
            ("S", &[vertex]) => lit.push(vertex.into()),
            ("X", &[edge]) => lost.push(edge.into()),
            _ => return None,
        }
    }
    let below = |list: &[usize], count| list.iter().all(|&number| number < count);
    let in_range = below(&open, vertices) && below(&lit, vertices) && below(&lost, edges.len());
    in_range.then(|| Sheet::new(Board::new(vertices, &edges).with_open(&open), &lit, &lost))
}
