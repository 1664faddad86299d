//! Document 01, "Text", with the `O` lines of document 02, K5.

use crate::board::{Board, EDGE_LIMIT, Sheet, VERTEX_LIMIT, members};
use crate::refusal::{self, Refusal, refuse};

/// The largest number of bytes of a text that is read or written.
pub const TEXT_LIMIT: usize = 65_536;

/// The sheet that a text stands for, or the refusal of the text.
pub fn read(text: &[u8]) -> Result<Sheet, Refusal> {
    if text.len() > TEXT_LIMIT {
        return refuse(12, 0);
    }
    let mut reading = Reading::default();
    let mut lines = 0;
    for line in text.split_inclusive(|&byte| byte == b'\n') {
        lines += 1;
        if reading.line(line).is_none() {
            return refuse(13, lines);
        }
    }
    match reading.vertices {
        Some(vertices) => Ok(reading.sheet(vertices)),
        None => refuse(13, 1),
    }
}

/// The text of a sheet, or the refusal of the sheet or of its text; the buffer lent has this length.
pub fn write_into(sheet: &Sheet, buffer: usize) -> Result<Vec<u8>, Refusal> {
    refusal::writer(sheet)?;
    let text = write(sheet);
    if text.len() > TEXT_LIMIT {
        return refuse(12, 0);
    }
    if text.len() > buffer {
        return refuse(14, 0);
    }
    Ok(text)
}

/// The text of a sheet that keeps the rules, of whatever length.
pub fn write(sheet: &Sheet) -> Vec<u8> {
    let board = &sheet.board;
    let mut text = format!("V\t{}\n", board.vertices);
    for (edge, mark) in board.marks.iter().enumerate() {
        let [a, b] = board.ends_of(edge);
        text += &format!("E\t{a}\t{b}\t{mark}\n");
    }
    for vertex in members(&board.open) {
        text += &format!("O\t{vertex}\n");
    }
    for vertex in members(&sheet.syndrome) {
        text += &format!("S\t{vertex}\n");
    }
    for edge in members(&sheet.loss) {
        text += &format!("X\t{edge}\n");
    }
    text.into_bytes()
}

/// What the lines so far have said.
#[derive(Default)]
struct Reading {
    vertices: Option<usize>,
    edges: Vec<(u16, u16, u8)>,
    open: Vec<usize>,
    lit: Vec<usize>,
    lost: Vec<usize>,
}

impl Reading {
    /// Takes one more line with its newline; none if it is malformed.
    fn line(&mut self, line: &[u8]) -> Option<()> {
        let line = line.strip_suffix(b"\n")?;
        let fields: Vec<&[u8]> = line.split(|&byte| byte == b'\t').collect();
        let Some(vertices) = self.vertices else {
            let [b"V", count] = fields[..] else {
                return None;
            };
            self.vertices = Some(number(count, VERTEX_LIMIT + 1).filter(|&count| count > 0)?);
            return Some(());
        };
        match fields[..] {
            [b"E", a, b, mark] => {
                let (a, b) = (number(a, vertices)?, number(b, vertices)?);
                let mark = number(mark, 4)? as u8;
                let in_order =
                    [&self.open, &self.lit, &self.lost].iter().all(|list| list.is_empty());
                let fits = self.edges.len() < EDGE_LIMIT;
                (in_order && fits).then(|| self.edges.push((a as u16, b as u16, mark)))
            }
            [b"O", vertex] => {
                let vertex = number(vertex, vertices)?;
                let in_order = self.lit.is_empty() && self.lost.is_empty();
                (in_order && rises(&self.open, vertex)).then(|| self.open.push(vertex))
            }
            [b"S", vertex] => {
                let vertex = number(vertex, vertices)?;
                let may_be_lit = !self.open.contains(&vertex);
                let in_order = self.lost.is_empty() && rises(&self.lit, vertex);
                (may_be_lit && in_order).then(|| self.lit.push(vertex))
            }
            [b"X", edge] => {
                let edge = number(edge, self.edges.len())?;
                rises(&self.lost, edge).then(|| self.lost.push(edge))
            }
            _ => None,
        }
    }

    fn sheet(&self, vertices: usize) -> Sheet {
        let board = Board::new(vertices, &self.edges).with_open(&self.open);
        Sheet::new(board, &self.lit, &self.lost)
    }
}

/// Whether a number is above the last of a list, or the list is empty.
fn rises(list: &[usize], number: usize) -> bool {
    list.last().is_none_or(|&last| last < number)
}

/// A number below the limit, in base ten without leading zeros.
fn number(field: &[u8], limit: usize) -> Option<usize> {
    let leading_zero = field.len() > 1 && field[0] == b'0';
    if field.is_empty() || field.len() > 4 || leading_zero {
        return None;
    }
    let mut value = 0;
    for byte in field {
        if !byte.is_ascii_digit() {
            return None;
        }
        value = 10 * value + usize::from(byte - b'0');
    }
    (value < limit).then_some(value)
}
