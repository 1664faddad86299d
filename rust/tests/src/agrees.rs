//! One call of the library, compared with the plain decoder in all that can be seen of it.
//!
//! Buffers to be filled hold noise before the call, so that what a refusal leaves, and what a call
//! must not touch, shows.

use reference::board::{Board, Sheet, size};
use reference::decoding::decode_into;
use reference::distance::distance_into;
use reference::faces::faces_into;
use reference::line_numbers::first_malformed_line;
use reference::planar::planar_into;
use reference::refusal;
use reference::rounds::decode_rounds_into;
use reference::stack::stack_into;
use reference::text::{self, write_into};
use reference::torus::torus_into;
use reference::verdict::{self as plain_verdict, Verdict as PlainVerdict};
use reference::{Key, Refusal as PlainRefusal, RoundsKey};
use table::{Counts, Refusal, Verdict};

use crate::guarded::Guarded;
use crate::lent::{BYTE_GUARD, END_GUARD, LentBoard, LentSheet, end_noise, noise};

/// Whether the library refuses as the plain decoder does.
pub(crate) fn is_refusal(refusal: Refusal, plain: PlainRefusal) -> bool {
    (refusal.number(), refusal.place()) == (plain.number, plain.place)
}

/// What a decoder answers and writes: its steps, the support and the correction.
type Written<'a> = (usize, &'a Vec<u8>, &'a Vec<u8>);

/// A call of a decoder on a sheet, with two buffers of these lengths to fill, which answers with two
/// numbers: all that can be seen of it, held against what the plain decoder answers.
fn fills(
    sheet: &Sheet,
    (support, correction): (usize, usize),
    call: impl FnOnce(table::Sheet<'_>, &mut [u8], &mut [u8]) -> Result<(usize, usize), Refusal>,
    plain: Result<Written<'_>, &PlainRefusal>,
) -> Result<(), Refusal> {
    let mut lent = LentSheet::new(sheet);
    let before = (noise(support), noise(correction));
    let mut support_bytes = Guarded::new(&before.0, BYTE_GUARD);
    let mut correction_bytes = Guarded::new(&before.1, BYTE_GUARD);
    let answer = call(lent.lent(), support_bytes.lent(), correction_bytes.lent());
    lent.returned();
    let after = (support_bytes.returned(), correction_bytes.returned());
    match (answer, plain) {
        (Ok(values), Ok((steps, support, correction))) => {
            assert_eq!(values, (steps, size(correction)), "{sheet:?}");
            assert_eq!((&after.0, &after.1), (support, correction), "{sheet:?}");
            Ok(())
        }
        (Err(refusal), Err(&plain)) => {
            assert!(is_refusal(refusal, plain), "{refusal:?}, not {plain:?}: {sheet:?}");
            assert_eq!(after, before, "a refusal wrote: {sheet:?}");
            Err(refusal)
        }
        (answer, plain) => panic!("{answer:?}, not {plain:?}: {sheet:?}"),
    }
}

/// Decoding with buffers of these lengths to fill.
pub fn decode_with(sheet: &Sheet, support: usize, correction: usize) -> Result<Key, Refusal> {
    let plain = decode_into(sheet, support, correction);
    let written = plain.as_ref().map(|key| (key.growths, &key.support, &key.correction));
    let call = |sheet: table::Sheet<'_>, support: &mut [u8], correction: &mut [u8]| {
        let table::Key { growths, edges } = table::decode(sheet, support, correction)?;
        Ok((growths, edges))
    };
    fills(sheet, (support, correction), call, written)?;
    Ok(plain.expect("a key, as both answered"))
}

/// Decoding with buffers of the right lengths to fill.
pub fn decode(sheet: &Sheet) -> Result<Key, Refusal> {
    let edges = sheet.board.edges();
    decode_with(sheet, edges, edges)
}

/// Decoding in rounds with buffers of these lengths to fill.
pub fn decode_rounds_with(
    sheet: &Sheet,
    support: usize,
    correction: usize,
) -> Result<RoundsKey, Refusal> {
    let plain = decode_rounds_into(sheet, support, correction);
    let written = plain.as_ref().map(|key| (key.rounds, &key.support, &key.correction));
    let call = |sheet: table::Sheet<'_>, support: &mut [u8], correction: &mut [u8]| {
        let table::RoundsKey { rounds, edges } = table::decode_rounds(sheet, support, correction)?;
        Ok((rounds, edges))
    };
    fills(sheet, (support, correction), call, written)?;
    Ok(plain.expect("a key, as both answered"))
}

/// Decoding in rounds with buffers of the right lengths to fill.
pub fn decode_rounds(sheet: &Sheet) -> Result<RoundsKey, Refusal> {
    let edges = sheet.board.edges();
    decode_rounds_with(sheet, edges, edges)
}

/// The verdict on a handed-in set.
pub fn verdict(sheet: &Sheet, handed: &[u8]) -> Result<Verdict, Refusal> {
    let mut lent = LentSheet::new(sheet);
    let mut handed_bytes = Guarded::new(handed, BYTE_GUARD);
    let answer = table::verdict(lent.lent(), handed_bytes.lent());
    lent.returned();
    handed_bytes.returned_unchanged(handed);
    let plain = plain_verdict::verdict(sheet, handed);
    assert!(is_judged(answer, plain), "{answer:?}, not {plain:?}: {handed:?} on {sheet:?}");
    answer
}

/// Whether the library judges a handed-in set, or refuses it, as the plain decoder does.
fn is_judged(answer: Result<Verdict, Refusal>, plain: Result<PlainVerdict, PlainRefusal>) -> bool {
    match (answer, plain) {
        (Ok(Verdict::Off(vertex)), Ok(PlainVerdict::Off(plain))) => vertex == plain,
        (Ok(Verdict::Same), Ok(PlainVerdict::Same)) => true,
        (Ok(Verdict::Wound(marks)), Ok(PlainVerdict::Wound(plain))) => marks == plain,
        (Err(refusal), Err(plain)) => is_refusal(refusal, plain),
        _ => false,
    }
}

/// The verdict with faces on the torus of a side, with a buffer of this length to fill: the faces that
/// were written where it is same, else none.
pub fn faces_with(
    side: u32,
    syndrome: &[u8],
    loss: &[u8],
    handed: &[u8],
    faces: usize,
) -> Result<(Verdict, Option<Vec<u8>>), Refusal> {
    let before = noise(faces);
    let mut syndrome_bytes = Guarded::new(syndrome, BYTE_GUARD);
    let mut loss_bytes = Guarded::new(loss, BYTE_GUARD);
    let mut handed_bytes = Guarded::new(handed, BYTE_GUARD);
    let mut faces_filled = Guarded::new(&before, BYTE_GUARD);
    let answer = table::faces(
        side,
        syndrome_bytes.lent(),
        loss_bytes.lent(),
        handed_bytes.lent(),
        faces_filled.lent(),
    );
    syndrome_bytes.returned_unchanged(syndrome);
    loss_bytes.returned_unchanged(loss);
    handed_bytes.returned_unchanged(handed);
    let after = faces_filled.returned();
    let plain = faces_into(side, syndrome, loss, handed, faces);
    let case = || format!("side {side}: {handed:?} for {syndrome:?}, lost {loss:?}");
    let judged = plain.as_ref().map(|&(verdict, _)| verdict).map_err(|&refusal| refusal);
    assert!(is_judged(answer, judged), "{answer:?}, not {judged:?}: {}", case());
    let shown = plain.ok().and_then(|(_, shown)| shown);
    let left = shown.as_ref().unwrap_or(&before);
    assert!(after == *left, "{answer:?}, and {after:?} in place of {left:?}: {}", case());
    Ok((answer?, shown))
}

/// The verdict with faces with a buffer of the right length to fill; the side is in range.
pub fn faces(
    side: u32,
    syndrome: &[u8],
    loss: &[u8],
    handed: &[u8],
) -> Result<(Verdict, Option<Vec<u8>>), Refusal> {
    faces_with(side, syndrome, loss, handed, (side * side) as usize)
}

/// The distance with a buffer of this length to fill.
pub fn distance_with(board: &Board, shown: usize) -> Result<Option<usize>, Refusal> {
    let mut lent = LentBoard::new(board);
    let before = noise(shown);
    let mut shown_bytes = Guarded::new(&before, BYTE_GUARD);
    let answer = table::distance(lent.lent(), shown_bytes.lent());
    lent.returned();
    let after = shown_bytes.returned();
    match (answer, distance_into(board, shown)) {
        (Ok(Some(fewest)), Ok(Some(plain))) => {
            assert_eq!(fewest, plain, "{board:?}");
            assert!(after.iter().all(|&byte| byte <= 1), "{after:?} on {board:?}");
            assert!(size(&after) == fewest && board.winds(&after), "{after:?} on {board:?}");
            Ok(Some(fewest))
        }
        (Ok(None), Ok(None)) => {
            assert_eq!(after, vec![0; shown], "{board:?}");
            Ok(None)
        }
        (Err(refusal), Err(plain)) => {
            assert!(is_refusal(refusal, plain), "{refusal:?}, not {plain:?}: {board:?}");
            assert_eq!(after, before, "a refusal wrote: {board:?}");
            Err(refusal)
        }
        (answer, plain) => panic!("{answer:?}, not {plain:?}: {board:?}"),
    }
}

/// The distance with a buffer of the right length to fill.
pub fn distance(board: &Board) -> Result<Option<usize>, Refusal> {
    distance_with(board, board.edges())
}

/// The torus of a side with buffers of these lengths to fill.
pub fn torus_with(side: u32, ends: usize, marks: usize) -> Result<Board, Refusal> {
    let before = (end_noise(ends), noise(marks));
    let mut ends_filled = Guarded::new(&before.0, END_GUARD);
    let mut marks_filled = Guarded::new(&before.1, BYTE_GUARD);
    let answer = table::torus(side, ends_filled.lent(), marks_filled.lent());
    let after = (ends_filled.returned(), marks_filled.returned());
    match (answer, torus_into(side, ends, marks)) {
        (Ok(vertices), Ok(board)) => {
            assert_eq!(vertices, board.vertices, "side {side}");
            assert_eq!(after, (board.ends.clone(), board.marks.clone()), "side {side}");
            Ok(board)
        }
        (Err(refusal), Err(plain)) => {
            assert!(is_refusal(refusal, plain), "{refusal:?}, not {plain:?}: side {side}");
            assert_eq!(after, before, "a refusal wrote: side {side}");
            Err(refusal)
        }
        (answer, plain) => panic!("{answer:?}, not {plain:?}: side {side}"),
    }
}

/// The planar board of a side with buffers of these lengths to fill.
pub fn planar_with(side: u32, ends: usize, marks: usize, open: usize) -> Result<Board, Refusal> {
    let before = (end_noise(ends), noise(marks), noise(open));
    let mut ends_filled = Guarded::new(&before.0, END_GUARD);
    let mut marks_filled = Guarded::new(&before.1, BYTE_GUARD);
    let mut open_filled = Guarded::new(&before.2, BYTE_GUARD);
    let answer = table::planar(side, ends_filled.lent(), marks_filled.lent(), open_filled.lent());
    let after = (ends_filled.returned(), marks_filled.returned(), open_filled.returned());
    match (answer, planar_into(side, ends, marks, open)) {
        (Ok(vertices), Ok(board)) => {
            assert_eq!(vertices, board.vertices, "side {side}");
            let Board { ends, marks, open, .. } = board.clone();
            assert_eq!(after, (ends, marks, open), "side {side}");
            Ok(board)
        }
        (Err(refusal), Err(plain)) => {
            assert!(is_refusal(refusal, plain), "{refusal:?}, not {plain:?}: side {side}");
            assert_eq!(after, before, "a refusal wrote: side {side}");
            Err(refusal)
        }
        (answer, plain) => panic!("{answer:?}, not {plain:?}: side {side}"),
    }
}

/// The stack of these readings with buffers of these lengths to fill, for ends, marks and syndrome: a
/// sheet on which nothing is lost.
pub fn stack_with(
    side: u32,
    rounds: u32,
    readings: &[u8],
    lengths: (usize, usize, usize),
) -> Result<Sheet, Refusal> {
    let (ends, marks, syndrome) = lengths;
    let before = (end_noise(ends), noise(marks), noise(syndrome));
    let mut read = Guarded::new(readings, BYTE_GUARD);
    let mut ends_filled = Guarded::new(&before.0, END_GUARD);
    let mut marks_filled = Guarded::new(&before.1, BYTE_GUARD);
    let mut syndrome_filled = Guarded::new(&before.2, BYTE_GUARD);
    let answer = table::stack(
        side,
        rounds,
        read.lent(),
        ends_filled.lent(),
        marks_filled.lent(),
        syndrome_filled.lent(),
    );
    read.returned_unchanged(readings);
    let after = (ends_filled.returned(), marks_filled.returned(), syndrome_filled.returned());
    match (answer, stack_into(side, rounds, readings, lengths)) {
        (Ok(vertices), Ok(sheet)) => {
            assert_eq!(vertices, sheet.board.vertices, "side {side}, {rounds} rounds");
            let Board { ends, marks, .. } = sheet.board.clone();
            let filled = (ends, marks, sheet.syndrome.clone());
            assert!(after == filled, "side {side}, {rounds} rounds, {readings:?}");
            Ok(sheet)
        }
        (Err(refusal), Err(plain)) => {
            let case = format!("side {side}, {rounds} rounds, {lengths:?}");
            assert!(is_refusal(refusal, plain), "{refusal:?}, not {plain:?}: {case}");
            assert!(after == before, "a refusal wrote: {case}");
            Err(refusal)
        }
        (answer, plain) => panic!("{answer:?}, not {plain:?}: side {side}, {rounds} rounds"),
    }
}

/// The stack of these readings with buffers of the right lengths to fill; its side and its rounds are
/// in range.
pub fn stack(side: u32, rounds: u32, readings: &[u8]) -> Result<Sheet, Refusal> {
    stack_with(side, rounds, readings, stack_lengths(side, rounds))
}

/// The lengths of the buffers that the builder of stacks fills: ends, marks, syndrome.
pub fn stack_lengths(side: u32, rounds: u32) -> (usize, usize, usize) {
    let layer = (side * side) as usize;
    let vertices = rounds as usize * layer;
    let edges = 3 * vertices - layer;
    (2 * edges, edges, vertices)
}

/// Lengths of the buffers that the reader fills.
#[derive(Clone, Copy, Debug, PartialEq, Eq)]
pub struct Lengths {
    pub ends: usize,
    pub marks: usize,
    pub open: usize,
    pub syndrome: usize,
    pub loss: usize,
}

impl Lengths {
    /// The lengths that the reader asks for.
    pub const RIGHT: Lengths =
        Lengths { ends: 8192, marks: 4096, open: 1024, syndrome: 1024, loss: 4096 };
}

/// What the buffers hold that the reader fills.
#[derive(PartialEq)]
struct Filled {
    ends: Vec<u16>,
    marks: Vec<u8>,
    open: Vec<u8>,
    syndrome: Vec<u8>,
    loss: Vec<u8>,
}

impl Filled {
    fn noise(lengths: Lengths) -> Filled {
        Filled {
            ends: end_noise(lengths.ends),
            marks: noise(lengths.marks),
            open: noise(lengths.open),
            syndrome: noise(lengths.syndrome),
            loss: noise(lengths.loss),
        }
    }

    /// The sheet at the front, the rest as it was.
    fn with(mut self, sheet: &Sheet) -> Filled {
        self.ends[..sheet.board.ends.len()].copy_from_slice(&sheet.board.ends);
        self.marks[..sheet.board.marks.len()].copy_from_slice(&sheet.board.marks);
        self.open[..sheet.board.open.len()].copy_from_slice(&sheet.board.open);
        self.syndrome[..sheet.syndrome.len()].copy_from_slice(&sheet.syndrome);
        self.loss[..sheet.loss.len()].copy_from_slice(&sheet.loss);
        self
    }
}

/// Reading a text into buffers of these lengths.
pub fn read_with(input: &[u8], lengths: Lengths) -> Result<Sheet, Refusal> {
    let mut text_bytes = Guarded::new(input, BYTE_GUARD);
    let before = Filled::noise(lengths);
    let mut ends = Guarded::new(&before.ends, END_GUARD);
    let mut marks = Guarded::new(&before.marks, BYTE_GUARD);
    let mut open = Guarded::new(&before.open, BYTE_GUARD);
    let mut syndrome = Guarded::new(&before.syndrome, BYTE_GUARD);
    let mut loss = Guarded::new(&before.loss, BYTE_GUARD);
    let answer = table::read(
        text_bytes.lent(),
        ends.lent(),
        marks.lent(),
        open.lent(),
        syndrome.lent(),
        loss.lent(),
    );
    text_bytes.returned_unchanged(input);
    let after = Filled {
        ends: ends.returned(),
        marks: marks.returned(),
        open: open.returned(),
        syndrome: syndrome.returned(),
        loss: loss.returned(),
    };
    let Lengths { ends, marks, open, syndrome, loss } = lengths;
    let plain = refusal::reader(ends, marks, open, syndrome, loss).and_then(|()| text::read(input));
    let shown = String::from_utf8_lossy(input);
    match (answer, plain) {
        (Ok(Counts { vertices, edges }), Ok(sheet)) => {
            let counts = (sheet.board.vertices, sheet.board.edges());
            assert_eq!((vertices, edges), counts, "{shown:?}");
            assert!(after == before.with(&sheet), "other contents than the text's: {shown:?}");
            Ok(sheet)
        }
        (Err(refusal), Err(plain)) => {
            assert!(is_refusal(refusal, plain), "{refusal:?}, not {plain:?}: {shown:?}");
            assert!(after == before, "a refusal wrote: {shown:?}");
            Err(refusal)
        }
        (answer, plain) => panic!("{answer:?}, not {plain:?}: {shown:?}"),
    }
}

/// Reading a text into buffers of the right lengths. Where it isn't too long, the one refusal is of a
/// malformed line, whose number is held against the newline bytes before it too.
pub fn read(input: &[u8]) -> Result<Sheet, Refusal> {
    let answer = read_with(input, Lengths::RIGHT);
    if input.len() <= text::TEXT_LIMIT {
        let malformed = first_malformed_line(input).map(Refusal::MalformedLine);
        assert_eq!(answer.clone().err(), malformed, "{:?}", String::from_utf8_lossy(input));
    }
    answer
}

/// Writing a sheet's text into a buffer of this length.
pub fn write_with(sheet: &Sheet, length: usize) -> Result<Vec<u8>, Refusal> {
    let mut lent = LentSheet::new(sheet);
    let before = noise(length);
    let mut text_bytes = Guarded::new(&before, BYTE_GUARD);
    let answer = table::write(lent.lent(), text_bytes.lent());
    lent.returned();
    let after = text_bytes.returned();
    match (answer, write_into(sheet, length)) {
        (Ok(bytes), Ok(text)) => {
            assert_eq!(bytes, text.len(), "{sheet:?}");
            assert_eq!(after[..bytes], text, "{sheet:?}");
            assert_eq!(after[bytes..], before[bytes..], "a byte after the text: {sheet:?}");
            Ok(text)
        }
        (Err(refusal), Err(plain)) => {
            assert!(is_refusal(refusal, plain), "{refusal:?}, not {plain:?}: {sheet:?}");
            assert_eq!(after, before, "a refusal wrote: {sheet:?}");
            Err(refusal)
        }
        (answer, plain) => panic!("{answer:?}, not {plain:?}: {sheet:?}"),
    }
}

/// Writing a sheet's text into a buffer that is long enough for every text.
pub fn write(sheet: &Sheet) -> Result<Vec<u8>, Refusal> {
    write_with(sheet, text::TEXT_LIMIT)
}
