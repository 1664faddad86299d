//! One call of packed sheets, compared with the plain decoder in all that can be seen of it.
//!
//! Each struct has what a call is lent, with the lengths of the buffers that it fills, which hold noise
//! before the call.

use std::fmt::Debug;

use reference::board::{Board, Sheet};
use reference::packed::{
    PackedSheet, decode_packed_into, list_lit_into, lit_total as plain_total, pack_into,
    unpack_into, words_of,
};
use reference::{Key, Refusal as PlainRefusal};
use table::{Counts, Refusal, WordCounts};

use crate::agrees::is_refusal;
use crate::guarded::Guarded;
use crate::lent::{
    BYTE_GUARD, END_GUARD, LentPackedSheet, WORD_GUARD, end_noise, noise, word_noise,
};

/// The words of a syndrome and of losses.
pub type Words = (Vec<u64>, Vec<u64>);

/// The bytes of a syndrome and of losses.
pub type Bytes = (Vec<u8>, Vec<u8>);

/// An answer and what the buffers then hold, held against what the plain call gives: the same values
/// and contents, or the same refusal and what the buffers held before.
fn held<V: Debug + PartialEq, B: Debug + PartialEq>(
    lent: &impl Debug,
    answer: Result<V, Refusal>,
    (before, after): (B, B),
    plain: Result<(V, B), PlainRefusal>,
) -> Result<B, Refusal> {
    match (answer, plain) {
        (Ok(values), Ok((plain, filled))) => {
            assert_eq!(values, plain, "{lent:?}");
            assert!(after == filled, "{after:?}, not {filled:?}: {lent:?}");
            Ok(filled)
        }
        (Err(refusal), Err(plain)) => {
            assert!(is_refusal(refusal, plain), "{refusal:?}, not {plain:?}: {lent:?}");
            assert!(after == before, "a refusal wrote: {lent:?}");
            Err(refusal)
        }
        (answer, plain) => panic!("{answer:?}, not {plain:?}: {lent:?}"),
    }
}

/// Packing: bytes, and how many words there are to fill.
#[derive(Clone, Debug)]
pub struct Packing {
    pub vertices: usize,
    pub edges: usize,
    pub syndrome: Vec<u8>,
    pub loss: Vec<u8>,
    pub syndrome_words: usize,
    pub loss_words: usize,
}

impl Packing {
    /// These bytes, with the right counts and lengths.
    pub fn new(syndrome: &[u8], loss: &[u8]) -> Packing {
        Packing {
            vertices: syndrome.len(),
            edges: loss.len(),
            syndrome: syndrome.to_vec(),
            loss: loss.to_vec(),
            syndrome_words: words_of(syndrome.len()),
            loss_words: words_of(loss.len()),
        }
    }

    /// Nothing lit and nothing lost, of so many vertices and edges.
    pub fn blank(vertices: usize, edges: usize) -> Packing {
        Packing::new(&vec![0; vertices], &vec![0; edges])
    }

    /// The words that are written, or the refusal.
    pub fn call(&self) -> Result<Words, Refusal> {
        let Packing { vertices, edges, .. } = *self;
        let lengths = (self.syndrome_words, self.loss_words);
        let before = (word_noise(lengths.0), word_noise(lengths.1));
        let mut syndrome = Guarded::new(&self.syndrome, BYTE_GUARD);
        let mut loss = Guarded::new(&self.loss, BYTE_GUARD);
        let mut syndrome_words = Guarded::new(&before.0, WORD_GUARD);
        let mut loss_words = Guarded::new(&before.1, WORD_GUARD);
        let answer = table::pack(
            vertices,
            edges,
            syndrome.lent(),
            loss.lent(),
            syndrome_words.lent(),
            loss_words.lent(),
        );
        syndrome.returned_unchanged(&self.syndrome);
        loss.returned_unchanged(&self.loss);
        let after = (syndrome_words.returned(), loss_words.returned());
        let plain = pack_into((vertices, edges), &self.syndrome, &self.loss, lengths)
            .map(|words| ((words.0.len(), words.1.len()), words));
        let counts = answer.map(|WordCounts { syndrome, loss }| (syndrome, loss));
        held(self, counts, (before, after), plain)
    }
}

/// Unpacking: words, and how many bytes there are to fill.
#[derive(Clone, Debug)]
pub struct Unpacking {
    pub vertices: usize,
    pub edges: usize,
    pub syndrome_words: Vec<u64>,
    pub loss_words: Vec<u64>,
    pub syndrome: usize,
    pub loss: usize,
}

impl Unpacking {
    /// These words of so many vertices and edges, with the right lengths to fill.
    pub fn new(vertices: usize, edges: usize, words: &Words) -> Unpacking {
        Unpacking {
            vertices,
            edges,
            syndrome_words: words.0.clone(),
            loss_words: words.1.clone(),
            syndrome: vertices,
            loss: edges,
        }
    }

    /// Nothing lit and nothing lost, of so many vertices and edges.
    pub fn blank(vertices: usize, edges: usize) -> Unpacking {
        let words = (vec![0; words_of(vertices)], vec![0; words_of(edges)]);
        Unpacking::new(vertices, edges, &words)
    }

    /// The bytes that are written, or the refusal.
    pub fn call(&self) -> Result<Bytes, Refusal> {
        let Unpacking { vertices, edges, .. } = *self;
        let lengths = (self.syndrome, self.loss);
        let before = (noise(lengths.0), noise(lengths.1));
        let mut syndrome_words = Guarded::new(&self.syndrome_words, WORD_GUARD);
        let mut loss_words = Guarded::new(&self.loss_words, WORD_GUARD);
        let mut syndrome = Guarded::new(&before.0, BYTE_GUARD);
        let mut loss = Guarded::new(&before.1, BYTE_GUARD);
        let answer = table::unpack(
            vertices,
            edges,
            syndrome_words.lent(),
            loss_words.lent(),
            syndrome.lent(),
            loss.lent(),
        );
        syndrome_words.returned_unchanged(&self.syndrome_words);
        loss_words.returned_unchanged(&self.loss_words);
        let after = (syndrome.returned(), loss.returned());
        let plain = unpack_into((vertices, edges), &self.syndrome_words, &self.loss_words, lengths)
            .map(|bytes| ((vertices, edges), bytes));
        let counts = answer.map(|Counts { vertices, edges }| (vertices, edges));
        held(self, counts, (before, after), plain)
    }
}

/// The lit total of a packed syndrome.
pub fn lit_total(vertices: usize, words: &[u64]) -> Result<usize, Refusal> {
    let mut lent = Guarded::new(words, WORD_GUARD);
    let answer = table::lit_total(vertices, lent.lent());
    lent.returned_unchanged(words);
    let plain = plain_total(vertices, words).map(|total| (total, ()));
    held(&(vertices, words), answer, ((), ()), plain)?;
    answer
}

/// Listing lit vertices: words, and how many entries the list has.
#[derive(Clone, Debug)]
pub struct Listing {
    pub vertices: usize,
    pub words: Vec<u64>,
    pub list: usize,
}

impl Listing {
    /// These words of so many vertices, with a list of the right length.
    pub fn new(vertices: usize, words: &[u64]) -> Listing {
        Listing { vertices, words: words.to_vec(), list: vertices }
    }

    /// Nothing lit, of so many vertices.
    pub fn blank(vertices: usize) -> Listing {
        Listing::new(vertices, &vec![0; words_of(vertices)])
    }

    /// The vertices that are written to the front of the list, or the refusal. The rest of the list is
    /// held to be what it was.
    pub fn call(&self) -> Result<Vec<u16>, Refusal> {
        let before = end_noise(self.list);
        let mut words = Guarded::new(&self.words, WORD_GUARD);
        let mut list = Guarded::new(&before, END_GUARD);
        let answer = table::list_lit(self.vertices, words.lent(), list.lent());
        words.returned_unchanged(&self.words);
        let after = list.returned();
        let plain = list_lit_into(self.vertices, &self.words, self.list);
        let plain = plain.map(|lit| (lit.len(), [&lit, &before[lit.len()..]].concat()));
        let mut list = held(self, answer, (before, after), plain)?;
        list.truncate(answer?);
        Ok(list)
    }
}

/// Decoding of a packed sheet with buffers of these lengths to fill.
pub fn decode_packed_with(
    sheet: &PackedSheet,
    support: usize,
    correction: usize,
) -> Result<Key, Refusal> {
    let mut lent = LentPackedSheet::new(sheet);
    let before = (noise(support), noise(correction));
    let mut support_bytes = Guarded::new(&before.0, BYTE_GUARD);
    let mut correction_bytes = Guarded::new(&before.1, BYTE_GUARD);
    let answer = table::decode_packed(lent.lent(), support_bytes.lent(), correction_bytes.lent());
    lent.returned();
    let after = (support_bytes.returned(), correction_bytes.returned());
    let plain = decode_packed_into(sheet, support, correction).map(|key| {
        let counts = table::Key { growths: key.growths, edges: key.edges() };
        (counts, (key.support, key.correction))
    });
    let (support, correction) = held(sheet, answer, (before, after), plain)?;
    Ok(Key { growths: answer?.growths, support, correction })
}

/// Decoding of a packed sheet with buffers of the right lengths to fill.
pub fn decode_packed(sheet: &PackedSheet) -> Result<Key, Refusal> {
    let edges = sheet.board.edges();
    decode_packed_with(sheet, edges, edges)
}

/// So many vertices, of which the first ones are joined to a path of so many edges, nothing lit and
/// nothing lost.
pub fn blank_path(vertices: usize, edges: usize) -> PackedSheet {
    let path: Vec<_> = (0..edges as u16).map(|at| (at, at + 1, 0)).collect();
    PackedSheet::new(&Sheet::new(Board::new(vertices, &path), &[], &[]))
}
