//! Document 02, K7, "Packed sheets": syndrome and losses in 64-bit words, a bit for each item. All is
//! done item by item.

use crate::board::{Board, Sheet, members};
use crate::decoding::{Key, key};
use crate::refusal::{self, Refusal};

/// How many items a word has bits for.
pub const WORD: usize = 64;

/// A board with its syndrome, a bit for each vertex, and its losses, a bit for each edge.
#[derive(Clone, Debug, PartialEq, Eq)]
pub struct PackedSheet {
    pub board: Board,
    pub syndrome: Vec<u64>,
    pub loss: Vec<u64>,
}

impl PackedSheet {
    /// The sheet with its syndrome and losses packed, however many bytes they have.
    pub fn new(sheet: &Sheet) -> PackedSheet {
        let Sheet { board, syndrome, loss } = sheet;
        PackedSheet { board: board.clone(), syndrome: packed(syndrome), loss: packed(loss) }
    }
}

/// How many words so many items fill: (items + 63) / 64, rounded down.
pub fn words_of(items: usize) -> usize {
    items.div_ceil(WORD)
}

/// The words of a set: item i is bit i modulo 64 of word i / 64.
pub fn packed(set: &[u8]) -> Vec<u64> {
    let mut words = vec![0; words_of(set.len())];
    for item in members(set) {
        words[item / WORD] |= 1 << (item % WORD);
    }
    words
}

/// The set of so many items that words stand for.
pub fn unpacked(words: &[u64], items: usize) -> Vec<u8> {
    (0..items).map(|item| u8::from(is_set(words, item))).collect()
}

/// Whether the bit of an item is set.
pub fn is_set(words: &[u64], item: usize) -> bool {
    words[item / WORD] >> (item % WORD) & 1 == 1
}

/// Packing: the words of the syndrome and of the losses, or a refusal; the buffers lent for them have
/// these lengths.
pub fn pack_into(
    (vertices, edges): (usize, usize),
    syndrome: &[u8],
    loss: &[u8],
    words: (usize, usize),
) -> Result<(Vec<u64>, Vec<u64>), Refusal> {
    refusal::packing((vertices, edges), syndrome, loss, words)?;
    Ok((packed(syndrome), packed(loss)))
}

/// Unpacking: the bytes of the syndrome and of the losses, or a refusal; the buffers lent for them have
/// these lengths.
pub fn unpack_into(
    (vertices, edges): (usize, usize),
    syndrome: &[u64],
    loss: &[u64],
    bytes: (usize, usize),
) -> Result<(Vec<u8>, Vec<u8>), Refusal> {
    refusal::unpacking((vertices, edges), syndrome, loss, bytes)?;
    Ok((unpacked(syndrome, vertices), unpacked(loss, edges)))
}

/// The lit total: the number of set bits in all words.
pub fn lit_total(vertices: usize, words: &[u64]) -> Result<usize, Refusal> {
    refusal::lit_total(vertices, words)?;
    Ok((0..WORD * words.len()).filter(|&bit| is_set(words, bit)).count())
}

/// The lit vertices, rising, or a refusal; the list lent has this length.
pub fn list_lit_into(vertices: usize, words: &[u64], list: usize) -> Result<Vec<u16>, Refusal> {
    refusal::listing(vertices, words, list)?;
    Ok((0..vertices).filter(|&vertex| is_set(words, vertex)).map(|vertex| vertex as u16).collect())
}

/// Decoding of a packed sheet with buffers of these lengths to fill: the key of the plain one.
pub fn decode_packed_into(
    sheet: &PackedSheet,
    support: usize,
    correction: usize,
) -> Result<Key, Refusal> {
    key(&refusal::packed_decoding(sheet, support, correction)?)
}
