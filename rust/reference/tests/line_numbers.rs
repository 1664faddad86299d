//! Document 02, K4: the one position that the words ask for is the one that halving finds, and its
//! line number is the place of number 13.

use reference::board::{Board, Sheet};
use reference::line_numbers::{first_malformed, is_text, line_number};
use reference::{Random, damage, text};

/// All positions at which a line begins such that the lines before it are a text, or there are none,
/// and with it they are no text.
fn positions(text: &[u8]) -> Vec<usize> {
    let line = |at: usize| text[at..].split_inclusive(|&byte| byte == b'\n').next().unwrap_or(b"");
    let read_before = |at: usize| text[at - 1] == b'\n' && is_text(&text[..at]);
    let reads_with = |at: usize| is_text(&[&text[..at], line(at)].concat());
    (0..=text.len()).filter(|&at| (at == 0 || read_before(at)) && !reads_with(at)).collect()
}

/// Compares the three; whether the bytes are a text.
fn reads(bytes: &[u8]) -> bool {
    let shown = String::from_utf8_lossy(bytes);
    let found = first_malformed(bytes);
    assert_eq!(positions(bytes), found.into_iter().collect::<Vec<_>>(), "{shown:?}");
    let number = found.map(|at| line_number(bytes, at) as u64);
    let place = text::read(bytes).err().map(|refusal| refusal.place);
    assert_eq!(number, place, "{shown:?}");
    number.is_none()
}

#[test]
fn one_position_for_each_damaged_text() {
    let board = Board::new(12, &[(0, 11, 0), (10, 2, 3), (10, 10, 3), (9, 0, 2)]);
    let board = board.with_open(&[2, 11]);
    let text = text::write(&Sheet::new(board, &[0, 7], &[1, 3]));
    let mut random = Random::new(9);
    let mut damaged = [damage::each_byte(&text), damage::each_line(&text)].concat();
    damaged.extend((0..500).map(|_| damage::any_line(&mut random, &text)));
    damaged.extend((0..500).map(|_| damage::anywhere(&mut random, &text)));
    let read = damaged.iter().filter(|text| reads(text)).count();
    assert!(100 < read && read < damaged.len() / 2, "{read} of {}", damaged.len());
}
