//! What is lent to the calls: guarded buffers with the contents of a board, a sheet or a packed sheet,
//! and the noise that buffers to be filled hold before a call.

use reference::board::{Board, Sheet};
use reference::packed::PackedSheet;

use crate::guarded::Guarded;

pub(crate) const BYTE_GUARD: u8 = 0xa5;
pub(crate) const END_GUARD: u16 = 0xa5c3;
pub(crate) const WORD_GUARD: u64 = 0xa5c3_96e1_5a3c_691e;

/// What a buffer of bytes holds before the call.
pub(crate) fn noise(count: usize) -> Vec<u8> {
    (0..count).map(|i| (i * 37 + 101) as u8).collect()
}

/// What a buffer of ends, or a list of vertices, holds before the call.
pub(crate) fn end_noise(count: usize) -> Vec<u16> {
    (0..count).map(|i| (i * 7919 + 40_503) as u16).collect()
}

/// What a buffer of words holds before the call.
pub(crate) fn word_noise(count: usize) -> Vec<u64> {
    (1..=count as u64).map(|i| i.wrapping_mul(0x9e37_79b9_7f4a_7c15)).collect()
}

/// The buffers of a board, lent to be read.
pub(crate) struct LentBoard<'a> {
    board: &'a Board,
    ends: Guarded<u16>,
    marks: Guarded<u8>,
    open: Guarded<u8>,
}

impl LentBoard<'_> {
    pub(crate) fn new(board: &Board) -> LentBoard<'_> {
        LentBoard {
            board,
            ends: Guarded::new(&board.ends, END_GUARD),
            marks: Guarded::new(&board.marks, BYTE_GUARD),
            open: Guarded::new(&board.open, BYTE_GUARD),
        }
    }

    pub(crate) fn lent(&mut self) -> table::Board<'_> {
        table::Board {
            vertices: self.board.vertices,
            ends: self.ends.lent(),
            marks: self.marks.lent(),
            open: self.open.lent(),
        }
    }

    pub(crate) fn returned(self) {
        self.ends.returned_unchanged(&self.board.ends);
        self.marks.returned_unchanged(&self.board.marks);
        self.open.returned_unchanged(&self.board.open);
    }
}

/// The buffers of a sheet, lent to be read.
pub(crate) struct LentSheet<'a> {
    sheet: &'a Sheet,
    board: LentBoard<'a>,
    syndrome: Guarded<u8>,
    loss: Guarded<u8>,
}

impl LentSheet<'_> {
    pub(crate) fn new(sheet: &Sheet) -> LentSheet<'_> {
        LentSheet {
            sheet,
            board: LentBoard::new(&sheet.board),
            syndrome: Guarded::new(&sheet.syndrome, BYTE_GUARD),
            loss: Guarded::new(&sheet.loss, BYTE_GUARD),
        }
    }

    pub(crate) fn lent(&mut self) -> table::Sheet<'_> {
        table::Sheet {
            board: self.board.lent(),
            syndrome: self.syndrome.lent(),
            loss: self.loss.lent(),
        }
    }

    pub(crate) fn returned(self) {
        self.board.returned();
        self.syndrome.returned_unchanged(&self.sheet.syndrome);
        self.loss.returned_unchanged(&self.sheet.loss);
    }
}

/// The buffers of a packed sheet, lent to be read.
pub(crate) struct LentPackedSheet<'a> {
    sheet: &'a PackedSheet,
    board: LentBoard<'a>,
    syndrome: Guarded<u64>,
    loss: Guarded<u64>,
}

impl LentPackedSheet<'_> {
    pub(crate) fn new(sheet: &PackedSheet) -> LentPackedSheet<'_> {
        LentPackedSheet {
            sheet,
            board: LentBoard::new(&sheet.board),
            syndrome: Guarded::new(&sheet.syndrome, WORD_GUARD),
            loss: Guarded::new(&sheet.loss, WORD_GUARD),
        }
    }

    pub(crate) fn lent(&mut self) -> table::PackedSheet<'_> {
        table::PackedSheet {
            board: self.board.lent(),
            syndrome: self.syndrome.lent(),
            loss: self.loss.lent(),
        }
    }

    pub(crate) fn returned(self) {
        self.board.returned();
        self.syndrome.returned_unchanged(&self.sheet.syndrome);
        self.loss.returned_unchanged(&self.sheet.loss);
    }
}
