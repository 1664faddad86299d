//! What the calls refuse that are lent the same sheet.

use std::fmt::Debug;

use reference::board::{Board, Sheet};
use reference::packed::PackedSheet;
use table::{GAME_EDGES, Refusal, TRAP_EDGES};

use crate::{agrees, game, packed, trap};

/// The number and the place of a refusal.
pub fn refused<T: Debug>(answer: Result<T, Refusal>) -> (u8, u64) {
    let refusal = answer.expect_err("a refusal");
    (refusal.number(), refusal.place())
}

/// The refusal of the verdict.
pub fn judged(sheet: &Sheet, handed: &[u8]) -> (u8, u64) {
    refused(agrees::verdict(sheet, handed))
}

/// Whether the sheet breaks this rule packed too. A byte above 1 has no bit, and a wrong number of bytes
/// may fill the right number of words.
fn broken_packed(sheet: &Sheet, number: u8) -> bool {
    let Sheet { board, syndrome, loss } = sheet;
    match number {
        3 => syndrome.len() == board.vertices && loss.len() == board.edges(),
        7 | 8 => false,
        _ => true,
    }
}

/// All four calls that are lent a sheet refuse it alike, and the one that is lent a packed sheet too,
/// where packing leaves the rule broken.
pub fn sheet_refused(sheet: &Sheet) -> (u8, u64) {
    let refusal = refused(agrees::decode(sheet));
    assert_eq!(refused(agrees::decode_rounds(sheet)), refusal);
    assert_eq!(judged(sheet, &vec![0; sheet.board.edges()]), refusal);
    assert_eq!(refused(agrees::write(sheet)), refusal);
    if broken_packed(sheet, refusal.0) {
        assert_eq!(refused(packed::decode_packed(&PackedSheet::new(sheet))), refusal);
    }
    refusal
}

/// They, the distance, the game and the trap refuse the sheet's board alike.
pub fn board_refused(sheet: &Sheet) -> (u8, u64) {
    let refusal = refused(agrees::distance(&sheet.board));
    assert_eq!(refused(game::game(&sheet.board, &vec![0; sheet.board.edges()])), refusal);
    assert_eq!(refused(trap::trap(&sheet.board, &sheet.loss)), refusal);
    assert_eq!(sheet_refused(sheet), refusal);
    refusal
}

/// None of the eight calls refuses, but for the game and the trap where there are too many edges.
pub fn none_refuses(sheet: &Sheet) {
    agrees::decode(sheet).expect("decoding");
    agrees::decode_rounds(sheet).expect("decoding in rounds");
    packed::decode_packed(&PackedSheet::new(sheet)).expect("decoding packed");
    assert!(agrees::verdict(sheet, &vec![0; sheet.board.edges()]).is_ok(), "the verdict");
    agrees::distance(&sheet.board).expect("distance");
    let played = game::game(&sheet.board, &vec![0; sheet.board.edges()]);
    assert_eq!(played.is_ok(), sheet.board.edges() <= GAME_EDGES, "the game: {played:?}");
    let set = trap::trap(&sheet.board, &sheet.loss);
    assert_eq!(set.is_ok(), sheet.board.edges() <= TRAP_EDGES, "the trap: {set:?}");
    agrees::write(sheet).expect("writing");
}

/// The board with nothing lit and nothing lost.
pub fn blank(board: Board) -> Sheet {
    Sheet::new(board, &[], &[])
}
