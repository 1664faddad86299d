//! The library's calls on the plain decoder's types, compared with nothing.

use reference::{Board, Key, PackedSheet, Refusal, RoundsKey, Sheet};

fn lent(board: &Board) -> table::Board<'_> {
    let Board { vertices, ends, marks, open } = board;
    table::Board { vertices: *vertices, ends, marks, open }
}

fn lent_sheet(sheet: &Sheet) -> table::Sheet<'_> {
    table::Sheet { board: lent(&sheet.board), syndrome: &sheet.syndrome, loss: &sheet.loss }
}

fn plain(refusal: table::Refusal) -> Refusal {
    Refusal { number: refusal.number(), place: refusal.place() }
}

/// Decoding, with a key put together from the answer and what was written.
pub fn decode(sheet: &Sheet) -> Result<Key, Refusal> {
    let edges = sheet.board.edges();
    let (mut support, mut correction) = (vec![0; edges], vec![0; edges]);
    let answer = table::decode(lent_sheet(sheet), &mut support, &mut correction);
    let table::Key { growths, edges } = answer.map_err(plain)?;
    let key = Key { growths, support, correction };
    assert_eq!(key.edges(), edges, "another count than was written: {sheet:?}");
    Ok(key)
}

/// Decoding of a packed sheet, with a key put together from the answer and what was written.
pub fn decode_packed(sheet: &PackedSheet) -> Result<Key, Refusal> {
    let PackedSheet { board, syndrome, loss } = sheet;
    let (mut support, mut correction) = (vec![0; board.edges()], vec![0; board.edges()]);
    let packed = table::PackedSheet { board: lent(board), syndrome, loss };
    let answer = table::decode_packed(packed, &mut support, &mut correction);
    let table::Key { growths, edges } = answer.map_err(plain)?;
    let key = Key { growths, support, correction };
    assert_eq!(key.edges(), edges, "another count than was written: {sheet:?}");
    Ok(key)
}

/// Decoding in rounds, with a key put together from the answer and what was written.
pub fn decode_rounds(sheet: &Sheet) -> Result<RoundsKey, Refusal> {
    let edges = sheet.board.edges();
    let (mut support, mut correction) = (vec![0; edges], vec![0; edges]);
    let answer = table::decode_rounds(lent_sheet(sheet), &mut support, &mut correction);
    let table::RoundsKey { rounds, edges } = answer.map_err(plain)?;
    let key = RoundsKey { rounds, support, correction };
    assert_eq!(key.edges(), edges, "another count than was written: {sheet:?}");
    Ok(key)
}

/// The game from a position that is not refused.
pub fn game(board: &Board, position: &[u8]) -> table::Game {
    match table::game(lent(board), position) {
        Ok(game) => game,
        Err(refusal) => panic!("{refusal}: {position:?} on {board:?}"),
    }
}

/// The verdict on a set that is handed in for its own syndrome, with these edges lost.
pub fn verdict_on(board: &Board, loss: &[u8], set: &[u8]) -> table::Verdict {
    let syndrome = board.syndrome(set);
    let sheet = table::Sheet { board: lent(board), syndrome: &syndrome, loss };
    match table::verdict(sheet, set) {
        Ok(verdict) => verdict,
        Err(refusal) => panic!("{refusal}: {set:?}, lost {loss:?} on {board:?}"),
    }
}

/// Whether that verdict is wound.
pub fn is_wound(board: &Board, loss: &[u8], set: &[u8]) -> bool {
    matches!(verdict_on(board, loss, set), table::Verdict::Wound(_))
}

/// The fewest edges of a trap that is not refused, with the trap that was written.
pub fn trap(board: &Board, loss: &[u8]) -> (Option<usize>, Vec<u8>) {
    let mut set = vec![9; board.edges()];
    match table::trap(lent(board), loss, &mut set) {
        Ok(fewest) => (fewest, set),
        Err(refusal) => panic!("{refusal}: lost {loss:?} on {board:?}"),
    }
}

/// The distance of a board that keeps the rules, with the loop that was written.
pub fn distance(board: &Board) -> (Option<usize>, Vec<u8>) {
    let mut shown = vec![0; board.edges()];
    match table::distance(lent(board), &mut shown) {
        Ok(fewest) => (fewest, shown),
        Err(refusal) => panic!("{refusal}: {board:?}"),
    }
}
