//! The game of Winder and Blocker: one call, compared with the plain one in all that can be seen of it,
//! and the positions to try it on.

use reference::board::Board;
use reference::game::{self as plain, Player as PlainPlayer, Solved};
use reference::{Random, Refusal as PlainRefusal};
use table::{Game, Player, Refusal};

use crate::agrees::is_refusal;
use crate::guarded::Guarded;
use crate::lent::{BYTE_GUARD, LentBoard};

/// The game from a position.
pub fn game(board: &Board, position: &[u8]) -> Result<Game, Refusal> {
    held(board, position, plain::game(board, position))
}

/// The game from a position that is not refused, on a board of which all is known.
pub fn solved(board: &Board, solved: &Solved, position: &[u8]) -> Game {
    held(board, position, Ok(solved.game(position))).expect("a position that is not refused")
}

/// The call, held to what the plain one gives.
fn held(
    board: &Board,
    position: &[u8],
    plain: Result<plain::Game, PlainRefusal>,
) -> Result<Game, Refusal> {
    let mut lent = LentBoard::new(board);
    let mut bytes = Guarded::new(position, BYTE_GUARD);
    let answer = table::game(lent.lent(), bytes.lent());
    lent.returned();
    bytes.returned_unchanged(position);
    let same = match (answer, plain) {
        (Ok(game), Ok(plain)) => is_game(game, plain),
        (Err(refusal), Err(plain)) => is_refusal(refusal, plain),
        _ => false,
    };
    assert!(same, "{answer:?}, not {plain:?}: {position:?} on {board:?}");
    answer
}

fn is_game(game: Game, plain: plain::Game) -> bool {
    let winner = match plain.winner {
        PlainPlayer::Winder => Player::Winder,
        PlainPlayer::Blocker => Player::Blocker,
    };
    game == Game { winner, edge: plain.edge }
}

/// All positions of so many edges that moves in turn lead to.
pub fn positions(edges: usize) -> impl Iterator<Item = Vec<u8>> {
    plain::all_positions(edges).filter(|position| {
        let count = |of: u8| position.iter().filter(|&&byte| byte == of).count();
        count(1) == count(2) || count(1) == count(2) + 1
    })
}

/// A position of so many edges, of which any number is taken in turn.
pub fn drawn_position(random: &mut Random, edges: usize) -> Vec<u8> {
    let mut position = vec![0; edges];
    let taken = random.from_to(0, edges);
    for turn in 0..taken {
        take(&mut position, random, 1 + (turn % 2) as u8);
    }
    position
}

/// Gives a free edge, any of them, to the player with this byte.
pub fn take(position: &mut [u8], random: &mut Random, byte: u8) {
    let free: Vec<usize> = (0..position.len()).filter(|&edge| position[edge] == 0).collect();
    position[free[random.below(free.len())]] = byte;
}
