//! The game of Winder and Blocker.

use crate::exported::call;
use crate::returned::{impossible, values};
use crate::{Board, Refusal};

/// One of the two who take free edges in turn.
#[derive(Clone, Copy, Debug, PartialEq, Eq)]
pub enum Player {
    /// Moves first, and wins as soon as her edges contain a winding loop.
    Winder,
    /// Wins if the edges run out.
    Blocker,
}

/// What [`game`] says of a position.
#[derive(Clone, Copy, Debug, PartialEq, Eq)]
#[must_use]
pub struct Game {
    /// Who can force the win, or has won.
    pub winner: Player,
    /// Where the winner is to move, the smallest free edge that keeps the win. There is none where the
    /// other player is to move, or where the position is finished.
    pub edge: Option<usize>,
}

/// Says who can force the win from a position: a byte for each edge, 0 where it is free, 1 where it is
/// Winder's, 2 where it is Blocker's.
///
/// Where both have as many edges Winder is to move, and where she has one more Blocker is. She has won
/// as soon as some of her edges are a winding loop; on a board with open vertices that may run from one
/// of them to another. Blocker has won where no edge is free and she has not won. The winner has a reply
/// to every line of play: taking the edge that is given, whenever it is the winner's turn, wins.
///
/// # Errors
///
/// [`Refusal::GameEdges`] says that the board has more than [`GAME_EDGES`](crate::GAME_EDGES) edges,
/// [`Refusal::PositionByte`] names the first edge with a byte above 2, and [`Refusal::MoveCount`] says
/// that moves in turn don't lead to the position. The board's own rules come before these three.
///
/// # Examples
///
/// Three edges join two vertices, and the middle one has a mark, so that it winds with either of the
/// others:
///
/// ```
/// use table::{Board, Game, Player, Refusal, game};
///
/// let ends = &[0, 1, 0, 1, 0, 1];
/// let board = Board { vertices: 2, ends, marks: &[0, 1, 0], open: &[0; 2] };
/// let winder = |edge| Ok(Game { winner: Player::Winder, edge });
/// let blocker = |edge| Ok(Game { winner: Player::Blocker, edge });
///
/// assert_eq!(game(board, &[0, 0, 0]), winder(Some(1)));
/// assert_eq!(game(board, &[0, 1, 0]), winder(None), "Blocker is to move");
/// assert_eq!(game(board, &[2, 1, 0]), winder(Some(2)));
/// assert_eq!(game(board, &[2, 1, 1]), winder(None), "Winder has won");
///
/// assert_eq!(game(board, &[1, 0, 0]), blocker(Some(1)));
/// assert_eq!(game(board, &[1, 2, 0]), blocker(None), "Winder is to move");
/// assert_eq!(game(board, &[1, 2, 1]), blocker(None), "Blocker has won");
///
/// assert_eq!(game(board, &[1, 3, 0]), Err(Refusal::PositionByte(1)));
/// assert_eq!(game(board, &[1, 0, 1]), Err(Refusal::MoveCount));
/// ```
///
/// A way from one open vertex to another is a loop too. Winder takes the one edge that has two ways on:
///
/// ```
/// use table::{Board, Game, Player, game};
///
/// let ends = &[1, 2, 0, 1, 1, 2];
/// let board = Board { vertices: 3, ends, marks: &[0, 1, 0], open: &[1, 0, 1] };
/// assert_eq!(game(board, &[0; 3]), Ok(Game { winner: Player::Winder, edge: Some(1) }));
/// assert_eq!(game(board, &[2, 1, 0]), Ok(Game { winner: Player::Winder, edge: Some(2) }));
///
/// let closed = Board { open: &[0; 3], ..board };
/// assert_eq!(game(closed, &[0; 3]), Ok(Game { winner: Player::Blocker, edge: None }));
/// ```
#[must_use = "nothing is written: the answer is all there is"]
pub fn game(board: Board<'_>, position: &[u8]) -> Result<Game, Refusal> {
    let Board { vertices, ends, marks, open } = board;
    let returned = call!(surface_game(vertices; ends, marks, open, position;));
    returned_game(returned, position)
}

/// What a returned number says of a position. The second value is one more than an edge, which is free,
/// or 0.
fn returned_game(returned: u64, position: &[u8]) -> Result<Game, Refusal> {
    let (winner, shown) = match values(returned, &[1, 2, 3, 4, 6, 16, 20, 21, 22])? {
        (1, shown) => (Player::Winder, shown),
        (2, shown) => (Player::Blocker, shown),
        _ => impossible(returned),
    };
    let edge = shown.checked_sub(1);
    if edge.is_some_and(|edge| position.get(edge) != Some(&0)) {
        impossible(returned)
    }
    Ok(Game { winner, edge })
}

#[cfg(test)]
mod tests {
    use super::{Game, Player, returned_game};
    use crate::Refusal;

    #[test]
    fn each_answer() {
        for (first, winner) in [(1, Player::Winder), (2, Player::Blocker)] {
            assert_eq!(returned_game(first << 8, &[]), Ok(Game { winner, edge: None }));
            for (place, shown) in [(0, 1_u64), (2, 3), (9, 10)] {
                let mut position = [1; 10];
                position[place] = 0;
                let answer = Ok(Game { winner, edge: Some(place) });
                assert_eq!(returned_game(first << 8 | shown << 40, &position), answer);
            }
        }
        assert_eq!(returned_game(16 | 1023 << 8, &[0]), Err(Refusal::OpenByte(1023)));
        assert_eq!(returned_game(20, &[0; 11]), Err(Refusal::GameEdges));
        assert_eq!(returned_game(21 | 9 << 8, &[3; 10]), Err(Refusal::PositionByte(9)));
        assert_eq!(returned_game(22, &[1, 1]), Err(Refusal::MoveCount));
    }

    #[test]
    #[should_panic(expected = "returned 0x0, which this call never answers")]
    fn nobody_wins() {
        let _ = returned_game(0, &[0]);
    }

    #[test]
    #[should_panic(expected = "returned 0x300, which this call never answers")]
    fn third_player() {
        let _ = returned_game(3 << 8, &[0]);
    }

    #[test]
    #[should_panic(expected = "returned 0x30000000100, which this call never answers")]
    fn edge_outside_the_board() {
        let _ = returned_game(1 << 8 | 3 << 40, &[0, 0]);
    }

    #[test]
    #[should_panic(expected = "returned 0x20000000100, which this call never answers")]
    fn edge_that_is_taken() {
        let _ = returned_game(1 << 8 | 2 << 40, &[0, 2, 1]);
    }

    #[test]
    #[should_panic(expected = "returned 0xa15, which this call never answers")]
    fn eleventh_edge() {
        let _ = returned_game(21 | 10 << 8, &[3; 11]);
    }

    #[test]
    #[should_panic(expected = "returned 0x11, which this call never answers")]
    fn number_of_a_syndrome() {
        let _ = returned_game(17, &[0]);
    }
}
