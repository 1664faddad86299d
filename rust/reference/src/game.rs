//! Document 02, K11, "Winder and Blocker": what is to be said of every position of a board, from the
//! last positions back to the first. Nothing is searched: a position is looked up in those that a move
//! leads to.

use crate::board::Board;
use crate::refusal::{self, Refusal};

/// The largest edge count of a board that is played on.
pub const GAME_LIMIT: usize = 10;

#[derive(Clone, Copy, Debug, PartialEq, Eq)]
pub enum Player {
    Winder,
    Blocker,
}

impl Player {
    pub fn other(self) -> Player {
        match self {
            Player::Winder => Player::Blocker,
            Player::Blocker => Player::Winder,
        }
    }

    /// The byte of this player's edges in a position.
    pub fn byte(self) -> u8 {
        match self {
            Player::Winder => 1,
            Player::Blocker => 2,
        }
    }
}

/// Who can force the win and, if it is the player to move, the smallest edge that keeps it.
#[derive(Clone, Copy, Debug, PartialEq, Eq)]
pub struct Game {
    pub winner: Player,
    pub edge: Option<usize>,
}

/// The game from a position, or a refusal.
pub fn game(board: &Board, position: &[u8]) -> Result<Game, Refusal> {
    refusal::game(board, position)?;
    Ok(Solved::new(board).game(position))
}

/// A board of at most ten edges, with what is to be said of each of its positions.
///
/// A position has a number, of which its bytes are the digits in base three, edge 0 the lowest. Taking
/// an edge makes the number larger.
pub struct Solved {
    /// At each position's number; none where moves in turn don't lead to it.
    games: Vec<Option<Game>>,
}

impl Solved {
    /// The board is one that the game doesn't refuse.
    pub fn new(board: &Board) -> Solved {
        let loops = winding_loops(board);
        let mut games = vec![None; power(board.edges())];
        for (number, position) in all_positions(board.edges()).enumerate().rev() {
            games[number] = to_move(&position).map(|player| {
                from_replies(&loops, &position, player, |byte, edge| {
                    games[number + usize::from(byte) * power(edge)]
                })
            });
        }
        Solved { games }
    }

    /// What is to be said of a position that the game doesn't refuse.
    pub fn game(&self, position: &[u8]) -> Game {
        let digit = |(edge, &byte): (usize, &u8)| usize::from(byte) * power(edge);
        let number: usize = position.iter().enumerate().map(digit).sum();
        self.games[number].expect("a position that moves in turn lead to")
    }
}

/// How many positions so many edges have.
fn power(edges: usize) -> usize {
    3_usize.pow(edges as u32)
}

/// All positions of so many edges in the order of their numbers, also those that moves in turn don't lead
/// to.
pub fn all_positions(edges: usize) -> impl DoubleEndedIterator<Item = Vec<u8>> + ExactSizeIterator {
    let digits = move |number: usize| {
        (0..edges).map(|edge| (number / power(edge) % 3) as u8).collect::<Vec<u8>>()
    };
    (0..power(edges)).map(digits)
}

/// The edges of one byte, as bits.
fn bits(position: &[u8], byte: u8) -> usize {
    let bit = |(edge, &own): (usize, &u8)| if own == byte { 1 << edge } else { 0 };
    position.iter().enumerate().map(bit).sum()
}

/// Winder moves first, so she is to move where both have as many edges, and Blocker where she has one
/// more. Moves in turn lead to no other position.
pub fn to_move(position: &[u8]) -> Option<Player> {
    let [winder, blocker] = [1, 2].map(|byte| bits(position, byte).count_ones());
    match winder.checked_sub(blocker) {
        Some(0) => Some(Player::Winder),
        Some(1) => Some(Player::Blocker),
        _ => None,
    }
}

/// The game from a position, by what is known of those in which one more edge has this player's byte.
fn from_replies(
    loops: &[usize],
    position: &[u8],
    player: Player,
    reply: impl Fn(u8, usize) -> Option<Game>,
) -> Game {
    let held = bits(position, Player::Winder.byte());
    if loops.iter().any(|set| set & !held == 0) {
        return Game { winner: Player::Winder, edge: None };
    }
    let mut free = (0..position.len()).filter(|&edge| position[edge] == 0).peekable();
    if free.peek().is_none() {
        return Game { winner: Player::Blocker, edge: None };
    }
    let keeps =
        |&edge: &usize| reply(player.byte(), edge).is_some_and(|game| game.winner == player);
    match free.find(keeps) {
        Some(edge) => Game { winner: player, edge: Some(edge) },
        None => Game { winner: player.other(), edge: None },
    }
}

/// All winding loops, each as the bits of its edges. A set is closed where each end of its edges is
/// open or is an end of them an even number of times; a loop edge has its vertex for two ends.
fn winding_loops(board: &Board) -> Vec<usize> {
    let edges: Vec<([u16; 2], u8)> = board
        .ends
        .chunks_exact(2)
        .map(|ends| [ends[0], ends[1]])
        .zip(board.marks.clone())
        .collect();
    let winds = |set: &usize| {
        let own: Vec<_> = (0..edges.len()).filter(|edge| set >> edge & 1 == 1).collect();
        let ends: Vec<u16> = own.iter().flat_map(|&edge| edges[edge].0).collect();
        let even = |end: &u16| ends.iter().filter(|&other| other == end).count() % 2 == 0;
        let closed = ends.iter().all(|end| board.open[usize::from(*end)] == 1 || even(end));
        closed && own.iter().fold(0, |marks, &edge| marks ^ edges[edge].1) != 0
    };
    (0..1 << edges.len()).filter(winds).collect()
}
