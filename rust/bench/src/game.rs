//! The sixth table: the game of Winder and Blocker on boards of ten edges, from the start, where most is to
//! be looked at.

use std::hint::black_box;

use reference::board::Board;
use reference::game::{self as plain, GAME_LIMIT};
use reference::generators::{crowd, crowd_with_loops, opened, path};
use reference::{Random, Sheet};
use table_bench::sheets::lent;

use crate::timing::{RUNS, best};

const SEED: u64 = 305;

/// How many random boards there are.
const BOARDS: usize = 1000;

pub fn table() {
    println!(
        "game from the start, {GAME_LIMIT} edges, microseconds for a call, best of {RUNS} runs"
    );
    println!("                       board      time");
    for (name, board) in boards() {
        println!("{name:>28} {:>9.2}", time(&board));
    }
    let times: Vec<f64> = random_boards().iter().map(time).collect();
    let mean = times.iter().sum::<f64>() / BOARDS as f64;
    let slowest = times.iter().copied().fold(0.0, f64::max);
    println!("{:>28} {mean:>9.2}", format!("{BOARDS} at random, mean"));
    println!("{:>28} {slowest:>9.2}", format!("{BOARDS} at random, slowest"));
}

/// The time of a board from the start. What is said is compared before it is taken.
fn time(board: &Board) -> f64 {
    let sheet = Sheet::new(board.clone(), &[], &[]);
    let start = [0; GAME_LIMIT];
    let said = table::game(lent(&sheet).board, &start).map(|game| {
        let winner = match game.winner {
            table::Player::Winder => plain::Player::Winder,
            table::Player::Blocker => plain::Player::Blocker,
        };
        plain::Game { winner, edge: game.edge }
    });
    assert_eq!(said.ok(), plain::game(board, &start).ok(), "{board:?}");
    best(1, || {
        let answer = table::game(lent(&sheet).board, &start);
        assert!(black_box(answer).is_ok());
    })
}

/// Boards that somebody drew.
fn boards() -> Vec<(&'static str, Board)> {
    let around = |edge: u16| (edge, (edge + 1) % 10, u8::from(edge == 9));
    let ring: Vec<_> = (0..10).map(around).collect();
    let pairs: Vec<_> = (0..10).map(|edge| (edge / 2, 5 + edge / 2, (edge % 2) as u8)).collect();
    let side_by_side: Vec<_> = (0..10).map(|edge| (0, 1, u8::from(edge == 9))).collect();
    let among_five = (0..5).flat_map(|a| (0..a).map(move |b| (b, a, u8::from(a == 1))));
    vec![
        ("path, no loop winds", path(11)),
        ("ring", Board::new(10, &ring)),
        ("five pairs", Board::new(10, &pairs)),
        ("side by side", Board::new(2, &side_by_side)),
        ("all joined, five vertices", Board::new(5, &among_five.collect::<Vec<_>>())),
        ("the slowest known", slowest_known()),
    ]
}

/// Of some ninety thousand boards that were tried by climbing from board to board, the one with most
/// positions to look at where edges are tried from the smallest on. The last edge wins, after all others
/// were tried.
fn slowest_known() -> Board {
    let ends = [3, 1, 4, 1, 4, 3, 0, 5, 1, 5, 4, 2, 2, 3, 6, 3, 3, 0, 3, 6];
    let board = Board::new(7, &[]).with_open(&[0, 2, 6]);
    Board { ends: ends.to_vec(), marks: vec![0, 1, 1, 3, 1, 3, 2, 2, 2, 1], ..board }
}

/// One to eight vertices, some boards with loop edges, and some with open vertices.
fn random_boards() -> Vec<Board> {
    let mut random = Random::new(SEED);
    let board = |number: usize| {
        let vertices = random.from_to(1, 8);
        let board = match number % 2 {
            0 => crowd(&mut random, vertices, GAME_LIMIT),
            _ => crowd_with_loops(&mut random, vertices, GAME_LIMIT),
        };
        if number.is_multiple_of(3) { opened(&mut random, board) } else { board }
    };
    (0..BOARDS).map(board).collect()
}
