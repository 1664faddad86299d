//! Document 02, K11, by play: what the library says of a position is held to what it says of those that
//! a move leads to, and its edges beat every line of play. No other program says who wins.

use std::collections::{HashMap, HashSet};

use reference::Random;
use reference::board::Board;
use table::{Game, Player};
use table_tests::few_edges::{drawn_board, small_boards};
use table_tests::game::{drawn_position, positions, take};
use table_tests::library;

/// Winder moves first, then they take turns.
fn to_move(position: &[u8]) -> Player {
    match position.iter().filter(|&&byte| byte != 0).count() % 2 {
        0 => Player::Winder,
        _ => Player::Blocker,
    }
}

fn other(player: Player) -> Player {
    match player {
        Player::Winder => Player::Blocker,
        Player::Blocker => Player::Winder,
    }
}

fn byte_of(player: Player) -> u8 {
    match player {
        Player::Winder => 1,
        Player::Blocker => 2,
    }
}

/// The free edges, each with the position once the player to move has taken it.
fn moves(position: &[u8]) -> Vec<(usize, Vec<u8>)> {
    let byte = byte_of(to_move(position));
    let taken = |edge: usize| {
        let mut next = position.to_vec();
        next[edge] = byte;
        (edge, next)
    };
    (0..position.len()).filter(|&edge| position[edge] == 0).map(taken).collect()
}

/// The winner of a finished position: some of Winder's edges, the members of a position as a set, wind, or
/// no edge is free.
fn finished(board: &Board, position: &[u8]) -> Option<Player> {
    if board.contains_winding_loop(position) {
        return Some(Player::Winder);
    }
    if position.contains(&0) { None } else { Some(Player::Blocker) }
}

/// The player to move wins by the smallest edge after which that player still wins, and loses where
/// there is none; a finished position has its winner and no edge.
fn hold_by_replies(board: &Board) {
    let said: HashMap<Vec<u8>, Game> = positions(board.edges())
        .map(|position| {
            let game = library::game(board, &position);
            (position, game)
        })
        .collect();
    for (position, &game) in &said {
        let player = to_move(position);
        let keeps = |(_, next): &(usize, Vec<u8>)| said[next].winner == player;
        let must = match finished(board, position) {
            Some(winner) => Game { winner, edge: None },
            None => match moves(position).into_iter().find(keeps) {
                Some((edge, _)) => Game { winner: player, edge: Some(edge) },
                None => Game { winner: other(player), edge: None },
            },
        };
        assert_eq!(game, must, "{position:?} on {board:?}");
    }
}

#[test]
fn answers_by_replies() {
    small_boards().iter().for_each(hold_by_replies);
    let mut random = Random::new(511);
    for round in 0..300 {
        hold_by_replies(&drawn_board(&mut random, round % 9));
    }
}

/// Plays on from a position: the winner takes the edge that is shown, the other every free edge. The same
/// winner must be named in every position on the way, and each line must end with that win. A position
/// that was seen is not gone on from again: what is named there is the winner that it was gone on with.
fn follow(board: &Board, position: Vec<u8>, winner: Player, seen: &mut HashSet<Vec<u8>>) {
    let game = library::game(board, &position);
    assert_eq!(game.winner, winner, "another winner on the way: {position:?} on {board:?}");
    if !seen.insert(position.clone()) {
        return;
    }
    if let Some(won) = finished(board, &position) {
        assert_eq!(won, winner, "{position:?} on {board:?}");
        return;
    }
    let shown = |edge: usize| to_move(&position) != winner || game.edge == Some(edge);
    let replies: Vec<_> = moves(&position).into_iter().filter(|&(edge, _)| shown(edge)).collect();
    assert!(!replies.is_empty(), "no edge is shown: {position:?} on {board:?}");
    for (_, next) in replies {
        follow(board, next, winner, seen);
    }
}

/// Every line of play from the start, and from each position after one move and after two.
fn hold_by_play(board: &Board) -> usize {
    let mut seen = HashSet::new();
    for position in positions(board.edges()) {
        if position.iter().filter(|&&byte| byte != 0).count() <= 2 {
            let winner = library::game(board, &position).winner;
            follow(board, position, winner, &mut seen);
        }
    }
    seen.len()
}

#[test]
fn shown_edges_beat_every_line() {
    let mut seen: usize = small_boards().iter().map(hold_by_play).sum();
    let mut random = Random::new(512);
    for round in 0..300 {
        seen += hold_by_play(&drawn_board(&mut random, 1 + round % 8));
    }
    println!("{seen} positions");
    assert!(seen > 50_000, "{seen}");
}

/// Games on ten edges, in which the loser takes any free edge.
#[test]
fn games_on_ten_edges() {
    let mut random = Random::new(513);
    let mut won = [0; 2];
    for round in 0..400 {
        let board = drawn_board(&mut random, 10);
        let mut position =
            if round % 2 == 0 { vec![0; 10] } else { drawn_position(&mut random, 10) };
        let winner = library::game(&board, &position).winner;
        while finished(&board, &position).is_none() {
            let player = to_move(&position);
            if player == winner {
                let edge = library::game(&board, &position).edge.expect("an edge is shown");
                assert_eq!(position[edge], 0, "edge {edge} is taken: {position:?} on {board:?}");
                position[edge] = byte_of(player);
            } else {
                take(&mut position, &mut random, byte_of(player));
            }
        }
        assert_eq!(finished(&board, &position), Some(winner), "{position:?} on {board:?}");
        won[usize::from(byte_of(winner)) - 1] += 1;
    }
    assert!(won.iter().all(|&count| count > 50), "{won:?}");
}
