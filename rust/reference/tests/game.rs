//! Document 02, K11: the positions of a board, looked up one in another, against playing every line out;
//! positions by hand; and what the game refuses.

use reference::board::{Board, set_of};
use reference::game::{Game, Player, Solved, all_positions, game, to_move};
use reference::generators::{crowd, crowd_with_loops, opened, path};
use reference::planar::planar;
use reference::torus::torus;
use reference::{Random, Refusal};

/// Plays every line out. Winder's edges are the members of a position as a set.
fn played(board: &Board, position: &[u8], player: Player) -> Game {
    if board.contains_winding_loop(position) {
        return Game { winner: Player::Winder, edge: None };
    }
    if !position.contains(&0) {
        return Game { winner: Player::Blocker, edge: None };
    }
    for edge in (0..position.len()).filter(|&edge| position[edge] == 0) {
        let mut next = position.to_vec();
        next[edge] = player.byte();
        if played(board, &next, player.other()).winner == player {
            return Game { winner: player, edge: Some(edge) };
        }
    }
    Game { winner: player.other(), edge: None }
}

/// Every position of a board, played out.
fn play_all(board: &Board) -> usize {
    let solved = Solved::new(board);
    let mut positions = 0;
    for position in all_positions(board.edges()) {
        let said = game(board, &position);
        match to_move(&position) {
            Some(player) => {
                let play = played(board, &position, player);
                assert_eq!(said, Ok(play), "{position:?} on {board:?}");
                assert_eq!(solved.game(&position), play, "{position:?} on {board:?}");
                positions += 1;
            }
            None => assert_eq!(said, Err(Refusal { number: 22, place: 0 }), "{position:?}"),
        }
    }
    positions
}

#[test]
fn looked_up_as_played() {
    let mut random = Random::new(71);
    assert_eq!(play_all(&planar(2)), 96);
    assert_eq!(play_all(&torus(1)), 5);
    for round in 0..120 {
        let (vertices, edges) = (random.from_to(1, 5), round % 6);
        let board = match round % 2 {
            0 => crowd(&mut random, vertices, edges),
            _ => crowd_with_loops(&mut random, vertices, edges),
        };
        play_all(&if round % 3 == 0 { opened(&mut random, board) } else { board });
    }
}

fn said(board: &Board, position: &[u8]) -> (Player, Option<usize>) {
    let Game { winner, edge } = game(board, position).expect("a position that is not refused");
    (winner, edge)
}

/// Two edges in a row, the second with a mark: both wind together where the ends of the path are open, and
/// the second alone where the vertex between is too. More positions by hand are in the library's tests,
/// where what is said here is compared.
#[test]
fn by_hand() {
    let mut marked = path(3).with_open(&[0, 2]);
    marked.marks[1] = 2;
    assert_eq!(said(&marked, &[0, 0]), (Player::Blocker, None));
    assert_eq!(said(&marked, &[0, 1]), (Player::Blocker, Some(0)));
    assert_eq!(said(&marked.with_open(&[0, 1, 2]), &[0, 0]), (Player::Winder, Some(1)));
}

/// Ten edges in pairs, each of them a loop: Blocker must reply in the pair of which Winder took an edge. If
/// not, she wins by any edge of a pair that is hers or free, since with two pairs open one is left to her.
#[test]
fn ten_edges() {
    let edges: Vec<_> = (0..10).map(|edge| (edge / 2, 5 + edge / 2, (edge % 2) as u8)).collect();
    let pairs = Board::new(10, &edges);
    assert_eq!(said(&pairs, &[0; 10]), (Player::Blocker, None));
    for edge in 0..10 {
        let mut position = set_of(10, &[edge]);
        assert_eq!(said(&pairs, &position), (Player::Blocker, Some(edge ^ 1)));
        let elsewhere = (edge + 2) % 10;
        position[elsewhere] = 2;
        let smallest = (0..10).find(|&other| other != edge && other / 2 != elsewhere / 2);
        assert_eq!(said(&pairs, &position), (Player::Winder, smallest));
        position[edge ^ 1] = 1;
        assert_eq!(said(&pairs, &position), (Player::Winder, None));
    }
}

/// 1, 2, 3, 4, 6 and 16, then 20, 21 and 22.
#[test]
fn refusals() {
    let refused = |board: &Board, position: &[u8]| {
        let Refusal { number, place } = game(board, position).expect_err("a refusal");
        (number, place)
    };
    let edges = vec![(0, 3, 4); 11];
    let mut board = Board { vertices: 1025, open: vec![0, 2, 2], ..Board::new(3, &edges) };
    board.ends.push(0);
    let mut position = vec![1, 1, 0, 3, 0, 0, 0, 0, 0, 4];
    assert_eq!(refused(&board, &position), (1, 0));
    board.vertices = 3;
    assert_eq!(refused(&board, &position), (2, 0));
    board.ends.pop();
    assert_eq!(refused(&board, &position), (3, 0));
    position.push(0);
    assert_eq!(refused(&board, &position), (4, 0));
    board.ends.fill(1);
    assert_eq!(refused(&board, &position), (6, 0));
    board.marks.fill(3);
    assert_eq!(refused(&board, &position), (16, 1));
    board.open.fill(1);
    assert_eq!(refused(&board, &position), (20, 0));
    board.ends.truncate(20);
    assert_eq!(refused(&board, &position), (3, 0));
    board.marks.pop();
    position.pop();
    assert_eq!(refused(&board, &position), (21, 3));
    position[3] = 0;
    assert_eq!(refused(&board, &position), (21, 9));
    position[9] = 0;
    assert_eq!(refused(&board, &position), (22, 0));
    position[9] = 2;
    assert!(game(&board, &position).is_ok());
}
