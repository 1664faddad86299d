//! Document 02, K11: who can force the win, by hand, from every position of small boards, and from many
//! of larger ones.

use reference::Random;
use reference::board::Board;
use reference::game::Solved;
use reference::generators::{crowd, crowd_with_loops, path, ring};
use reference::planar::planar;
use reference::torus::torus;
use table::Game;
use table::Player::{self, Blocker, Winder};
use table_tests::few_edges::{drawn_board, small_boards, spread};
use table_tests::game::{drawn_position, game, positions, solved};

fn said(board: &Board, position: &[u8]) -> (Player, Option<usize>) {
    let Game { winner, edge } = game(board, position).expect("a position that is not refused");
    (winner, edge)
}

/// The edge in the middle winds with each of the others.
#[test]
fn edges_side_by_side() {
    let board = Board::new(2, &[(0, 1, 0), (0, 1, 1), (1, 0, 0)]);
    assert_eq!(said(&board, &[0, 0, 0]), (Winder, Some(1)));
    assert_eq!(said(&board, &[1, 0, 0]), (Blocker, Some(1)));
    assert_eq!(said(&board, &[0, 1, 0]), (Winder, None));
    assert_eq!(said(&board, &[2, 1, 0]), (Winder, Some(2)));
    assert_eq!(said(&board, &[0, 1, 2]), (Winder, Some(0)));
    assert_eq!(said(&board, &[1, 2, 0]), (Blocker, None));
    assert_eq!(said(&board, &[1, 2, 1]), (Blocker, None), "finished");
    assert_eq!(said(&board, &[1, 1, 2]), (Winder, None), "finished");
    let pair = Board::new(2, &[(0, 1, 0), (0, 1, 1)]);
    assert_eq!(said(&pair, &[0, 0]), (Blocker, None));
    assert_eq!(said(&pair, &[0, 1]), (Blocker, Some(0)));
}

/// Blocker needs one edge of the ring. With two vertices open it falls into two ways from one to the
/// other, of which the second winds.
#[test]
fn on_the_ring() {
    assert_eq!(said(&ring(), &[0; 4]), (Blocker, None));
    assert_eq!(said(&ring(), &[1, 0, 0, 0]), (Blocker, Some(1)));
    assert_eq!(said(&ring(), &[0, 0, 1, 0]), (Blocker, Some(0)));
    assert_eq!(said(&ring(), &[1, 2, 1, 0]), (Blocker, Some(3)), "safe, but not finished");
    let sides = ring().with_open(&[0, 2]);
    assert_eq!(said(&sides, &[0; 4]), (Blocker, None));
    assert_eq!(said(&sides, &[0, 0, 1, 0]), (Blocker, Some(3)));
    assert_eq!(said(&sides, &[2, 0, 1, 0]), (Winder, Some(3)));
    assert_eq!(said(&sides, &[2, 0, 1, 1]), (Winder, None), "finished");
    assert_eq!(said(&sides, &[2, 2, 1, 1]), (Winder, None), "finished, and no edge is free");
}

#[test]
fn on_tori_and_planar_boards() {
    assert_eq!(said(&torus(1), &[0, 0]), (Winder, Some(0)));
    assert_eq!(said(&torus(1), &[0, 1]), (Winder, None));
    assert_eq!(said(&torus(1), &[2, 1]), (Winder, None));
    assert_eq!(said(&torus(2), &[0; 8]), (Winder, Some(0)));
    assert_eq!(said(&planar(2), &[0; 5]), (Winder, Some(0)));
    // Beside edge 0 Winder needs edge 1, or edge 4, down the column, and edge 3. Edges 2 and 3 wind too.
    assert_eq!(said(&planar(2), &[1, 0, 0, 0, 0]), (Winder, None));
    assert_eq!(said(&planar(2), &[1, 2, 0, 0, 0]), (Winder, Some(3)));
    assert_eq!(said(&planar(2), &[1, 2, 0, 2, 1]), (Blocker, None));
}

/// A loop edge with a mark wins by itself: the position is finished once Winder has it, whatever else she
/// has, whichever edges are free, and whoever is to move.
#[test]
fn finished_by_winder() {
    let loops = Board::new(1, &[(0, 0, 0), (0, 0, 2), (0, 0, 0), (0, 0, 0)]);
    assert_eq!(said(&loops, &[0; 4]), (Winder, Some(1)));
    for position in [[0, 1, 0, 0], [0, 1, 0, 2], [1, 1, 0, 2], [1, 1, 2, 2], [2, 1, 2, 1]] {
        assert_eq!(said(&loops, &position), (Winder, None), "{position:?}");
    }
    assert_eq!(said(&loops, &[1, 0, 0, 0]), (Blocker, Some(1)));
    for position in [[0, 2, 1, 0], [1, 2, 0, 0], [1, 2, 2, 1]] {
        assert_eq!(said(&loops, &position), (Blocker, None), "{position:?}");
    }
    // Her edges are the ring and a chord, which are no loop as one set.
    let mut ring = ring();
    ring.ends.extend([0, 2, 0, 2, 0, 3, 1, 3, 1, 2]);
    ring.marks.extend([0; 5]);
    assert_eq!(said(&ring, &[1, 1, 1, 1, 1, 2, 2, 2, 2]), (Winder, None));
}

/// Where no loop winds Blocker wins, whatever is taken.
#[test]
fn without_a_winding_loop() {
    for board in [Board::new(1, &[]), Board::new(1024, &[]).with_open(&[3])] {
        assert_eq!(said(&board, &[]), (Blocker, None));
    }
    let unmarked = Board { marks: vec![0; 4], ..ring() };
    for board in [path(5), path(5).with_open(&[0, 4]), unmarked] {
        for position in positions(4) {
            let taken = position.iter().filter(|&&byte| byte != 0).count();
            let free = position.iter().position(|&byte| byte == 0);
            let edge = if taken % 2 == 1 { free } else { None };
            assert_eq!(said(&board, &position), (Blocker, edge), "{position:?}");
        }
    }
}

/// How many positions were seen of each kind: won by Winder or by Blocker; with an edge shown or not; by
/// whose move it is; and with a free edge or without.
#[derive(Debug, Default)]
struct Seen {
    kinds: [[usize; 8]; 2],
    positions: usize,
}

impl Seen {
    fn count(&mut self, position: &[u8], game: Game) {
        let taken = position.iter().filter(|&&byte| byte != 0).count();
        let winders = usize::from(taken % 2 == 0);
        let free = usize::from(taken < position.len());
        let kind = 4 * usize::from(game.edge.is_some()) + 2 * winders + free;
        self.kinds[usize::from(game.winner == Blocker)][kind] += 1;
        self.positions += 1;
    }

    /// Every kind that there can be was seen so often, and no other. An edge is shown where one is free
    /// and the winner is to move; else none is, and the other is to move or the game is finished.
    fn hold(&self, often: usize) {
        println!("{self:?}");
        let possible = [[0, 1, 2, 3, 7].as_slice(), &[0, 2, 3, 5]];
        for (kinds, possible) in self.kinds.iter().zip(possible) {
            for (kind, &count) in kinds.iter().enumerate() {
                let as_often = if possible.contains(&kind) { count > often } else { count == 0 };
                assert!(as_often, "kind {kind}: {self:?}");
            }
        }
    }
}

/// All positions of a board.
fn all_positions(board: &Board, seen: &mut Seen) {
    let known = Solved::new(board);
    for position in positions(board.edges()) {
        seen.count(&position, solved(board, &known, &position));
    }
}

#[test]
fn all_positions_of_small_boards() {
    let mut seen = Seen::default();
    for board in small_boards() {
        all_positions(&board, &mut seen);
    }
    seen.hold(50);
}

/// Boards with any number of edges up to eight, loop edges and open vertices among them.
#[test]
fn all_positions_of_random_boards() {
    let mut random = Random::new(501);
    let mut seen = Seen::default();
    for round in 0..600 {
        all_positions(&drawn_board(&mut random, round % 9), &mut seen);
    }
    // In turn, 0 to 8 edges have 1, 2, 5, 13, 35, 96, 267, 750 and 2,123 positions.
    assert_eq!(seen.positions, 600 / 9 * 3292 + (1 + 2 + 5 + 13 + 35 + 96));
    seen.hold(1000);
}

/// Boards with nine and ten edges: the position in which nothing is taken, and some others.
#[test]
fn nine_and_ten_edges() {
    let mut random = Random::new(502);
    let mut seen = Seen::default();
    let mut winners = [0; 2];
    for round in 0..300 {
        let edges = 9 + round % 2;
        let board = drawn_board(&mut random, edges);
        let known = Solved::new(&board);
        let first = solved(&board, &known, &vec![0; edges]);
        winners[usize::from(first.winner == Blocker)] += 1;
        for _ in 0..40 {
            let position = drawn_position(&mut random, edges);
            seen.count(&position, solved(&board, &known, &position));
        }
    }
    println!("winners from the start: {winners:?}");
    assert!(winners.iter().all(|&count| count > 50), "{winners:?}");
    seen.hold(100);
}

/// The vertices of a small board far apart among as many as there may be: the same is said, whichever of
/// the others are open.
#[test]
fn most_vertices() {
    let mut random = Random::new(503);
    for round in 0..200 {
        let board = drawn_board(&mut random, 1 + round % 10);
        let wide = spread(&mut random, &board);
        let known = Solved::new(&wide);
        for _ in 0..20 {
            let position = drawn_position(&mut random, board.edges());
            let game = solved(&wide, &known, &position);
            assert_eq!(solved(&board, &known, &position), game);
        }
    }
}

/// Ten edges anywhere among as many vertices as there may be, which are next to never joined: a loop is a
/// loop edge, or a way between open vertices.
#[test]
fn most_vertices_anywhere() {
    let mut random = Random::new(504);
    let mut winners = [0; 2];
    for round in 0..100 {
        let open = random.set(1024, [0, 500][round % 2]);
        let board = match round % 4 {
            0 | 1 => crowd_with_loops(&mut random, 1024, 10),
            _ => crowd(&mut random, 1024, 10),
        };
        let board = Board { open, ..board };
        let first = game(&board, &[0; 10]).expect("a position that is not refused");
        winners[usize::from(first.winner == Blocker)] += 1;
    }
    assert!(winners.iter().all(|&count| count > 10), "{winners:?}");
}
