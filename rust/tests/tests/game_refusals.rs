//! Document 02, K11: what the game refuses, each number at its limits, and which one where several rules
//! are broken. Every comparison holds that nothing is written.

use reference::Random;
use reference::board::Board;
use reference::game::all_positions;
use reference::generators::{Kind, crowd, opened, path};
use table_tests::few_edges::drawn_board;
use table_tests::game::{drawn_position, game};
use table_tests::refused::refused;

/// The board of a game that is not refused, with as many edges as it may have and two vertices more than
/// these need.
fn longest_path() -> Board {
    Board { vertices: 13, open: vec![0; 13], ..path(11) }
}

/// Numbers 1, 2, 4, 6 and 16 are those of all calls that are lent a board; here beside positions of the
/// right length and others.
#[test]
fn numbers_of_the_board() {
    let right = longest_path();
    let refusal = |change: &dyn Fn(&mut Board)| {
        let mut board = right.clone();
        change(&mut board);
        let edges = board.edges();
        refused(game(&board, &vec![0; edges]))
    };
    assert!(game(&right, &[0; 10]).is_ok(), "nothing is refused");
    for vertices in [0, 1025, 1 << 16, (1 << 16) + 13, (1 << 32) + 13, usize::MAX] {
        assert_eq!(refusal(&|board| board.vertices = vertices), (1, 0), "{vertices}");
    }
    for ends in [1, 19, 21, 8191, 8193, 8194] {
        assert_eq!(refusal(&|board| board.ends.resize(ends, 0)), (2, 0), "{ends}");
    }
    for edge in 0..10 {
        for end in [2 * edge, 2 * edge + 1] {
            for wrong in [13, 14, 1024, 65_535] {
                assert_eq!(refusal(&|board| board.ends[end] = wrong), (4, edge as u64));
            }
        }
        for mark in [4, 5, 7, 8, 128, 255] {
            assert_eq!(refusal(&|board| board.marks[edge] = mark), (6, edge as u64));
        }
    }
    for vertex in 0..13 {
        for byte in [2, 3, 128, 255] {
            assert_eq!(refusal(&|board| board.open[vertex] = byte), (16, vertex as u64));
        }
    }
}

/// Number 3 for each of the three buffers, on boards of any number of edges.
#[test]
fn number_3() {
    for edges in 0..=12 {
        let right = Board::new(2, &vec![(0, 1, 1); edges]);
        for wrong in (0..=edges + 2).chain([256 + edges, 65_536 + edges]) {
            let played = game(&right, &vec![0; wrong]);
            match (wrong == edges, edges <= 10) {
                (true, true) => assert!(played.is_ok(), "{edges}"),
                (true, false) => assert_eq!(refused(played), (20, 0), "{edges}"),
                (false, _) => assert_eq!(refused(played), (3, 0), "{wrong} for {edges}"),
            }
            if wrong != edges {
                let marks = Board { marks: vec![1; wrong], ..right.clone() };
                assert_eq!(refused(game(&marks, &vec![0; edges])), (3, 0), "{wrong} for {edges}");
                assert_eq!(refused(game(&marks, &vec![0; wrong])), (3, 0), "{wrong} for {edges}");
            }
            if wrong != 2 {
                let open = Board { open: vec![0; wrong], ..right.clone() };
                assert_eq!(refused(game(&open, &vec![0; edges])), (3, 0), "{wrong} for 2");
            }
        }
    }
}

/// Number 20 from 11 edges on, whatever is taken; ten are played on, whatever the vertices.
#[test]
fn number_20() {
    let mut random = Random::new(521);
    for vertices in [1, 2, 10, 11, 12, 100, 1024] {
        for edges in [9, 10] {
            let board = crowd(&mut random, vertices, edges);
            assert!(game(&board, &vec![0; edges]).is_ok(), "nothing is refused");
            let position = drawn_position(&mut random, edges);
            assert!(game(&board, &position).is_ok(), "nothing is refused");
        }
        for edges in [11, 12, 16, 64, 266, 4095, 4096] {
            let board = crowd(&mut random, vertices, edges);
            assert_eq!(refused(game(&board, &vec![0; edges])), (20, 0), "{edges}");
            let position = drawn_position(&mut random, edges);
            assert_eq!(refused(game(&board, &position)), (20, 0), "{edges}");
            assert_eq!(refused(game(&board, &vec![3; edges])), (20, 0), "20 before 21");
            assert_eq!(refused(game(&board, &vec![1; edges])), (20, 0), "20 before 22");
        }
    }
}

/// Number 21 at every edge, and at the smallest of several; with the counts right but for that edge, and
/// with counts that no moves lead to. Bytes up to 2 pass.
#[test]
fn number_21() {
    let board = longest_path();
    for edge in 0..10 {
        for byte in [3, 4, 5, 128, 129, 130, 254, 255] {
            let mut position = vec![0; 10];
            position[edge] = byte;
            assert_eq!(refused(game(&board, &position)), (21, edge as u64), "{byte}");
            position[9] = byte;
            assert_eq!(refused(game(&board, &position)), (21, edge as u64), "the smallest");
            position[edge..].fill(255);
            assert_eq!(refused(game(&board, &position)), (21, edge as u64), "the smallest");
            for taken in [1, 2] {
                let mut position = vec![taken; 10];
                position[edge] = byte;
                assert_eq!(refused(game(&board, &position)), (21, edge as u64), "21 before 22");
            }
        }
        let mut position = vec![0; 10];
        position[edge] = 1;
        assert!(game(&board, &position).is_ok(), "Winder's first move");
        position[(edge + 3) % 10] = 2;
        assert!(game(&board, &position).is_ok(), "Blocker's first move");
        position[edge] = 0;
        assert_eq!(refused(game(&board, &position)), (22, 0), "Blocker's edge alone");
    }
}

/// Number 22 in every position of up to six edges, by how many edges each player has.
#[test]
fn number_22() {
    let (mut passed, mut seen) = (0, 0);
    for edges in 0..=6 {
        let board = path(edges + 1);
        for position in all_positions(edges) {
            let played = game(&board, &position);
            let [winder, blocker] =
                [1, 2].map(|of| position.iter().filter(|&&by| by == of).count());
            if blocker <= winder && winder <= blocker + 1 {
                assert!(played.is_ok(), "{position:?}");
                passed += 1;
            } else {
                assert_eq!(refused(played), (22, 0), "{position:?}");
                seen += 1;
            }
        }
    }
    assert_eq!((passed, seen), (419, 1093 - 419));
}

/// The counts of ten edges, as far as they go: those of the two players that pass, and no others.
#[test]
fn number_22_of_ten_edges() {
    let board = longest_path();
    for winder in 0..=10 {
        for blocker in 0..=10 - winder {
            let mut position = [vec![1; winder], vec![2; blocker]].concat();
            position.resize(10, 0);
            for _ in 0..2 {
                let played = game(&board, &position);
                match winder == blocker || winder == blocker + 1 {
                    true => assert!(played.is_ok(), "{position:?}"),
                    false => assert_eq!(refused(played), (22, 0), "{position:?}"),
                }
                position.reverse();
            }
        }
    }
}

/// The tests of the game, in order, each with what it refuses with below.
const TESTS: [(u8, u64); 9] =
    [(1, 0), (2, 0), (3, 0), (4, 8), (6, 7), (16, 12), (20, 0), (21, 9), (22, 0)];

/// A board and a position on which each test is broken that a bit stands for. Where number 3 is, one of
/// three buffers has a wrong length: each in turn, too short or too long.
fn broken_game(broken: usize, wrong: usize) -> (Board, Vec<u8>) {
    let (mut board, mut position) = (longest_path(), vec![0; 10]);
    let breaks: [fn(&mut Board, &mut Vec<u8>); 9] = [
        |board, _| board.vertices = 1025,
        |board, _| board.ends.push(0),
        |_, _| {},
        |board, _| board.ends[17] = 1025,
        |board, _| board.marks[7] = 4,
        |board, _| board.open[12] = 2,
        |board, position| {
            board.ends.extend([0, 0]);
            board.marks.push(0);
            position.push(0);
        },
        |_, position| position[9] = 3,
        |_, position| position[..2].fill(1),
    ];
    for (test, change) in breaks.iter().enumerate() {
        if broken >> test & 1 == 1 {
            change(&mut board, &mut position);
        }
    }
    if broken >> 2 & 1 == 1 {
        let other = |right: usize| right - 1 + 2 * (wrong % 2);
        match wrong / 2 {
            0 => board.marks.resize(other(board.marks.len()), 0),
            1 => board.open.resize(other(13), 0),
            _ => position.resize(other(position.len()), 0),
        }
    }
    (board, position)
}

/// Every choice of the nine tests broken together: the first of them refuses.
#[test]
fn in_order() {
    for broken in 0_usize..1 << TESTS.len() {
        for wrong in 0..if broken >> 2 & 1 == 1 { 6 } else { 1 } {
            let (board, position) = broken_game(broken, wrong);
            let played = game(&board, &position);
            match TESTS.get(broken.trailing_zeros() as usize) {
                Some(&first) => assert_eq!(refused(played), first, "{position:?} on {board:?}"),
                None => assert!(played.is_ok(), "{position:?} on {board:?}"),
            }
        }
    }
}

/// Breaks one rule at random, or none.
fn break_a_rule(random: &mut Random, board: &mut Board, position: &mut Vec<u8>) {
    let vertex = random.below(board.open.len().max(1));
    let edge = random.below(board.marks.len().max(1));
    match random.below(12) {
        0 => board.vertices = [0, 1025, vertex, board.vertices + 1][random.below(4)],
        1 => board.ends.push(0),
        2 => board.marks.resize(edge, 1),
        3 => position.push(0),
        4 => board.ends.iter_mut().take(2 * edge + 1).for_each(|end| *end += 60),
        5 => board.marks.iter_mut().take(edge + 1).for_each(|mark| *mark += 1),
        6 => board.open.iter_mut().take(vertex + 1).for_each(|byte| *byte += 1),
        7 | 8 => position.iter_mut().skip(edge).for_each(|byte| *byte += 1),
        9 => position.reverse(),
        _ => position.iter_mut().take(edge).for_each(|byte| *byte = 2),
    }
}

#[test]
fn several_rules_broken() {
    let mut random = Random::new(522);
    let mut seen = [0; 23];
    for round in 0..12_000 {
        let mut board = match round % 4 {
            0 => Kind::ALL[round / 4 % Kind::ALL.len()].board(&mut random),
            _ => drawn_board(&mut random, round % 11),
        };
        if random.chance(200) {
            board = opened(&mut random, board);
        }
        let mut position = drawn_position(&mut random, board.edges());
        for _ in 0..random.from_to(0, 3) {
            break_a_rule(&mut random, &mut board, &mut position);
        }
        match game(&board, &position) {
            Ok(_) => seen[0] += 1,
            Err(refusal) => seen[usize::from(refusal.number())] += 1,
        }
    }
    println!("refusals by number: {seen:?}");
    let numbers = [0, 1, 2, 3, 4, 6, 16, 20, 21, 22];
    assert!(numbers.iter().all(|&number| seen[number] > 100), "{seen:?}");
    assert_eq!(numbers.map(|number| seen[number]).iter().sum::<usize>(), 12_000);
}
