//! Document 02, K12: what setting a trap refuses, each number at its limits, and which one where several
//! rules are broken. Every comparison holds that nothing is written.

use reference::Random;
use reference::board::Board;
use reference::generators::{Kind, crowd, opened};
use table_tests::few_edges::drawn_board;
use table_tests::refused::refused;
use table_tests::trap::{trap, trap_with};

/// A board that is not refused, with as many edges as it may have, most vertices without an edge, and a
/// loop edge with a mark, so that a trap is soon found.
fn sixteen_edges() -> Board {
    let mut edges: Vec<_> = (0..15).map(|edge| (edge % 4, edge % 4 + 1, 0)).collect();
    edges.push((2, 2, 1));
    Board::new(19, &edges)
}

/// Numbers 1, 2, 4, 6 and 16 are those of all calls that are lent a board.
#[test]
fn numbers_of_the_board() {
    let right = sixteen_edges();
    let refusal = |change: &dyn Fn(&mut Board)| {
        let mut board = right.clone();
        change(&mut board);
        let loss = vec![0; board.edges()];
        refused(trap(&board, &loss))
    };
    assert!(trap(&right, &[0; 16]).is_ok(), "nothing is refused");
    for vertices in [0, 1025, 1 << 16, (1 << 16) + 19, (1 << 32) + 19, usize::MAX] {
        assert_eq!(refusal(&|board| board.vertices = vertices), (1, 0), "{vertices}");
    }
    for ends in [1, 31, 33, 8191, 8193, 8194] {
        assert_eq!(refusal(&|board| board.ends.resize(ends, 0)), (2, 0), "{ends}");
    }
    for edge in 0..16 {
        for end in [2 * edge, 2 * edge + 1] {
            for wrong in [19, 20, 1024, 65_535] {
                assert_eq!(refusal(&|board| board.ends[end] = wrong), (4, edge as u64));
            }
        }
        for mark in [4, 5, 7, 8, 128, 255] {
            assert_eq!(refusal(&|board| board.marks[edge] = mark), (6, edge as u64));
        }
    }
    for vertex in 0..19 {
        for byte in [2, 3, 128, 255] {
            assert_eq!(refusal(&|board| board.open[vertex] = byte), (16, vertex as u64));
        }
    }
}

/// Number 3 for each of the four buffers, on boards of any number of edges.
#[test]
fn number_3() {
    for edges in 0..=18 {
        let right = Board::new(2, &vec![(0, 1, 1); edges]);
        let loss = vec![0; edges];
        match trap(&right, &loss) {
            Ok(set) => assert!(edges <= 16 && set.is_none(), "{edges}"),
            refusal => assert!(edges > 16 && refused(refusal) == (23, 0), "{edges}"),
        }
        for wrong in (0..=edges + 2).chain([256 + edges, 65_536 + edges]) {
            if wrong != edges {
                let marks = Board { marks: vec![1; wrong], ..right.clone() };
                assert_eq!(refused(trap(&marks, &loss)), (3, 0), "{wrong} marks for {edges}");
                let other = vec![0; wrong];
                assert_eq!(refused(trap(&right, &other)), (3, 0), "{wrong} losses for {edges}");
                assert_eq!(refused(trap_with(&right, &loss, wrong)), (3, 0), "a set of {wrong}");
                let alike = trap_with(&marks, &other, wrong);
                assert_eq!(refused(alike), (3, 0), "{wrong} of all for {edges}");
            }
            if wrong != 2 {
                let open = Board { open: vec![0; wrong], ..right.clone() };
                assert_eq!(refused(trap(&open, &loss)), (3, 0), "{wrong} open bytes for 2");
            }
        }
    }
}

/// Number 8 at every edge, and at the smallest of several, also where there are too many edges. Bytes up
/// to 1 pass.
#[test]
fn number_8() {
    let board = sixteen_edges();
    for edge in 0..16 {
        for byte in [2, 3, 4, 128, 129, 255] {
            let mut loss = vec![0; 16];
            loss[edge] = byte;
            assert_eq!(refused(trap(&board, &loss)), (8, edge as u64), "{byte}");
            loss[15] = byte;
            assert_eq!(refused(trap(&board, &loss)), (8, edge as u64), "the smallest");
            loss[edge..].fill(255);
            loss[..edge].fill(1);
            assert_eq!(refused(trap(&board, &loss)), (8, edge as u64), "the smallest");
        }
        let mut loss = vec![0; 16];
        loss[edge] = 1;
        assert!(trap(&board, &loss).is_ok(), "a lost edge");
    }
    let large = Board::new(1024, &vec![(0, 1023, 1); 4096]);
    for edge in [0, 15, 16, 17, 255, 256, 4095] {
        let mut loss = vec![1; 4096];
        loss[edge] = 2;
        assert_eq!(refused(trap(&large, &loss)), (8, edge as u64), "8 before 23");
    }
}

/// Number 23 from 17 edges on, whatever is lost; traps are set on 15 and on 16, whatever the vertices.
#[test]
fn number_23() {
    let mut random = Random::new(561);
    for vertices in [1, 2, 16, 17, 100, 1024] {
        for edges in [15, 16] {
            let few = crowd(&mut random, vertices.min(4), edges);
            let mut board = Board { vertices, open: vec![0; vertices], ..few };
            board.ends[0] = board.ends[1];
            board.marks[0] = 1;
            assert!(trap(&board, &vec![0; edges]).is_ok(), "nothing is refused");
            assert!(trap(&board, &vec![1; edges]).is_ok(), "nothing is refused");
        }
        for edges in [17, 18, 32, 64, 272, 4095, 4096] {
            let board = crowd(&mut random, vertices, edges);
            let half = random.set(edges, 500);
            for loss in [vec![0; edges], vec![1; edges], half] {
                assert_eq!(refused(trap(&board, &loss)), (23, 0), "{edges}");
            }
            let open = Board { open: vec![1; vertices], ..board };
            assert_eq!(refused(trap(&open, &vec![0; edges])), (23, 0), "{edges}");
        }
    }
}

/// The tests of setting a trap, in order, each with what it refuses with below.
const TESTS: [(u8, u64); 8] = [(1, 0), (2, 0), (3, 0), (4, 8), (6, 7), (8, 11), (16, 18), (23, 0)];

/// A board, losses and the length of a set on which each test is broken that a bit stands for. Where
/// number 3 is, one of four buffers has a wrong length: each in turn, too short or too long.
fn broken_trap(broken: usize, wrong: usize) -> (Board, Vec<u8>, usize) {
    let (mut board, mut loss) = (sixteen_edges(), vec![0; 16]);
    let breaks: [fn(&mut Board, &mut Vec<u8>); 8] = [
        |board, _| board.vertices = 1025,
        |board, _| board.ends.push(0),
        |_, _| {},
        |board, _| board.ends[17] = 1025,
        |board, _| board.marks[7] = 4,
        |_, loss| loss[11] = 2,
        |board, _| board.open[18] = 2,
        |board, loss| {
            board.ends.extend([0, 0]);
            board.marks.push(0);
            loss.push(0);
        },
    ];
    for (test, change) in breaks.iter().enumerate() {
        if broken >> test & 1 == 1 {
            change(&mut board, &mut loss);
        }
    }
    let mut set = loss.len();
    if broken >> 2 & 1 == 1 {
        let other = |right: usize| right - 1 + 2 * (wrong % 2);
        match wrong / 2 {
            0 => board.marks.resize(other(board.marks.len()), 0),
            1 => board.open.resize(other(19), 0),
            2 => loss.resize(other(set), 0),
            _ => set = other(set),
        }
    }
    (board, loss, set)
}

/// Every choice of the eight tests broken together: the first of them refuses.
#[test]
fn in_order() {
    for broken in 0_usize..1 << TESTS.len() {
        for wrong in 0..if broken >> 2 & 1 == 1 { 8 } else { 1 } {
            let (board, loss, set) = broken_trap(broken, wrong);
            let answer = trap_with(&board, &loss, set);
            match TESTS.get(broken.trailing_zeros() as usize) {
                Some(&first) => assert_eq!(refused(answer), first, "lost {loss:?} on {board:?}"),
                None => assert!(answer.is_ok(), "lost {loss:?} on {board:?}"),
            }
        }
    }
}

/// Breaks one rule at random, or none.
fn break_a_rule(random: &mut Random, board: &mut Board, loss: &mut Vec<u8>, set: &mut usize) {
    let vertex = random.below(board.open.len().max(1));
    let edge = random.below(board.marks.len().max(1));
    match random.below(11) {
        0 => board.vertices = [0, 1025, vertex, board.vertices + 1][random.below(4)],
        1 => board.ends.push(0),
        2 => board.marks.resize(edge, 1),
        3 => loss.push(0),
        4 => *set += 1,
        5 => board.ends.iter_mut().take(2 * edge + 1).for_each(|end| *end += 60),
        6 => board.marks.iter_mut().take(edge + 1).for_each(|mark| *mark += 1),
        7 => board.open.iter_mut().take(vertex + 1).for_each(|byte| *byte += 1),
        8 => loss.iter_mut().skip(edge).for_each(|byte| *byte += 1),
        _ => loss.reverse(),
    }
}

#[test]
fn several_rules_broken() {
    let mut random = Random::new(562);
    let mut seen = [0; 24];
    for round in 0..12_000 {
        // Boards of few edges, on which a trap is soon found, or of too many.
        let mut board = Kind::ALL[round % Kind::ALL.len()].board(&mut random);
        if (9..=16).contains(&board.edges()) {
            board = drawn_board(&mut random, round % 9);
        }
        if random.chance(200) {
            board = opened(&mut random, board);
        }
        let (mut loss, mut set) = (random.set(board.edges(), 300), board.edges());
        for _ in 0..random.from_to(0, 3) {
            break_a_rule(&mut random, &mut board, &mut loss, &mut set);
        }
        match trap_with(&board, &loss, set) {
            Ok(_) => seen[0] += 1,
            Err(refusal) => seen[usize::from(refusal.number())] += 1,
        }
    }
    println!("refusals by number: {seen:?}");
    let numbers = [0, 1, 2, 3, 4, 6, 8, 16, 23];
    assert!(numbers.iter().all(|&number| seen[number] > 100), "{seen:?}");
    assert_eq!(numbers.map(|number| seen[number]).iter().sum::<usize>(), 12_000);
}
