//! The two ways to find the distance agree.

use reference::Random;
use reference::board::Board;
use reference::distance::{by_search, by_trees};
use reference::generators::{Kind, cycle, open_board, path, ring};
use reference::planar::planar;
use reference::torus::torus;

#[test]
fn search_and_trees_agree() {
    let mut random = Random::new(3);
    let mut tried = [0; 2];
    while tried.iter().sum::<usize>() < 1500 {
        let kind = Kind::ALL[random.below(Kind::ALL.len())];
        let board = kind.board(&mut random);
        if board.edges() <= 12 {
            let fewest = by_search(&board);
            assert_eq!(fewest, by_trees(&board), "{board:?}");
            tried[usize::from(fewest.is_some())] += 1;
        }
    }
    assert!(tried.iter().all(|&count| count > 300), "{tried:?}");
}

#[test]
fn distance_of_a_torus_is_its_side() {
    for side in 1..=9 {
        assert_eq!(by_trees(&torus(side)), Some(side));
    }
    assert_eq!(by_search(&torus(1)), Some(1));
    assert_eq!(by_search(&torus(3)), Some(3));
}

/// Random boards with open vertices, on most of which the distance is another than without them.
#[test]
fn search_and_trees_agree_on_open_boards() {
    let mut random = Random::new(32);
    let (mut tried, mut changed) = ([0; 2], 0);
    while tried.iter().sum::<usize>() < 1500 {
        let board = open_board(&mut random);
        if board.edges() <= 12 {
            let fewest = by_search(&board);
            assert_eq!(fewest, by_trees(&board), "{board:?}");
            tried[usize::from(fewest.is_some())] += 1;
            let closed = Board { open: vec![0; board.vertices], ..board };
            changed += usize::from(by_trees(&closed) != fewest);
        }
    }
    assert!(tried.iter().all(|&count| count > 200) && changed > 300, "{tried:?}, {changed}");
}

#[test]
fn distance_of_a_planar_board_is_its_side() {
    for side in 2..=12 {
        assert_eq!(by_trees(&planar(side)), Some(side));
    }
    assert_eq!(by_search(&planar(2)), Some(2));
    assert_eq!(by_search(&planar(3)), Some(3));
}

/// A set is closed that runs from one open vertex to another, or from the side to itself.
#[test]
fn open_loops() {
    let marked = |open: &[usize]| {
        let mut board = path(5).with_open(open);
        board.marks[1] = 2;
        (by_search(&board), by_trees(&board))
    };
    assert_eq!(marked(&[]), (None, None));
    assert_eq!(marked(&[1]), (None, None), "a single open vertex closes nothing more");
    assert_eq!(marked(&[0, 4]), (Some(4), Some(4)));
    assert_eq!(marked(&[0, 2, 4]), (Some(2), Some(2)));
    assert_eq!(marked(&[1, 2]), (Some(1), Some(1)), "an edge between two open vertices");
    assert_eq!(marked(&[2, 3, 4]), (None, None), "closed sets without a mark");
}

/// The board with one loop edge more, at this vertex.
fn with_loop(board: &Board, vertex: u16, mark: u8) -> Board {
    let mut board = board.clone();
    board.ends.extend([vertex; 2]);
    board.marks.push(mark);
    board
}

#[test]
fn loop_edges() {
    for vertex in 0..4 {
        for (mark, fewest) in [(0, 4), (1, 1), (2, 1), (3, 1)] {
            let board = with_loop(&ring(), vertex, mark);
            assert_eq!((by_search(&board), by_trees(&board)), (Some(fewest), Some(fewest)));
        }
        let point = Board::new(4, &[]);
        for (mark, fewest) in [(0, None), (1, Some(1)), (2, Some(1)), (3, Some(1))] {
            let board = with_loop(&point, vertex, mark);
            assert_eq!((by_search(&board), by_trees(&board)), (fewest, fewest));
        }
    }
    // The cycle's own length, whatever loop edges it has, as none of them has a mark.
    let board = cycle(&mut Random::new(31), 9, 0);
    assert_eq!(by_trees(&with_loop(&with_loop(&board, 3, 0), 3, 0)), Some(9));
}
