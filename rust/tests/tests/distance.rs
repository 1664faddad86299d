//! The library's distance compared with all sets of edges, and on every torus.

use reference::Random;
use reference::board::{Board, size};
use reference::distance::by_search;
use reference::generators::{Kind, crowd, cycle, open_board, opened, path};
use reference::torus::torus;
use table_tests::{agrees, library};

/// The library's answer, held to what it shows.
fn shown_distance(board: &Board) -> Option<usize> {
    let (fewest, shown) = library::distance(board);
    assert!(shown.iter().all(|&byte| byte <= 1), "{shown:?} on {board:?}");
    match fewest {
        Some(fewest) => assert!(board.winds(&shown) && size(&shown) == fewest, "{board:?}"),
        None => assert_eq!(size(&shown), 0, "{board:?}"),
    }
    fewest
}

#[test]
fn fewest_of_all_sets() {
    let mut random = Random::new(105);
    let mut tried = [0; 2];
    while tried.iter().sum::<usize>() < 3000 {
        let board = Kind::ALL[random.below(Kind::ALL.len())].board(&mut random);
        if board.edges() <= 12 {
            let fewest = by_search(&board);
            assert_eq!(shown_distance(&board), fewest, "{board:?}");
            tried[usize::from(fewest.is_some())] += 1;
        }
    }
    assert!(tried.iter().all(|&count| count > 500), "{tried:?}");
}

/// Loops in the wider sense, on boards with open vertices.
#[test]
fn fewest_of_all_sets_with_open_vertices() {
    let mut random = Random::new(177);
    let mut tried = [0; 2];
    while tried.iter().sum::<usize>() < 3000 {
        let board = open_board(&mut random);
        if board.edges() <= 12 {
            let fewest = by_search(&board);
            assert_eq!(shown_distance(&board), fewest, "{board:?}");
            tried[usize::from(fewest.is_some())] += 1;
        }
    }
    assert!(tried.iter().all(|&count| count > 500), "{tried:?}");
}

#[test]
fn distance_of_a_torus_is_its_side() {
    for side in 1..=32 {
        assert_eq!(shown_distance(&torus(side)), Some(side));
    }
}

#[test]
fn large_boards() {
    let mut random = Random::new(106);
    assert_eq!(shown_distance(&cycle(&mut random, 1024, 0)), Some(1024));
    assert_eq!(shown_distance(&path(1024)), None);
    for (vertices, edges) in [(1024, 4096), (64, 4096), (2, 4096), (1024, 1100)] {
        let mut board = crowd(&mut random, vertices, edges);
        let fewest = agrees::distance(&board).expect("a board that keeps the rules");
        // The last edge made a loop edge: without a mark it is in no smallest loop, with one it is
        // one by itself.
        board.ends[2 * edges - 1] = board.ends[2 * edges - 2];
        board.marks[edges - 1] = 0;
        let unmarked = agrees::distance(&board).expect("a board that keeps the rules");
        assert!(fewest > Some(1) && unmarked > Some(1), "{fewest:?}, {unmarked:?}");
        board.marks[edges - 1] = 2;
        assert_eq!(agrees::distance(&board), Ok(Some(1)));
    }
    for (vertices, edges) in [(1024, 4096), (64, 4096), (1024, 1100), (1024, 700)] {
        let drawn = crowd(&mut random, vertices, edges);
        let few = random.set_of_size(vertices, 2);
        agrees::distance(&Board { open: few, ..drawn.clone() }).expect("a board");
        agrees::distance(&opened(&mut random, drawn)).expect("a board");
    }
}
