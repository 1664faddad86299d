//! The matching finds the fewest edges: compared with all sets of edges of small boards.

use minimum_weight::{LIT_LIMIT, minimum_weight};
use reference::Random;
use reference::board::{Board, members, size};
use reference::generators::{Kind, open_board, sheet};

/// The fewest edges of a set with this syndrome, by going through all sets.
fn fewest(board: &Board, syndrome: &[u8]) -> Option<usize> {
    let edges = board.edges();
    let sets = (0_u32..1 << edges)
        .map(|bits| -> Vec<u8> { (0..edges).map(|edge| (bits >> edge & 1) as u8).collect() });
    sets.filter(|set| board.syndrome(set) == syndrome).map(|set| size(&set)).min()
}

#[test]
fn no_set_has_fewer_edges() {
    let mut random = Random::new(11);
    let mut met = [0; 2];
    let mut with_loops = 0;
    while met.iter().sum::<usize>() < 2000 {
        let board = Kind::ALL[random.below(Kind::ALL.len())].board(&mut random);
        let sheet = sheet(&mut random, board);
        if sheet.board.edges() > 10 || size(&sheet.syndrome) > LIT_LIMIT {
            continue;
        }
        let found = minimum_weight(&sheet.board, &sheet.syndrome);
        met[usize::from(found.is_some())] += 1;
        assert_eq!(found.as_deref().map(size), fewest(&sheet.board, &sheet.syndrome), "{sheet:?}");
        if let Some(set) = found {
            assert_eq!(sheet.board.syndrome(&set), sheet.syndrome);
            let has_loops = (0..sheet.board.edges()).any(|edge| sheet.board.is_loop(edge));
            with_loops += usize::from(has_loops && size(&set) > 0);
            assert!(members(&set).all(|edge| !sheet.board.is_loop(edge)), "{sheet:?}");
        }
    }
    assert!(met.iter().all(|&count| count > 100), "{met:?}");
    assert!(with_loops > 100, "{with_loops}");
}

/// On boards with open vertices, where a set may run off the board.
#[test]
fn no_set_has_fewer_edges_with_open_vertices() {
    let mut random = Random::new(15);
    let (mut met, mut open_ended) = ([0; 2], 0);
    while met.iter().sum::<usize>() < 3000 {
        let board = open_board(&mut random);
        let sheet = sheet(&mut random, board);
        if sheet.board.edges() > 10 || size(&sheet.syndrome) > LIT_LIMIT {
            continue;
        }
        let found = minimum_weight(&sheet.board, &sheet.syndrome);
        met[usize::from(found.is_some())] += 1;
        assert_eq!(found.as_deref().map(size), fewest(&sheet.board, &sheet.syndrome), "{sheet:?}");
        if let Some(set) = found {
            assert_eq!(sheet.board.syndrome(&set), sheet.syndrome);
            open_ended += usize::from(sheet.board.odd_ends(&set) != sheet.syndrome);
        }
    }
    assert!(met.iter().all(|&count| count > 50) && open_ended > 300, "{met:?}, {open_ended}");
}
