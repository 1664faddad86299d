//! The generators give boards that keep the rules, and sheets of every kind of outcome.

use reference::board::size;
use reference::components::components;
use reference::generators::{Kind, late_smallest, open_board, sheet};
use reference::refusal::NO_CORRECTION;
use reference::{Random, decode};

#[test]
fn every_kind_keeps_the_rules() {
    let mut random = Random::new(4);
    for kind in Kind::ALL {
        let (mut grown, mut still, mut refused, mut lost) = (0, 0, 0, 0);
        for _ in 0..300 {
            let board = kind.board(&mut random);
            let sheet = sheet(&mut random, board);
            lost += size(&sheet.loss);
            match decode(&sheet) {
                Ok(key) if key.growths > 0 => grown += 1,
                Ok(_) => still += 1,
                Err(refusal) => {
                    assert_eq!(refusal.number, NO_CORRECTION, "{sheet:?}");
                    refused += 1;
                }
            }
        }
        let seen = [grown, still, refused, lost];
        assert!(seen.iter().all(|&count| count > 0), "{kind:?}: {seen:?}");
    }
}

/// The kind of many loop edges has them in every state; a torus has them where its side is 1, a path
/// and a star never, and each other kind some.
#[test]
fn loop_edges_of_each_kind() {
    let mut random = Random::new(9);
    for kind in Kind::ALL {
        // By mark or none, and by lost or not.
        let mut seen = [[0; 2]; 2];
        let (mut loops, mut edges) = (0, 0);
        for _ in 0..300 {
            let board = kind.board(&mut random);
            let sheet = sheet(&mut random, board);
            let board = &sheet.board;
            edges += board.edges();
            for edge in (0..board.edges()).filter(|&edge| board.is_loop(edge)) {
                seen[usize::from(board.marks[edge] != 0)][usize::from(sheet.loss[edge])] += 1;
                loops += 1;
                assert!(kind != Kind::Torus || board.vertices == 1, "{board:?}");
            }
        }
        match kind {
            Kind::Path | Kind::Star => assert_eq!(loops, 0, "{kind:?}"),
            Kind::Loops => {
                assert!(seen.as_flattened().iter().all(|&count| count > 100), "{seen:?}");
                assert!(3 * loops > edges && 3 * loops < 2 * edges, "{loops} of {edges}");
            }
            _ => assert!(0 < loops && 4 * loops < edges, "{kind:?}: {loops} of {edges}"),
        }
    }
}

/// Boards with open vertices: few and many, sheets of every kind of outcome, and clusters that hold
/// several open vertices with an odd number of lit ones.
#[test]
fn open_boards_keep_the_rules() {
    let mut random = Random::new(33);
    let (mut none, mut one, mut several, mut all) = (0, 0, 0, 0);
    let (mut grown, mut still, mut refused, mut open_ended) = (0, 0, 0, 0);
    for _ in 0..3000 {
        let board = open_board(&mut random);
        let sheet = sheet(&mut random, board);
        let board = &sheet.board;
        match size(&board.open) {
            0 => none += 1,
            open if open == board.vertices => all += 1,
            1 => one += 1,
            _ => several += 1,
        }
        match decode(&sheet) {
            Ok(key) => {
                *(if key.growths > 0 { &mut grown } else { &mut still }) += 1;
                open_ended += usize::from(board.odd_ends(&key.correction) != sheet.syndrome);
            }
            Err(refusal) => {
                assert_eq!(refusal.number, NO_CORRECTION, "{sheet:?}");
                refused += 1;
            }
        }
    }
    let seen = [none, one, several, all, grown, still, refused, open_ended];
    assert!(seen.iter().all(|&count| count > 20), "{seen:?}");
}

#[test]
fn same_seed_same_boards() {
    let boards = |seed| -> Vec<_> {
        let mut random = Random::new(seed);
        Kind::ALL.iter().map(|kind| kind.board(&mut random)).collect()
    };
    assert_eq!(boards(5), boards(5));
    assert_ne!(boards(5), boards(6));
}

#[test]
fn sets_of_a_size() {
    let mut random = Random::new(7);
    for size_asked in 0..=20 {
        assert_eq!(size(&random.set_of_size(20, size_asked)), size_asked);
    }
}

#[test]
fn smallest_vertex_of_a_part_comes_in_its_last_edge() {
    let mut random = Random::new(8);
    for _ in 0..300 {
        let board = late_smallest(&mut random);
        let part = components(&board, |_| true);
        for smallest in (0..board.vertices).filter(|&vertex| part[vertex] == vertex) {
            let inside =
                (0..board.edges()).filter(|&edge| part[board.ends_of(edge)[0]] == smallest);
            let at_it = |&edge: &usize| board.ends_of(edge).contains(&smallest);
            let last: Vec<_> = inside.clone().next_back().into_iter().collect();
            assert_eq!(inside.filter(at_it).collect::<Vec<_>>(), last, "{board:?}");
        }
    }
}
