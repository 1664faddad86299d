//! Document 02, K1: stacks by hand, and histories beside the sets of stacked edges that they stand for.

use reference::Random;
use reference::board::{Board, Sheet, members, set_of, size, together};
use reference::decode;
use reference::distance::{by_search, by_trees};
use reference::generators::history;
use reference::stack::{History, stack, stack_into, syndrome};
use reference::torus::torus;
use reference::verdict::{Verdict, verdict};

/// Two loop edges in each layer, and an edge from each vertex to the next.
#[test]
fn side_1() {
    let layers = [(0, 0, 1), (0, 0, 2), (1, 1, 1), (1, 1, 2), (2, 2, 1), (2, 2, 2)];
    let between = [(0, 1, 0), (1, 2, 0)];
    assert_eq!(stack(1, 3), Board::new(3, &[&layers[..], &between].concat()));
}

#[test]
fn side_2() {
    let layer = [
        [(0, 1, 0), (0, 2, 0), (1, 0, 1), (1, 3, 0)],
        [(2, 3, 0), (2, 0, 2), (3, 2, 1), (3, 1, 2)],
    ]
    .concat();
    let above: Vec<_> = layer.iter().map(|&(a, b, mark)| (a + 4, b + 4, mark)).collect();
    let between = vec![(0, 4, 0), (1, 5, 0), (2, 6, 0), (3, 7, 0)];
    assert_eq!(stack(2, 1), Board::new(4, &layer));
    assert_eq!(stack(2, 2), Board::new(8, &[layer, above, between].concat()));
}

#[test]
fn one_round_is_the_torus() {
    for side in 1..=32 {
        assert_eq!(stack(side, 1), torus(side));
    }
}

/// Every count at the limit, and each edge inside of the board.
#[test]
fn counts() {
    for side in 1..=32 {
        let rounds = 1024 / (side * side);
        let board = stack(side, rounds);
        assert_eq!(board.vertices, rounds * side * side);
        assert_eq!(board.edges(), rounds * 2 * side * side + (rounds - 1) * side * side);
        assert!(board.edges() <= 4096, "side {side}");
        assert!(board.ends.iter().all(|&end| usize::from(end) < board.vertices), "side {side}");
        assert_eq!(board.open, vec![0; board.vertices]);
    }
}

#[test]
fn syndrome_of_readings() {
    let readings = [[1, 1, 0, 0], [1, 0, 1, 0], [1, 0, 1, 0]].concat();
    assert_eq!(syndrome(2, &readings), [1, 1, 0, 0, 0, 1, 1, 0, 0, 0, 0, 0]);
    assert_eq!(syndrome(2, &readings[..4]), [1, 1, 0, 0]);
    assert_eq!(syndrome(1, &[1, 0, 1, 1]), [1, 1, 1, 0]);
}

/// Edge 2 of side 3, from vertex 1 to 2, flips before round 1 and again before round 3. Vertex 4 is
/// read wrongly in round 0, and vertex 2 in rounds 1 and 2.
fn example() -> History {
    let edges = |list: &[usize]| set_of(18, list);
    let vertices = |list: &[usize]| set_of(9, list);
    History {
        side: 3,
        flips: vec![edges(&[]), edges(&[2]), edges(&[]), edges(&[2])],
        wrong: vec![vertices(&[4]), vertices(&[2]), vertices(&[2])],
    }
}

#[test]
fn history_by_hand() {
    let history = example();
    assert_eq!(history.rounds(), 4);
    let readings = history.readings();
    assert_eq!(members(&readings).collect::<Vec<_>>(), [4, 9 + 1, 18 + 1]);
    let events: Vec<_> = members(&history.events()).collect();
    assert_eq!(events, [18 + 2, 54 + 2, 72 + 4, 72 + 9 + 2, 72 + 18 + 2]);
    let lit: Vec<_> = members(&syndrome(3, &readings)).collect();
    assert_eq!(lit, [4, 9 + 1, 9 + 4, 27 + 1]);
    assert_eq!(stack(3, 4).syndrome(&history.events()), syndrome(3, &readings));
    assert_eq!(History::of_events(3, 4, &history.events()), history);
}

/// The key of a flip and of a wrong reading, each alone: t + 2s is 2, and the distance 3.
#[test]
fn single_events() {
    let board = stack(3, 3);
    for edge in 0..board.edges() {
        let events = set_of(board.edges(), &[edge]);
        let readings = History::of_events(3, 3, &events).readings();
        let sheet = stack_into(3, 3, &readings, (144, 72, 27)).expect("a stack in range");
        assert_eq!(sheet.board, board);
        assert_eq!(verdict(&sheet, &events), Ok(Verdict::Same));
        assert_eq!(decode(&sheet).map(|key| key.correction), Ok(events));
    }
}

/// Random histories: the events have the syndrome that the readings make, and they give the history
/// back.
#[test]
fn events_have_the_syndrome() {
    let mut random = Random::new(61);
    for round in 0..600 {
        let side = 1 + round % 6;
        let rounds = random.from_to(1, 7);
        let rates = [10, 100, 400];
        let (flips, wrong) = (rates[random.below(3)], rates[random.below(3)]);
        let history = history(&mut random, side, rounds, flips, wrong);
        let board = stack(side, rounds);
        let events = history.events();
        assert_eq!(events.len(), board.edges());
        assert_eq!(board.syndrome(&events), syndrome(side, &history.readings()), "{history:?}");
        assert_eq!(History::of_events(side, rounds, &events), history);
    }
}

/// Every set of stacked edges of a small stack is the events of its history, whose readings make its
/// syndrome.
#[test]
fn every_set_arises() {
    for (side, rounds) in [(1, 1), (1, 2), (1, 3), (1, 4), (2, 1)] {
        let board = stack(side, rounds);
        for bits in 0_u32..1 << board.edges() {
            let set: Vec<u8> = (0..board.edges()).map(|edge| (bits >> edge & 1) as u8).collect();
            let history = History::of_events(side, rounds, &set);
            assert_eq!(history.rounds(), rounds);
            assert_eq!(history.wrong.len(), rounds - 1, "none in the last round");
            assert_eq!(history.events(), set);
            assert_eq!(syndrome(side, &history.readings()), board.syndrome(&set));
        }
    }
}

/// A last reading with an odd number of lit vertices is no history's: number 10.
#[test]
fn odd_last_reading() {
    let mut random = Random::new(62);
    for _ in 0..300 {
        let (side, rounds) = (random.from_to(1, 4), random.from_to(1, 5));
        let readings = random.set(rounds * side * side, 400);
        let board = stack(side, rounds);
        let loss = random.set(board.edges(), 100);
        let sheet = Sheet { syndrome: syndrome(side, &readings), board, loss };
        let odd = size(&readings[(rounds - 1) * side * side..]) % 2 == 1;
        match decode(&sheet) {
            Ok(_) => assert!(!odd, "{sheet:?}"),
            Err(refusal) => assert!(odd && (refusal.number, refusal.place) == (10, 0)),
        }
    }
}

/// Edges between layers have no mark, so that a loop that winds does so in the torus too.
#[test]
fn distance_is_the_side() {
    for (side, rounds) in [(1, 1), (1, 5), (1, 7), (2, 1), (2, 2)] {
        assert_eq!(by_search(&stack(side, rounds)), Some(side));
    }
    for (side, rounds) in [(1, 1024), (2, 9), (3, 5), (4, 7), (5, 4), (7, 3), (16, 4)] {
        assert_eq!(by_trees(&stack(side, rounds)), Some(side));
    }
}

/// A loop may change its layer on the way, and what goes up and down again does not wind.
#[test]
fn loops_of_a_stack() {
    let board = stack(3, 2);
    let row = set_of(45, &[0, 2, 4]);
    let changed = set_of(45, &[0, 18 + 2, 4, 36 + 1, 36 + 2]);
    assert!(board.winds(&row) && board.winds(&changed));
    assert!(board.is_closed(&together(&row, &changed)) && !board.winds(&together(&row, &changed)));
    assert!(!board.is_closed(&set_of(45, &[0, 18 + 2, 4])));
}
