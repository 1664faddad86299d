//! Document 02, K1: tori that are read in several rounds, as stacked boards.

use demand3::{Tally, hold};
use reference::board::{Board, Sheet, members, size};
use reference::generators::history;
use reference::stack::{History, stack};
use reference::{Key, Random};
use table::{Refusal, Verdict};
use table_tests::agrees::{self, stack_lengths};
use table_tests::library;
use table_tests::refused::refused;

/// The most rounds in which a torus of this side may be read.
fn most(side: u32) -> u32 {
    1024 / (side * side)
}

/// The vertices of one layer.
fn layer(side: u32) -> usize {
    (side * side) as usize
}

/// Rounds in range: the fewest, the most, and some between.
fn some_rounds(random: &mut Random, side: u32) -> Vec<u32> {
    let most = most(side);
    let between = [0; 3].map(|_| random.from_to(1, most as usize) as u32);
    let mut rounds = [&[1, 2, most - 1, most], &between[..]].concat();
    rounds.retain(|rounds| (1..=most).contains(rounds));
    rounds.sort_unstable();
    rounds.dedup();
    rounds
}

/// The stack that the library builds of a history's readings, on which its events are held to have the
/// syndrome.
fn stacked(history: &History) -> Sheet {
    let (side, rounds) = (history.side as u32, history.rounds() as u32);
    let sheet = agrees::stack(side, rounds, &history.readings()).expect("a stack in range");
    assert_eq!(sheet.board.syndrome(&history.events()), sheet.syndrome, "{history:?}");
    sheet
}

/// Demand 3 for the events of a history, on the stack of its readings with these edges lost; its
/// distance is the side. Answers with the verdict on the events.
fn hold_history(history: &History, loss: Vec<u8>) -> Verdict {
    let sheet = Sheet { loss, ..stacked(history) };
    let events = history.events();
    let key = agrees::decode(&sheet).expect("the events have the syndrome");
    assert_eq!(sheet.board.syndrome(&key.correction), sheet.syndrome, "{sheet:?}");
    let kept = members(&events).filter(|&edge| sheet.loss[edge] == 0).count();
    assert!(key.growths <= 2 * kept, "{} growths, s is {kept}: {sheet:?}", key.growths);
    let verdict = agrees::verdict(&sheet, &events).expect("the events have the syndrome");
    assert!(!matches!(verdict, Verdict::Off(_)), "{verdict:?}: {sheet:?}");
    if size(&sheet.loss) + 2 * kept < history.side {
        assert_eq!(verdict, Verdict::Same, "{events:?} on {sheet:?}");
    }
    verdict
}

/// Each entry of a stack of these readings by its number, in document 02's words: L² vertices and 2L²
/// edges in each of R layers.
fn hold_entries(torus: &Board, readings: &[u8], sheet: &Sheet) {
    let (vertices, edges) = (torus.vertices, torus.edges());
    let layers = readings.len() / vertices;
    let Sheet { board, syndrome, .. } = sheet;
    assert_eq!(board.vertices, layers * vertices);
    assert_eq!(board.edges(), layers * edges + (layers - 1) * vertices);
    for edge in 0..layers * edges {
        let (k, e) = (edge / edges, edge % edges);
        let ends = torus.ends_of(e).map(|v| k * vertices + v);
        assert_eq!((board.ends_of(edge), board.marks[edge]), (ends, torus.marks[e]));
    }
    for vertex in 0..(layers - 1) * vertices {
        let edge = layers * edges + vertex;
        assert_eq!((board.ends_of(edge), board.marks[edge]), ([vertex, vertex + vertices], 0));
    }
    for vertex in 0..board.vertices {
        let previous = if vertex < vertices { 0 } else { readings[vertex - vertices] };
        assert_eq!(syndrome[vertex], readings[vertex] ^ previous);
    }
}

#[test]
fn entries_of_every_side() {
    let mut random = Random::new(191);
    for side in 1..=32 {
        let edges = 2 * layer(side);
        let torus = agrees::torus_with(side, 2 * edges, edges).expect("a side in range");
        for rounds in some_rounds(&mut random, side) {
            let readings = random.set(rounds as usize * layer(side), 300);
            let sheet = agrees::stack(side, rounds, &readings).expect("a stack in range");
            hold_entries(&torus, &readings, &sheet);
        }
    }
}

/// One round is the torus itself, with its reading as the syndrome.
#[test]
fn one_round_is_the_torus() {
    let mut random = Random::new(192);
    for side in 1..=32 {
        let edges = 2 * layer(side);
        let torus = agrees::torus_with(side, 2 * edges, edges).expect("a side in range");
        for rate in [0, 200, 500, 1000] {
            let reading = random.set(layer(side), rate);
            let sheet = agrees::stack(side, 1, &reading).expect("a stack in range");
            assert_eq!(sheet.board, torus);
            assert_eq!(sheet.syndrome, reading);
        }
    }
}

/// The distance of a stack is its side, however often the torus is read.
#[test]
fn distance_is_the_side() {
    let mut random = Random::new(193);
    for side in 1..=8 {
        for rounds in some_rounds(&mut random, side) {
            let board = stack(side as usize, rounds as usize);
            if board.vertices <= 300 {
                assert_eq!(agrees::distance(&board), Ok(Some(side as usize)));
            } else {
                assert_eq!(library::distance(&board).0, Some(side as usize));
            }
        }
    }
}

/// Histories with few and with many flips and wrong readings, and with losses.
#[test]
fn random_histories() {
    let mut random = Random::new(194);
    let rates = [(5, 5, 0), (20, 20, 0), (0, 40, 10), (40, 0, 10), (30, 60, 150), (300, 300, 20)];
    let (mut same, mut wound) = (0, 0);
    for side in 1..=8 {
        for rounds in some_rounds(&mut random, side) {
            for (flips, wrong, lost) in rates {
                let history = history(&mut random, side as usize, rounds as usize, flips, wrong);
                let loss = random.set(history.events().len(), lost);
                match hold_history(&history, loss) {
                    Verdict::Same => same += 1,
                    _ => wound += 1,
                }
            }
        }
    }
    println!("{same} same, {wound} wound");
    assert!(same > 60 && wound > 60, "{same} same, {wound} wound");
}

/// So few flips, wrong readings and losses that t + 2s is below the distance.
#[test]
fn few_events_never_wind() {
    let mut random = Random::new(195);
    for side in 2..=8 {
        for rounds in some_rounds(&mut random, side) {
            let edges = stack_lengths(side, rounds).1;
            for _ in 0..4 {
                let s = random.from_to(0, (side as usize - 1) / 2);
                let t = random.from_to(0, side as usize - 1 - 2 * s);
                let events = random.set_of_size(edges, s);
                let history = History::of_events(side as usize, rounds as usize, &events);
                let loss = random.set_of_size(edges, t);
                assert_eq!(hold_history(&history, loss), Verdict::Same, "{history:?}");
            }
        }
    }
}

/// Every side at the most rounds, with growth in rounds and with its text.
#[test]
fn largest_stacks() {
    let mut random = Random::new(196);
    for side in 1..=32 {
        let history = history(&mut random, side as usize, most(side) as usize, 15, 15);
        let sheet = stacked(&history);
        agrees::decode(&sheet).expect("the events have the syndrome");
        let key = agrees::decode_rounds(&sheet).expect("the events have the syndrome");
        assert!(key.rounds <= 2 * size(&history.events()), "{sheet:?}");
        let text = agrees::write(&sheet).expect("a text within the limit");
        assert_eq!(agrees::read(&text), Ok(sheet));
    }
}

/// Every set of stacked edges arises: it is the events of a history, whose readings make its syndrome.
/// All sets of the smallest stacks, and random ones of larger ones.
#[test]
fn every_set_arises() {
    let arises = |side: u32, rounds: u32, set: &[u8]| {
        let history = History::of_events(side as usize, rounds as usize, set);
        assert_eq!(history.wrong.len() + 1, rounds as usize, "no wrong reading in the last round");
        assert_eq!(history.events(), set);
        assert_eq!(stacked(&history).syndrome, stack(history.side, history.rounds()).syndrome(set));
    };
    for (side, rounds) in [(1, 1), (1, 2), (1, 3), (1, 4), (2, 1)] {
        let edges = stack_lengths(side, rounds).1;
        for bits in 0..1_u32 << edges {
            let set: Vec<u8> = (0..edges).map(|edge| (bits >> edge & 1) as u8).collect();
            arises(side, rounds, &set);
        }
    }
    let mut random = Random::new(197);
    for _ in 0..2000 {
        let side = random.from_to(1, 5) as u32;
        let rounds = random.from_to(1, 6) as u32;
        let rate = [10, 100, 500, 900][random.below(4)];
        let set = random.set(stack_lengths(side, rounds).1, rate);
        arises(side, rounds, &set);
    }
}

/// Demand 3 on every set of edges of the smallest stacks, with nothing lost and with some.
#[test]
fn demand3_on_every_set() {
    let mut random = Random::new(198);
    let mut tally = Tally::default();
    for (side, rounds) in [(1, 1), (1, 2), (1, 3), (1, 4), (1, 5), (2, 1), (2, 2), (3, 1)] {
        let board = stack(side, rounds);
        for lost in [0, 50, 100, 300] {
            let loss = random.set(board.edges(), lost);
            if let Err(violation) = hold(&board, &loss, library::decode, &mut tally) {
                panic!("{violation:?}");
            }
        }
    }
    println!("{tally:?}");
    let Tally { unmet, growths_reached, covered, one_short, .. } = tally;
    let seen = [unmet, growths_reached, covered, one_short];
    assert!(seen.iter().all(|&count| count > 0), "{tally:?}");
}

/// A flip and a wrong reading, each alone, are what is answered: t + 2s is 2.
#[test]
fn single_events_come_back() {
    let (side, rounds) = (3, 4);
    let edges = stack(side, rounds).edges();
    for edge in 0..edges {
        let mut events = vec![0; edges];
        events[edge] = 1;
        let sheet = stacked(&History::of_events(side, rounds, &events));
        let Key { correction, .. } = agrees::decode(&sheet).expect("the event has the syndrome");
        assert_eq!(correction, events, "edge {edge}");
    }
}

/// Readings of which the last lights an odd number of vertices are no history's: number 10 shows the
/// first vertex, as a stack is one part. All others are some history's.
#[test]
fn odd_last_reading() {
    let mut random = Random::new(199);
    let (mut odd, mut even) = (0, 0);
    for _ in 0..400 {
        let side = random.from_to(1, 6) as u32;
        let rounds = random.from_to(1, most(side).min(12) as usize) as u32;
        let readings = random.set(rounds as usize * layer(side), 400);
        let sheet = agrees::stack(side, rounds, &readings).expect("any readings of 0 and 1");
        let rate = [0, 100][random.below(2)];
        let sheet = Sheet { loss: random.set(sheet.board.edges(), rate), ..sheet };
        let last = &readings[(rounds - 1) as usize * layer(side)..];
        if size(last) % 2 == 1 {
            assert_eq!(agrees::decode(&sheet), Err(Refusal::NoCorrection(0)), "{readings:?}");
            assert_eq!(agrees::decode_rounds(&sheet).err(), Some(Refusal::NoCorrection(0)));
            odd += 1;
        } else {
            let key = agrees::decode(&sheet).expect("every other syndrome is met");
            let history = History::of_events(side as usize, rounds as usize, &key.correction);
            assert_eq!(history.readings(), readings, "the correction is no history of these");
            even += 1;
        }
    }
    assert!(odd > 100 && even > 100, "{odd} odd, {even} even");
}

/// Lent buffers of this length for the readings, all 0, and of these for what is filled.
fn lent(side: u32, rounds: u32, readings: usize, lengths: (usize, usize, usize)) -> (u8, u64) {
    refused(agrees::stack_with(side, rounds, &vec![0; readings], lengths))
}

/// 11 at its limits, before the rounds and any length; among the sides are some that are in range once
/// cut to 8 or 16 bits, or whose square is once cut to 32.
#[test]
fn number_11() {
    let wrapped = [256, 257, 288, 1 << 16, (1 << 16) + 1, (1 << 16) + 32, 1 << 31, (1 << 31) + 1];
    for side in [&[0, 33, 64, 1024, u32::MAX], &wrapped[..]].concat() {
        for rounds in [0, 1, 2, 1024, 1025, 1 << 31, u32::MAX] {
            let refusal = (11, side.into());
            assert_eq!(lent(side, rounds, 0, (0, 0, 0)), refusal);
            assert_eq!(lent(side, rounds, 1, (4, 2, 1)), refusal, "the lengths of side 1");
            assert_eq!(lent(side, rounds, 1024, (4096, 2048, 1024)), refusal, "those of side 32");
        }
    }
    for side in [1, 32] {
        agrees::stack(side, 1, &vec![1; layer(side)]).expect("a side at its limit");
    }
}

/// Rounds out of range which would be in it if they, or the vertices that they make, were cut to 8, 16
/// or 32 bits.
fn wrapping(side: u32) -> Vec<u32> {
    let square = u64::from(side * side);
    let mut wrapping = Vec::new();
    for size in [1 << 8, 1 << 16, 1_u64 << 32] {
        // The fewest rounds with as many vertices as a multiple of the size, or just more.
        let rounds = (1..=square).map(|times| (times * size).div_ceil(square));
        wrapping.extend(rounds.filter(|rounds| rounds * square % size <= 1024));
        wrapping.extend([size, size + 1, size + u64::from(most(side))]);
    }
    wrapping.retain(|&rounds| rounds > most(side).into() && rounds <= u32::MAX.into());
    wrapping.into_iter().map(|rounds| rounds as u32).collect()
}

/// 15 at its limits for every side, before any length.
#[test]
fn number_15() {
    assert!(wrapping(32).contains(&(1 << 22)), "2^32 vertices");
    assert!(wrapping(16).contains(&(1 << 24)), "2^32 vertices");
    for side in 1..=32 {
        let most = most(side);
        agrees::stack(side, 1, &vec![0; layer(side)]).expect("one round");
        agrees::stack(side, most, &vec![0; most as usize * layer(side)]).expect("the most rounds");
        let beyond = [0, most + 1, most + 2, 1025, 1 << 31, u32::MAX - 1, u32::MAX];
        for rounds in [&beyond[..], &wrapping(side)].concat() {
            assert_eq!(lent(side, rounds, 0, (0, 0, 0)), (15, 0), "side {side}, {rounds} rounds");
            let one = stack_lengths(side, 1);
            assert_eq!(lent(side, rounds, one.2, one), (15, 0), "side {side}, {rounds} rounds");
        }
        // The lengths that one round more would have.
        let more = stack_lengths(side, most + 1);
        assert_eq!(lent(side, most + 1, more.2, more), (15, 0), "side {side}");
    }
}

/// 3 for each buffer that is one too short or one too long.
#[test]
fn number_3() {
    let mut random = Random::new(200);
    for side in 1..=32 {
        for rounds in some_rounds(&mut random, side) {
            let (ends, marks, vertices) = stack_lengths(side, rounds);
            for (readings, lengths) in [
                (vertices - 1, (ends, marks, vertices)),
                (vertices + 1, (ends, marks, vertices)),
                (vertices, (ends - 1, marks, vertices)),
                (vertices, (ends + 1, marks, vertices)),
                (vertices, (ends + 2, marks, vertices)),
                (vertices, (ends, marks - 1, vertices)),
                (vertices, (ends, marks + 1, vertices)),
                (vertices, (ends, marks, vertices - 1)),
                (vertices, (ends, marks, vertices + 1)),
                (vertices, (marks, ends, vertices)),
                (vertices + 1, (ends, marks, vertices + 1)),
                (vertices, stack_lengths(side, rounds + 1)),
                (1024, (8192, 4096, 1024)),
                (0, (0, 0, 0)),
            ] {
                let refusal = lent(side, rounds, readings, lengths);
                assert_eq!(
                    refusal,
                    (3, 0),
                    "side {side}, {rounds} rounds: {readings}, {lengths:?}"
                );
            }
        }
    }
}

/// 7 at the first, the last and middle vertices, and at the smallest of several.
#[test]
fn number_7() {
    let refusal =
        |side: u32, rounds: u32, readings: &[u8]| refused(agrees::stack(side, rounds, readings));
    for (side, rounds) in [(1, 1), (1, 1024), (2, 3), (5, 40), (8, 16), (31, 1), (32, 1)] {
        let vertices = rounds as usize * layer(side);
        for byte in [2, 3, 128, 255] {
            for place in [0, vertices / 3, vertices / 2, vertices - 1] {
                let mut readings = vec![1; vertices];
                readings[place] = byte;
                assert_eq!(refusal(side, rounds, &readings), (7, place as u64));
                readings[vertices - 1] = 2;
                assert_eq!(refusal(side, rounds, &readings), (7, place as u64), "the smallest");
                readings[place] = 1;
                readings[vertices - 1] = byte;
                assert_eq!(refusal(side, rounds, &readings), (7, vertices as u64 - 1));
            }
            assert_eq!(refusal(side, rounds, &vec![byte; vertices]), (7, 0));
        }
    }
}

/// Every two of the four tests broken together, and all of them, mended from the first on.
#[test]
fn numbers_in_their_order() {
    let right = stack_lengths(3, 4);
    let longer = (right.0, right.1 + 1, right.2);
    let mut broken = vec![0; 36];
    broken[20] = 2;
    let whole = vec![0; 36];
    for (side, rounds, readings, lengths, refusal) in [
        (33, 0, &broken, longer, (11, 33)),
        (33, 0, &whole, right, (11, 33)),
        (33, 4, &whole, longer, (11, 33)),
        (33, 4, &broken, right, (11, 33)),
        (3, 0, &broken, longer, (15, 0)),
        (3, 0, &whole, longer, (15, 0)),
        (3, 114, &broken, right, (15, 0)),
        (3, 4, &broken, longer, (3, 0)),
        (3, 5, &broken, right, (3, 0)),
        (3, 4, &broken, right, (7, 20)),
    ] {
        let answer = agrees::stack_with(side, rounds, readings, lengths);
        assert_eq!(refused(answer), refusal, "side {side}, {rounds} rounds");
    }
    assert!(agrees::stack_with(3, 4, &whole, right).is_ok());
}

/// A length that is right, or now and then another.
fn now_and_then(random: &mut Random, right: usize) -> usize {
    match random.below(12) {
        0 => right + random.from_to(1, 2),
        1 => right - 1,
        _ => right,
    }
}

/// Readings of so many vertices, now and then with bytes above 1, and now and then of another length.
fn some_readings(random: &mut Random, vertices: usize) -> Vec<u8> {
    let mut readings = random.set(vertices, 300);
    if random.chance(200) {
        for _ in 0..random.from_to(1, 3) {
            readings[random.below(vertices)] = [2, 3, 255][random.below(3)];
        }
    }
    readings.resize(now_and_then(random, vertices), 2);
    readings
}

/// Sides, rounds, lengths and readings of which each is broken now and then.
#[test]
fn several_rules_broken() {
    let mut random = Random::new(201);
    let mut seen = [0; 16];
    for _ in 0..4000 {
        let mut side = random.from_to(1, 6) as u32;
        let mut rounds = random.from_to(1, most(side).min(9) as usize) as u32;
        let (ends, marks, vertices) = stack_lengths(side, rounds);
        let [ends, marks, syndrome] =
            [ends, marks, vertices].map(|right| now_and_then(&mut random, right));
        let readings = some_readings(&mut random, vertices);
        if random.chance(100) {
            side = [0, 33, 65_537][random.below(3)];
        }
        if random.chance(150) {
            rounds = [0, 1025, 1 << 30, u32::MAX][random.below(4)];
        }
        match agrees::stack_with(side, rounds, &readings, (ends, marks, syndrome)) {
            Ok(_) => seen[0] += 1,
            Err(refusal) => seen[usize::from(refusal.number())] += 1,
        }
    }
    println!("refusals by number: {seen:?}");
    assert!([0, 3, 7, 11, 15].iter().all(|&number| seen[number] > 100), "{seen:?}");
    assert_eq!([0, 3, 7, 11, 15].map(|number| seen[number]).iter().sum::<usize>(), 4000);
}
