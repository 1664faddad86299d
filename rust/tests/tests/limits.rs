//! Boards at the limits: 1,024 vertices and 4,096 edges.

use reference::board::{Board, Sheet, members, set_of};
use reference::generators::{crowd, long_ring, path, star};
use reference::torus::torus;
use reference::{Key, Random, RoundsKey};
use table::{Refusal, Verdict};
use table_tests::agrees;

/// The keys of both decoders.
fn decoded(sheet: &Sheet) -> (Key, RoundsKey) {
    let key = agrees::decode(sheet).expect("a correction");
    (key, agrees::decode_rounds(sheet).expect("a correction in rounds"))
}

/// The refusal of both decoders.
fn refused(sheet: &Sheet) -> Refusal {
    let refusal = agrees::decode(sheet).expect_err("a refusal");
    assert_eq!(agrees::decode_rounds(sheet).expect_err("a refusal in rounds"), refusal);
    refusal
}

fn keys(board: Board, lit: &[usize], lost: &[usize]) -> (Key, RoundsKey) {
    let sheet = Sheet::new(board, lit, lost);
    let text = agrees::write(&sheet).expect("a text within the limit");
    assert_eq!(agrees::read(&text).as_ref(), Ok(&sheet));
    decoded(&sheet)
}

/// The growths and the rounds.
fn steps(board: Board, lit: &[usize], lost: &[usize]) -> (usize, usize) {
    let (key, rounds) = keys(board, lit, lost);
    (key.growths, rounds.rounds)
}

/// The key of the decoder that grows one cluster at a time.
fn key(board: Board, lit: &[usize], lost: &[usize]) -> Key {
    keys(board, lit, lost).0
}

#[test]
fn long_path() {
    assert_eq!(steps(path(1024), &[0, 1023], &[]), (2 * 1023, 1023));
    assert_eq!(steps(path(1024), &[0, 1023], &(0..1023).collect::<Vec<_>>()), (0, 0));
    assert_eq!(steps(path(1024), &[511, 512], &[]), (2, 1));
    let all: Vec<usize> = (0..1024).collect();
    assert_eq!(key(path(1024), &all, &[]).edges(), 512);
    // The one lit vertex reaches the open end, however it is numbered.
    for (open, lit) in [(1023, 0), (0, 1023)] {
        let (key, rounds) = keys(path(1024).with_open(&[open]), &[lit], &[]);
        assert_eq!((key.growths, rounds.rounds), (2 * 1023, 2 * 1023));
        assert_eq!(key.correction, [1; 1023]);
    }
}

#[test]
fn large_star() {
    assert_eq!(key(star(1024), &[0, 1023], &[]).edges(), 1);
    assert_eq!(key(star(1024), &[1, 1023], &[]).edges(), 2);
    let leaves: Vec<usize> = (0..1024).collect();
    assert_eq!(key(star(1024), &leaves, &[]).edges(), 1023);
}

#[test]
fn single_vertices() {
    let alone = Board::new(1024, &[]);
    assert_eq!(key(alone.clone(), &[], &[]).growths, 0);
    assert_eq!(refused(&Sheet::new(alone, &[1023], &[])), Refusal::NoCorrection(1023));
}

/// Two vertices and as many edges between them as there may be.
fn parallel() -> Board {
    Board::new(2, &vec![(0, 1, 0); 4096])
}

/// A star of 1,023 leaves, with four edges to each.
fn fourfold_star() -> Board {
    let edges: Vec<_> = (0..4092).map(|edge| (0, 1 + edge / 4, 0)).collect();
    Board::new(1024, &edges)
}

/// {0} grows twice, or both vertices once, and all edges are full at once. Where the last one is lost
/// nothing grows, and it is the correction.
#[test]
fn most_parallel_edges() {
    let (key, rounds) = keys(parallel(), &[0, 1], &[]);
    let correction = set_of(4096, &[0]);
    assert_eq!(key, Key { growths: 2, support: vec![2; 4096], correction: correction.clone() });
    assert_eq!(rounds, RoundsKey { rounds: 1, support: vec![2; 4096], correction });
    let (key, rounds) = keys(parallel(), &[0, 1], &[4095]);
    let last = set_of(4096, &[4095]);
    let support: Vec<u8> = last.iter().map(|lost| 2 * lost).collect();
    assert_eq!(key, Key { growths: 0, support, correction: last });
    assert_eq!((rounds.rounds, rounds.edges()), (0, 1));
}

/// {1} grows twice and has the middle then; with it, it is as small as {1023} and holds the smaller
/// vertex, so it grows twice more and has all. In rounds both leaves have the middle after two.
#[test]
fn fourfold_edges_of_a_star() {
    let (key, rounds) = keys(fourfold_star(), &[1, 1023], &[]);
    assert_eq!((key.growths, rounds.rounds), (4, 2));
    assert_eq!(key.support, [2; 4092]);
    assert_eq!(members(&key.correction).collect::<Vec<_>>(), [0, 4088]);
    assert_eq!(rounds.correction, key.correction);
}

/// Two paths side by side with a rung between each two vertices.
fn ladder(length: u16) -> Board {
    let along = (0..2 * length - 2).map(|edge| (edge, edge + 2, 0));
    let rungs = (0..length).map(|rung| (2 * rung, 2 * rung + 1, 0));
    Board::new(usize::from(2 * length), &along.chain(rungs).collect::<Vec<_>>())
}

/// The path of all vertices with loop edges anywhere, up to the most edges.
fn path_with_loops(random: &mut Random) -> Board {
    let mut board = path(1024);
    for _ in 1023..4096 {
        let vertex = random.below(1024) as u16;
        board.ends.extend([vertex; 2]);
        board.marks.push(0);
    }
    board
}

/// Shapes at the limits, each with several syndromes and losses, and with its last vertex open.
#[test]
fn extreme_shapes() {
    let mut random = Random::new(110);
    let shapes = [
        parallel(),
        fourfold_star(),
        path(1024),
        ladder(512),
        long_ring(1024),
        path_with_loops(&mut random),
        most_loop_edges(1, 0),
        most_loop_edges(1024, 0),
    ];
    let (mut grown, mut in_rounds) = (0, 0);
    for board in shapes {
        let last = [board.vertices - 1];
        for board in [board.clone(), board.with_open(&last)] {
            for (rate, lost) in [(2, 0), (50, 0), (500, 0), (2, 300), (50, 100), (300, 700)] {
                let syndrome = board.syndrome(&random.set(board.edges(), rate));
                let loss = random.set(board.edges(), lost);
                let (key, rounds) = decoded(&Sheet { board: board.clone(), syndrome, loss });
                grown += key.growths;
                in_rounds += rounds.rounds;
            }
        }
    }
    println!("{grown} growths, {in_rounds} rounds");
    assert!(grown > 10_000 && in_rounds > 200, "{grown} growths, {in_rounds} rounds");
}

#[test]
fn most_edges() {
    let mut random = Random::new(107);
    for vertices in [3, 50, 1024] {
        for rate in [5, 100, 500] {
            let board = crowd(&mut random, vertices, 4096);
            let syndrome = board.syndrome(&random.set(4096, rate));
            let loss = random.set(4096, 20);
            decoded(&Sheet { board, syndrome, loss });
        }
    }
}

/// The same with one open vertex, and with about a third of them open.
#[test]
fn most_edges_with_open_vertices() {
    let mut random = Random::new(109);
    for vertices in [3, 50, 1024] {
        for open in [random.set_of_size(vertices, 1), random.set(vertices, 300)] {
            let board = Board { open, ..crowd(&mut random, vertices, 4096) };
            let syndrome = board.syndrome(&random.set(4096, 100));
            let loss = random.set(4096, 20);
            decoded(&Sheet { board, syndrome, loss });
        }
    }
}

/// As many loop edges as there may be, spread over so many vertices.
fn most_loop_edges(vertices: u16, mark: u8) -> Board {
    let edges: Vec<_> = (0..4096).map(|edge| (edge % vertices, edge % vertices, mark)).collect();
    Board::new(vertices.into(), &edges)
}

/// All on one vertex. Two are lost, the first and the last, and nothing grows.
#[test]
fn most_loop_edges_on_one_vertex() {
    for mark in 0..4 {
        let board = most_loop_edges(1, mark);
        let fewest = if mark == 0 { None } else { Some(1) };
        assert_eq!(agrees::distance(&board), Ok(fewest));
        let key = key(board.clone(), &[], &[0, 4095]);
        let mut support = vec![0; 4096];
        (support[0], support[4095]) = (2, 2);
        assert_eq!(key, Key { growths: 0, support, correction: vec![0; 4096] });
        let all = agrees::verdict(&Sheet::new(board.clone(), &[], &[]), &[1; 4096]);
        assert_eq!(all, Ok(Verdict::Same), "an even number of equal marks");
        let mut handed = vec![1; 4096];
        handed[4095] = 0;
        let odd = agrees::verdict(&Sheet::new(board.clone(), &[], &[]), &handed);
        assert_eq!(odd, Ok(if mark == 0 { Verdict::Same } else { Verdict::Wound(mark) }));
        let lit = Sheet::new(board, &[0], &[]);
        assert_eq!(refused(&lit), Refusal::NoCorrection(0));
        assert_eq!(agrees::verdict(&lit, &handed), Err(Refusal::NoCorrection(0)));
    }
}

/// Four on each of 1,024 vertices, of which the last edge alone may have a mark.
#[test]
fn most_loop_edges_on_all_vertices() {
    let mut board = most_loop_edges(1024, 0);
    assert_eq!(agrees::distance(&board), Ok(None));
    board.marks[4095] = 3;
    assert_eq!(agrees::distance(&board), Ok(Some(1)));
    let lost: Vec<usize> = (0..4096).step_by(7).collect();
    assert_eq!(key(board.clone(), &[], &lost).growths, 0);
    for lit in [&[1023][..], &[517, 1023], &[0, 1, 2, 3]] {
        let sheet = Sheet::new(board.clone(), lit, &lost);
        assert_eq!(refused(&sheet), Refusal::NoCorrection(lit[0]));
    }
}

/// A path whose two ends are lit, with three loop edges or more at each vertex. {0} grows along it,
/// and fills all loop edges but those at its other end. In rounds both ends grow, and fill all.
#[test]
fn long_path_with_loop_edges() {
    let mut board = path(1024);
    for edge in 1023..4096_u16 {
        board.ends.extend([(edge - 1023) % 1024; 2]);
        board.marks.push(0);
    }
    let (key, rounds) = keys(board.clone(), &[0, 1023], &[]);
    assert_eq!((key.growths, key.edges()), (2 * 1023, 1023));
    assert_eq!((rounds.rounds, rounds.edges()), (1023, 1023));
    assert_eq!(rounds.support, [2; 4096]);
    for edge in 0..4096 {
        let at_the_end = board.ends_of(edge) == [1023, 1023];
        assert_eq!(key.support[edge], if at_the_end { 0 } else { 2 }, "edge {edge}");
    }
    assert_eq!(agrees::distance(&board), Ok(None));
}

#[test]
fn largest_torus() {
    let mut random = Random::new(108);
    let board = torus(32);
    for flips in [50, 100, 200, 1024] {
        let syndrome = board.syndrome(&random.set_of_size(2048, flips));
        let loss = random.set_of_size(2048, flips / 4);
        decoded(&Sheet { board: board.clone(), syndrome, loss });
    }
}
