//! Document 02, K12: the fewest edges of a trap, by hand, with all losses of small boards, and on random
//! boards up to the limits.

use reference::Random;
use reference::board::{Board, members, set_of, size};
use reference::generators::{crowd, crowd_with_loops, long_ring, path, ring};
use reference::planar::planar;
use reference::torus::torus;
use reference::trap::{all_sets, by_search};
use table_tests::few_edges::{drawn_board, small_boards, spread};
use table_tests::library;
use table_tests::trap::{drawn, trap};

/// The edges of the trap that is shown, with these edges lost.
fn shown(board: &Board, lost: &[usize]) -> Option<Vec<usize>> {
    let set = trap(board, &set_of(board.edges(), lost)).expect("a board that is not refused");
    set.map(|set| members(&set).collect())
}

/// How many edges it has.
fn fewest(board: &Board, loss: &[u8]) -> Option<usize> {
    trap(board, loss).expect("a board that is not refused").map(|set| size(&set))
}

/// Of two edges side by side the table takes the smaller, or the one that is lost. With more of them it is
/// misled by the first whose mark differs.
#[test]
fn edges_side_by_side() {
    let pair = Board::new(2, &[(0, 1, 0), (1, 0, 3)]);
    assert_eq!(shown(&pair, &[]), Some(vec![1]));
    assert_eq!(shown(&pair, &[0]), Some(vec![1]));
    assert_eq!(shown(&pair, &[1]), Some(vec![0]));
    assert_eq!(shown(&pair, &[0, 1]), Some(vec![1]));
    let four = Board::new(2, &[(0, 1, 2), (0, 1, 2), (0, 1, 1), (0, 1, 2)]);
    assert_eq!(shown(&four, &[]), Some(vec![2]));
    assert_eq!(shown(&four, &[1, 3]), Some(vec![2]));
    let alike = Board::new(2, &[(0, 1, 2), (0, 1, 2)]);
    assert_eq!(shown(&alike, &[]), None);
}

/// Half of the ring where nothing is lost; a single edge where the table goes the long way round.
#[test]
fn on_the_ring() {
    assert_eq!(shown(&ring(), &[]).map(|set| set.len()), Some(2));
    assert_eq!(shown(&ring(), &[0, 1]), Some(vec![3]));
    assert_eq!(shown(&ring(), &[1, 2]), Some(vec![3]));
    assert_eq!(shown(&ring(), &[0, 1, 3]), Some(vec![2]));
    assert_eq!(shown(&ring(), &[0, 1, 2, 3]), Some(vec![3]));
    assert_eq!(shown(&Board { marks: vec![0; 4], ..ring() }, &[0, 1]), None);
    assert_eq!(shown(&Board { marks: vec![1; 4], ..ring() }, &[0, 1]), None, "crossed four times");
}

/// A loop edge with a mark is a trap by itself, and one without is in no smallest trap.
#[test]
fn loop_edges() {
    let loops = Board::new(1, &[(0, 0, 0), (0, 0, 2), (0, 0, 0)]);
    assert_eq!(shown(&loops, &[]), Some(vec![1]));
    assert_eq!(shown(&loops, &[1]), Some(vec![1]));
    assert_eq!(shown(&Board { marks: vec![0; 3], ..loops }, &[0, 1]), None);
    let mut ring = ring();
    ring.ends.extend([2; 4]);
    ring.marks.extend([0; 2]);
    assert_eq!(shown(&ring, &[4, 0, 1]), Some(vec![3]));
    ring.marks[5] = 1;
    assert_eq!(shown(&ring, &[4]), Some(vec![5]));
}

/// A lit vertex between two open ones: the table runs off at the smaller, or over the lost edge.
#[test]
fn open_sides() {
    let mut board = path(3).with_open(&[0, 2]);
    board.marks[0] = 1;
    assert_eq!(shown(&board, &[]), Some(vec![1]));
    assert_eq!(shown(&board, &[1]), Some(vec![0]));
    assert_eq!(shown(&board.clone().with_open(&[0]), &[]), None, "one open vertex closes nothing");
    assert_eq!(shown(&board.clone().with_open(&[]), &[]), None);
    assert_eq!(shown(&board.with_open(&[0, 1]), &[1]), Some(vec![0]), "a loop by itself");
}

#[test]
fn on_tori_and_planar_boards() {
    assert_eq!(shown(&torus(1), &[]).map(|set| set.len()), Some(1));
    assert_eq!(shown(&torus(2), &[]).map(|set| set.len()), Some(1));
    assert_eq!(shown(&planar(2), &[]).map(|set| set.len()), Some(1));
    assert_eq!(shown(&planar(3), &[]).map(|set| set.len()), Some(2));
}

/// No edge, no mark, no cycle: no set is a trap, whatever is lost.
#[test]
fn without_a_winding_loop() {
    for board in [Board::new(1, &[]), Board::new(1024, &[]).with_open(&[3])] {
        assert_eq!(shown(&board, &[]), None);
    }
    let tree = Board { marks: vec![1, 2, 3, 1], ..path(5) };
    let unmarked = Board { marks: vec![0; 4], ..ring() };
    for board in [tree.clone(), tree.with_open(&[2]), path(5).with_open(&[0, 4]), unmarked] {
        for loss in all_sets(4) {
            assert_eq!(fewest(&board, &loss), None, "{loss:?}");
        }
    }
}

/// A board with all its losses, counted by the fewest edges of their traps; none by 0.
fn every_loss(board: &Board, seen: &mut [usize]) {
    for loss in all_sets(board.edges()) {
        seen[fewest(board, &loss).unwrap_or(0)] += 1;
    }
}

/// Rings of two to eight edges, with one mark at different edges, with marks that cancel, and with one on
/// each edge.
#[test]
fn rings_with_every_loss() {
    let mut seen = [0; 5];
    for edges in 2..=8 {
        let ring = |marks: Vec<u8>| Board { marks, ..long_ring(edges) };
        let marked = |at: &[usize]| set_of(edges, at);
        every_loss(&ring(marked(&[0])), &mut seen);
        every_loss(&ring(marked(&[edges / 2])), &mut seen);
        every_loss(&ring(marked(&[edges - 1]).iter().map(|mark| 2 * mark).collect()), &mut seen);
        every_loss(&ring(marked(&[0, edges - 1])), &mut seen);
        every_loss(&ring(vec![3; edges]), &mut seen);
    }
    println!("no trap, and by their fewest edges: {seen:?}");
    assert_eq!(seen.iter().sum::<usize>(), 5 * (512 - 4));
    assert!(seen.iter().all(|&count| count > 5), "{seen:?}");
}

/// The tori of sides 1 and 2 and the planar board of side 2 are among them, and so are two vertices with
/// edges side by side.
#[test]
fn small_boards_with_every_loss() {
    let mut seen = [0; 5];
    for board in small_boards() {
        every_loss(&board, &mut seen);
    }
    println!("no trap, and by their fewest edges: {seen:?}");
    assert!(seen[..3].iter().all(|&count| count > 50), "{seen:?}");
}

/// The planar board of side 3 with nothing lost, with each edge lost, with all, and with others at random.
#[test]
fn planar_board_of_side_3() {
    let mut random = Random::new(541);
    let board = planar(3);
    assert_eq!(board.edges(), 13);
    let mut losses = vec![set_of(13, &[]), vec![1; 13]];
    losses.extend((0..13).map(|edge| set_of(13, &[edge])));
    losses.extend((0..60).map(|round| random.set_of_size(13, 2 + round % 10)));
    let mut seen = [0; 3];
    for loss in losses {
        seen[fewest(&board, &loss).unwrap_or(0)] += 1;
    }
    assert!(seen[0] == 0 && seen[1] > 20 && seen[2] > 5, "{seen:?}");
}

/// Random boards of three to twelve edges, with loop edges and open vertices among them.
#[test]
fn random_boards() {
    let mut random = Random::new(542);
    let mut seen = [0; 7];
    for round in 0..1000 {
        let (board, loss) = drawn(&mut random, 3 + round % 10);
        seen[fewest(&board, &loss).unwrap_or(0)] += 1;
    }
    println!("no trap, and by their fewest edges: {seen:?}");
    assert!(seen[..5].iter().all(|&count| count > 10), "{seen:?}");
}

/// The definition itself: no set of fewer edges is a trap.
#[test]
fn fewest_of_all_sets() {
    let mut random = Random::new(543);
    for round in 0..600 {
        let (board, loss) = drawn(&mut random, 3 + round % 7);
        let (fewest, _) = library::trap(&board, &loss);
        assert_eq!(fewest, by_search(&board, &loss), "lost {loss:?} on {board:?}");
    }
}

/// As many edges as there may be: a ring, on which a smallest trap has eight; a path, which has none; and
/// boards at random.
#[test]
fn sixteen_edges() {
    let mut random = Random::new(544);
    let mut ring = long_ring(16);
    ring.marks[11] = 3;
    assert_eq!(fewest(&ring, &[0; 16]), Some(8));
    assert_eq!(fewest(&ring, &set_of(16, &[2, 5, 7])), Some(7), "t + 2s is 17 at least");
    assert_eq!(fewest(&path(17), &set_of(16, &[0, 15])), None);
    let mut sides = path(17).with_open(&[0, 16]);
    sides.marks[4] = 1;
    assert_eq!(fewest(&sides, &[0; 16]), Some(8));
    for _ in 0..20 {
        let (board, loss) = drawn(&mut random, 16);
        fewest(&board, &loss);
    }
}

/// The vertices of a board far apart among as many as there may be, in their order: the same is said,
/// whichever of the others are open.
#[test]
fn most_vertices() {
    let mut random = Random::new(545);
    for round in 0..100 {
        let (board, loss) = drawn(&mut random, 3 + round % 7);
        let wide = spread(&mut random, &board);
        assert_eq!(fewest(&wide, &loss), fewest(&board, &loss));
    }
}

/// As many edges as there may be too: on few of the vertices, and in a row among them, without a mark.
#[test]
fn most_vertices_and_edges() {
    let mut random = Random::new(546);
    for _ in 0..6 {
        let mut board = drawn_board(&mut random, 16);
        board.marks[0] = 1;
        board.marks[15] = 2;
        let wide = spread(&mut random, &board);
        let loss = random.set(16, 200);
        assert_eq!(fewest(&wide, &loss), fewest(&board, &loss));
    }
    assert_eq!(fewest(&spread(&mut random, &path(17)), &set_of(16, &[3])), None);
}

/// Edges anywhere among as many vertices as there may be, which are next to never joined: a trap is a loop
/// edge, or runs between open vertices.
#[test]
fn most_vertices_anywhere() {
    let mut random = Random::new(547);
    let mut seen = [0; 3];
    for round in 0..30 {
        let board = match round % 3 {
            0 => crowd_with_loops(&mut random, 1024, 9),
            _ => crowd(&mut random, 1024, 9),
        };
        let open = random.set(1024, if round % 3 == 2 { 0 } else { 500 });
        let loss = random.set(9, 200);
        seen[fewest(&Board { open, ..board }, &loss).unwrap_or(0)] += 1;
    }
    assert!(seen[0] > 8 && seen[1] > 8, "{seen:?}");
}
