//! Document 02, K12: the two ways to find the fewest edges of a trap agree; traps by hand; every trap has
//! t + 2s no smaller than the distance; and what is refused.

use reference::board::{Board, members, set_of, size};
use reference::distance::by_trees;
use reference::generators::{crowd, crowd_with_loops, cycle, long_ring, opened, path, ring};
use reference::planar::planar;
use reference::torus::torus;
use reference::trap::{all_sets, by_loops, by_search, is_trap, trap_into};
use reference::{Random, Refusal};

/// A board of three to ten edges, and lost ones among them: none, some, half or all. A cycle has large
/// traps, and where marks are rubbed out there are often none.
fn drawn(random: &mut Random) -> (Board, Vec<u8>) {
    let edges = random.from_to(3, 10);
    let vertices = random.from_to(1, 7);
    let mut board = match random.below(4) {
        0 => crowd_with_loops(random, vertices, edges),
        1 => crowd(random, vertices, edges),
        _ => {
            let around = random.from_to(3, edges);
            cycle(random, around, edges - around)
        }
    };
    if random.chance(300) {
        let kept = random.set(edges, 300);
        board.marks.iter_mut().zip(kept).for_each(|(mark, kept)| *mark *= kept);
    }
    let board = if random.chance(300) { opened(random, board) } else { board };
    let rate = [0, 0, 200, 500, 1000][random.below(5)];
    (board, random.set(edges, rate))
}

#[test]
fn search_and_loops_agree() {
    let mut random = Random::new(72);
    let mut fewest = [0; 6];
    for _ in 0..4000 {
        let (board, loss) = drawn(&mut random);
        let found = by_loops(&board, &loss);
        assert_eq!(found, by_search(&board, &loss), "lost {loss:?} on {board:?}");
        fewest[found.unwrap_or(0)] += 1;
    }
    println!("no trap, and by their fewest edges: {fewest:?}");
    assert!(fewest.iter().all(|&count| count > 10), "{fewest:?}");
}

/// On rings, on which the smallest traps are as large as they can be.
#[test]
fn rings() {
    for edges in 1..=10 {
        for marked in 0..edges {
            let mut board = long_ring(edges);
            board.marks[marked] = 1 + (marked % 3) as u8;
            let none = vec![0; edges];
            assert_eq!(by_loops(&board, &none), Some(edges.div_ceil(2)), "{board:?}");
            assert_eq!(by_search(&board, &none), Some(edges.div_ceil(2)), "{board:?}");
            assert_eq!(by_loops(&board, &vec![1; edges]), Some(1), "all lost: {board:?}");
        }
        assert_eq!(by_loops(&long_ring(edges), &vec![0; edges]), None);
        assert_eq!(by_search(&long_ring(edges), &vec![0; edges]), None);
    }
}

/// All traps of a board with these lost edges.
fn traps(board: &Board, lost: &[usize]) -> Vec<Vec<usize>> {
    let loss = set_of(board.edges(), lost);
    let all = all_sets(board.edges()).filter(|set| is_trap(board, &loss, set));
    all.map(|set| members(&set).collect()).collect()
}

/// The correction of two edges side by side is the smaller, or the one that is lost. With edges 0 and 1 of
/// the ring lost no correction has edge 3, so that every set that has it is a trap, and no other.
#[test]
fn by_hand() {
    let pair = Board::new(2, &[(0, 1, 0), (1, 0, 3)]);
    assert_eq!(traps(&pair, &[]), [vec![1], vec![0, 1]]);
    assert_eq!(traps(&pair, &[1]), [vec![0], vec![0, 1]]);
    let round = traps(&ring(), &[0, 1]);
    assert!(round.len() == 8 && round.iter().all(|set| set.contains(&3)), "{round:?}");
    let loops = Board::new(1, &[(0, 0, 0), (0, 0, 2)]);
    assert_eq!(traps(&loops, &[]), [vec![1], vec![0, 1]]);
    assert_eq!(traps(&Board { marks: vec![0; 4], ..ring() }, &[2]), [[0; 0]; 0]);
}

/// The correction of a lit vertex between two open ones runs off at the smaller, or over a lost edge.
#[test]
fn open_sides() {
    let mut board = path(3).with_open(&[0, 2]);
    board.marks[0] = 1;
    assert_eq!(traps(&board, &[]), [vec![1], vec![0, 1]]);
    assert_eq!(traps(&board, &[1]), [vec![0], vec![0, 1]]);
    assert_eq!(traps(&board.clone().with_open(&[]), &[]), [[0; 0]; 0]);
    assert_eq!(traps(&board.with_open(&[0, 1]), &[]), [vec![0], vec![0, 1]]);
}

#[test]
fn built_boards() {
    let none = |board: &Board| trap_into(board, &vec![0; board.edges()], board.edges());
    assert_eq!(none(&torus(1)), Ok(Some(1)));
    assert_eq!(none(&torus(2)), Ok(Some(1)));
    assert_eq!(none(&planar(2)), Ok(Some(1)));
    assert_eq!(none(&planar(3)), Ok(Some(2)));
    assert_eq!(none(&torus(3)), Err(Refusal { number: 23, place: 0 }));
}

/// Demand 3 the other way round: a set of which t + 2s is smaller than the distance misleads nobody.
#[test]
fn every_trap_is_far() {
    let mut random = Random::new(73);
    let (mut seen, mut tight) = (0, 0);
    for _ in 0..600 {
        let (board, loss) = drawn(&mut random);
        for set in all_sets(board.edges()).filter(|set| is_trap(&board, &loss, set)) {
            let kept = members(&set).filter(|&edge| loss[edge] == 0).count();
            let distance = by_trees(&board).expect("a winding loop");
            let far = size(&loss) + 2 * kept;
            assert!(far >= distance, "{set:?}, lost {loss:?} on {board:?}");
            seen += 1;
            tight += usize::from(far == distance);
        }
    }
    println!("{seen} traps, {tight} of them at the distance");
    assert!(seen > 10_000 && tight > 50, "{seen}, {tight}");
}

/// 1, 2, 3, 4, 6, 8 and 16, then 23.
#[test]
fn refusals() {
    let refused = |board: &Board, loss: &[u8], set: usize| {
        let Refusal { number, place } = trap_into(board, loss, set).expect_err("a refusal");
        (number, place)
    };
    let edges = vec![(0, 3, 4); 17];
    let mut board = Board { vertices: 1025, open: vec![0, 2, 2], ..Board::new(3, &edges) };
    board.ends.push(0);
    let mut loss = [vec![0; 5], vec![2; 11]].concat();
    assert_eq!(refused(&board, &loss, 16), (1, 0));
    board.vertices = 3;
    assert_eq!(refused(&board, &loss, 16), (2, 0));
    board.ends.pop();
    assert_eq!(refused(&board, &loss, 17), (3, 0), "the losses");
    loss.push(2);
    assert_eq!(refused(&board, &loss, 16), (3, 0), "the set");
    assert_eq!(refused(&board, &loss, 17), (4, 0));
    board.ends.fill(1);
    assert_eq!(refused(&board, &loss, 17), (6, 0));
    board.marks.fill(3);
    assert_eq!(refused(&board, &loss, 17), (8, 5));
    loss.fill(1);
    assert_eq!(refused(&board, &loss, 17), (16, 1));
    board.open.fill(1);
    assert_eq!(refused(&board, &loss, 17), (23, 0));
    board.ends.truncate(32);
    board.marks.truncate(16);
    assert_eq!(refused(&board, &loss, 16), (3, 0));
    assert_eq!(trap_into(&board, &loss[..16], 16), Ok(Some(1)));
}
