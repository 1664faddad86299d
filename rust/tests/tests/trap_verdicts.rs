//! Document 02, K12, by the library's own verdict and distance: a trap that is shown is wound, no set of
//! fewer edges is, it has at most half as many edges as the distance, rounded up, and its t + 2s is no
//! smaller than the distance. No other program says what a trap is.

use reference::Random;
use reference::board::{Board, members, size};
use reference::generators::long_ring;
use reference::trap::all_sets;
use table::Verdict;
use table_tests::few_edges::small_boards;
use table_tests::library;
use table_tests::trap::drawn;

/// How many boards without a trap were seen, and how many traps: those whose t + 2s is the distance; those
/// of more than one edge, and among them those of more than half as many edges as the distance, which is
/// odd then; those with nothing lost; and those of fewer than half as many, which need a loss.
#[derive(Debug, Default)]
struct Seen {
    none: usize,
    traps: usize,
    tight: usize,
    large: usize,
    rounded_up: usize,
    nothing_lost: usize,
    below_half: usize,
}

impl Seen {
    /// There were more than so many of each.
    fn each_above(&self, few: usize) {
        let Seen { none, traps, tight, large, rounded_up, nothing_lost, below_half } = *self;
        let counts = [none, traps, tight, large, rounded_up, nothing_lost, below_half];
        assert!(counts.iter().all(|&count| count > few), "{self:?}");
    }
}

/// What is said of a board with these lost edges, held to the verdict and to the distance. There is a trap
/// exactly where a loop winds, since that loop is one. However a shortest one is split in two, a part is a
/// trap: both have one correction. So the smallest has at most half as many edges as the distance, rounded
/// up; and since its t + 2s is no smaller than the distance, exactly so many where nothing is lost.
fn hold(board: &Board, loss: &[u8], seen: &mut Seen) -> Option<usize> {
    let (fewest, set) = library::trap(board, loss);
    let (distance, around) = library::distance(board);
    let case = || format!("{set:?}, lost {loss:?} on {board:?}");
    let (Some(fewest), Some(distance)) = (fewest, distance) else {
        assert_eq!((fewest, distance), (None, None), "{}", case());
        assert!(set.iter().all(|&byte| byte == 0), "{}", case());
        seen.none += 1;
        return None;
    };
    assert!(set.iter().all(|&byte| byte <= 1) && size(&set) == fewest, "{}", case());
    assert!(library::is_wound(board, loss, &set), "the trap is not wound: {}", case());
    assert!(
        library::is_wound(board, loss, &around),
        "the loop is not wound: {around:?}, {}",
        case()
    );
    assert!(2 * fewest <= distance + 1, "distance {distance}: {}", case());
    let kept = members(&set).filter(|&edge| loss[edge] == 0).count();
    let far = size(loss) + 2 * kept;
    assert!(far >= distance, "t + 2s is {far}, distance {distance}: {}", case());
    let nothing_lost = size(loss) == 0;
    assert!(!nothing_lost || fewest == distance.div_ceil(2), "distance {distance}: {}", case());
    seen.traps += 1;
    seen.tight += usize::from(far == distance);
    seen.large += usize::from(fewest > 1);
    seen.rounded_up += usize::from(fewest > 1 && 2 * fewest > distance);
    seen.nothing_lost += usize::from(nothing_lost);
    seen.below_half += usize::from(2 * fewest < distance);
    Some(fewest)
}

/// Every set of fewer edges, or every set where there is no trap, is the same.
fn hold_smallest(board: &Board, loss: &[u8], seen: &mut Seen) {
    let fewest = hold(board, loss, seen).unwrap_or(usize::MAX);
    for set in all_sets(board.edges()).filter(|set| size(set) < fewest) {
        assert_eq!(library::verdict_on(board, loss, &set), Verdict::Same, "{set:?}, lost {loss:?}");
    }
}

#[test]
fn no_smaller_set_is_wound() {
    let mut random = Random::new(551);
    let mut seen = Seen::default();
    for board in small_boards() {
        for rate in [0, 300, 1000] {
            hold_smallest(&board, &random.set(board.edges(), rate), &mut seen);
        }
    }
    for round in 0..500 {
        let (board, loss) = drawn(&mut random, 3 + round % 8);
        hold_smallest(&board, &loss, &mut seen);
    }
    seen.each_above(40);
}

/// Boards of up to fourteen edges.
#[test]
fn far_and_at_most_half_the_distance() {
    let mut random = Random::new(552);
    let mut seen = Seen::default();
    for round in 0..500 {
        let (board, loss) = drawn(&mut random, 3 + round % 12);
        hold(&board, &loss, &mut seen);
    }
    seen.each_above(30);
}

/// On a ring of so many edges, with nothing lost, half of them are a trap: t + 2s is the distance, or one
/// more where that is odd.
#[test]
fn half_of_a_ring() {
    for edges in 1..=16_usize {
        let mut ring = long_ring(edges);
        ring.marks[edges / 3] = 2;
        let half = hold(&ring, &vec![0; edges], &mut Seen::default());
        assert_eq!(half, Some(edges.div_ceil(2)), "{edges}");
    }
}
