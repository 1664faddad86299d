//! Document 02, K8: growing in rounds, over the library.

use reference::board::{Board, Sheet, members};
use reference::generators::{Kind, path, ring};
use reference::torus::torus;
use reference::{Random, RoundsKey};
use table::Verdict;
use table_tests::{agrees, library};

/// The rounds, the correction and the supports of a sheet.
fn key(board: Board, lit: &[usize], lost: &[usize]) -> (usize, Vec<usize>, Vec<u8>) {
    let sheet = Sheet::new(board, lit, lost);
    let RoundsKey { rounds, support, correction } =
        library::decode_rounds(&sheet).expect("a correction");
    (rounds, members(&correction).collect(), support)
}

/// Document 01's marked sheets that have a correction.
#[test]
fn marked_sheets() {
    assert_eq!(key(ring(), &[0, 3], &[]), (1, vec![3], vec![1, 0, 1, 2]), "m1");
    let m2 = (0, vec![0, 1, 2], vec![2, 2, 2, 0]);
    assert_eq!(key(ring(), &[0, 3], &[0, 1, 2]), m2, "m2");
    assert_eq!(key(ring(), &[0, 3], &[0, 1, 2, 3]), (0, vec![0, 1, 2], vec![2; 4]), "m3");
    assert_eq!(key(path(4), &[0, 3], &[]), (3, vec![0, 1, 2], vec![2; 3]), "m4");
    let m6 = vec![2, 1, 1, 1, 1, 0, 0, 0, 0, 0, 0, 0, 0, 1, 0, 1, 0, 0];
    assert_eq!(key(torus(3), &[0, 1], &[]), (1, vec![0], m6), "m6");
    let m7 = vec![2, 2, 0, 2, 2, 0, 2, 0, 2, 2, 0, 0, 0, 2, 0, 0, 0, 0];
    assert_eq!(key(torus(3), &[0, 4], &[]), (2, vec![0, 3], m7), "m7");
    let pair = Board::new(2, &[(0, 1, 0), (0, 1, 1)]);
    assert_eq!(key(pair, &[0, 1], &[]), (1, vec![0], vec![2, 2]), "m8");
    assert_eq!(key(Board::new(1, &[]), &[], &[]), (0, vec![], vec![]), "m9");
}

/// Each tells a wrong step apart; `reference`'s tests say how.
#[test]
fn keys_by_hand() {
    // Odd when the round began, though even once the edge between them is full.
    assert_eq!(key(path(4), &[0, 1], &[]), (1, vec![0], vec![2, 1, 0]));
    // An edge between two odd clusters gains from both.
    let triangle = Board::new(3, &[(0, 1, 1), (0, 2, 0), (1, 2, 0)]);
    assert_eq!(key(triangle, &[1, 2], &[]), (1, vec![2], vec![1, 1, 2]));
    // Three odd clusters are one odd cluster after a round.
    assert_eq!(key(path(5), &[0, 1, 2, 4], &[]), (2, vec![0, 2, 3], vec![2; 4]));
    // An even cluster waits with its half-edges until odd ones reach them.
    assert_eq!(key(path(8), &[0, 3, 4, 7], &[]), (5, vec![0, 1, 2, 4, 5, 6], vec![2; 7]));
    // A loop edge gains two half-edges in a round.
    let loops = Board::new(3, &[(0, 0, 1), (0, 1, 0), (1, 1, 2), (2, 2, 0), (1, 2, 0)]);
    assert_eq!(key(loops, &[0, 1], &[]), (1, vec![1], vec![2, 2, 2, 0, 1]));
    // The forest of the full edges, by number.
    let forest = Board::new(5, &[(3, 4, 0), (4, 0, 0), (0, 1, 0), (1, 2, 0), (0, 2, 0), (2, 3, 0)]);
    assert_eq!(key(forest, &[0, 3], &[3, 4]), (1, vec![2, 3, 5], vec![1, 1, 2, 2, 2, 2]));
}

/// How many edges of a set are not lost.
fn kept(sheet: &Sheet, set: &[u8]) -> usize {
    members(set).filter(|&edge| sheet.loss[edge] == 0).count()
}

/// Both decoders on sheets of every kind: they answer alike where nothing is odd at the start, and
/// rounds are within 2s for the error and for both corrections, each of which has the syndrome.
#[test]
fn beside_the_weighted_decoder() {
    let mut random = Random::new(162);
    let (mut still, mut grown, mut other_support, mut other_correction) = (0, 0, 0, 0);
    for at in 0..12_000 {
        let board = Kind::ALL[at % Kind::ALL.len()].board(&mut random);
        let (rate, lost) = ([20, 100, 300][random.below(3)], [0, 50, 500][random.below(3)]);
        let (error, loss) = (random.set(board.edges(), rate), random.set(board.edges(), lost));
        let sheet = Sheet { syndrome: board.syndrome(&error), board, loss };
        let key = agrees::decode(&sheet).expect("the error has the syndrome");
        let rounds = agrees::decode_rounds(&sheet).expect("the error has the syndrome");
        for set in [&error, &key.correction, &rounds.correction] {
            assert!(rounds.rounds <= 2 * kept(&sheet, set), "{rounds:?} and {set:?}: {sheet:?}");
        }
        assert_eq!(sheet.board.syndrome(&rounds.correction), sheet.syndrome, "{sheet:?}");
        let full = |edge: usize| rounds.support[edge] == 2;
        assert!(members(&rounds.correction).all(full), "{rounds:?} of {sheet:?}");
        assert_eq!(rounds.rounds == 0, key.growths == 0, "{sheet:?}");
        if key.growths == 0 {
            still += 1;
            assert_eq!((&rounds.support, &rounds.correction), (&key.support, &key.correction));
        } else {
            grown += 1;
            other_support += usize::from(rounds.support != key.support);
            other_correction += usize::from(rounds.correction != key.correction);
        }
    }
    println!(
        "{still} still, {grown} grown, {other_support} supports, {other_correction} corrections"
    );
    assert!([still, grown, other_support].iter().all(|&count| count > 1000));
    assert!(other_correction > 200, "{other_correction}");
}

/// Every side, with flips and losses, and with nothing lost.
#[test]
fn tori_of_every_side() {
    let mut random = Random::new(163);
    for side in 1..=32 {
        let board = torus(side);
        for (rate, lost) in [(10, 0), (50, 0), (100, 0), (25, 25), (100, 50), (300, 100)] {
            let error = random.set(board.edges(), rate);
            let loss = random.set(board.edges(), lost);
            let syndrome = board.syndrome(&error);
            let sheet = Sheet { board: board.clone(), syndrome, loss };
            let key = agrees::decode_rounds(&sheet).expect("the error has the syndrome");
            assert!(key.rounds <= 2 * kept(&sheet, &error), "{key:?}: {error:?} on {sheet:?}");
        }
    }
}

/// How many sheets there are of each side and number of flips.
const SHEETS: usize = 1000;

/// On how many sheets of a torus with so many flips the rounds' correction is the same as the
/// weighted decoder's by the verdict, and on how many it is equal to it byte for byte. The verdict
/// knows the weighted decoder alone; both corrections have the syndrome, so that it never refuses
/// the other one or calls it off.
fn same_and_equal(random: &mut Random, side: usize, flips: usize) -> (usize, usize) {
    let board = torus(side);
    let (mut same, mut equal) = (0, 0);
    for _ in 0..SHEETS {
        let syndrome = board.syndrome(&random.set_of_size(board.edges(), flips));
        let sheet = Sheet { loss: vec![0; board.edges()], board: board.clone(), syndrome };
        let key = agrees::decode(&sheet).expect("the flips have the syndrome");
        let rounds = agrees::decode_rounds(&sheet).expect("the flips have the syndrome");
        assert_eq!(agrees::verdict(&sheet, &key.correction), Ok(Verdict::Same), "{sheet:?}");
        match agrees::verdict(&sheet, &rounds.correction) {
            Ok(Verdict::Same) => same += 1,
            Ok(Verdict::Wound(_)) => {}
            other => panic!("{other:?} for a correction of {sheet:?}"),
        }
        equal += usize::from(key.correction == rounds.correction);
    }
    (same, equal)
}

/// Side, flips, and on how many sheets the two corrections are the same and equal: less than half of
/// the side flipped, then about 5, 10 and 15 % of the edges.
const JUDGED: [(usize, usize, usize, usize); 23] = [
    (3, 1, 1000, 1000),
    (3, 2, 871, 789),
    (3, 3, 666, 579),
    (4, 1, 1000, 1000),
    (4, 2, 980, 915),
    (4, 4, 797, 558),
    (4, 5, 765, 475),
    (5, 2, 1000, 965),
    (5, 3, 993, 873),
    (5, 5, 830, 562),
    (5, 8, 541, 248),
    (6, 2, 1000, 985),
    (6, 4, 992, 871),
    (6, 8, 723, 342),
    (6, 11, 600, 218),
    (7, 3, 1000, 947),
    (7, 5, 998, 824),
    (7, 10, 763, 319),
    (7, 15, 506, 105),
    (8, 3, 1000, 968),
    (8, 7, 988, 713),
    (8, 13, 745, 208),
    (8, 20, 505, 55),
];

#[test]
fn judged_by_the_verdict() {
    let mut random = Random::new(165);
    for (side, flips, same, equal) in JUDGED {
        let judged = same_and_equal(&mut random, side, flips);
        assert_eq!(judged, (same, equal), "side {side}, {flips} flips");
    }
}
