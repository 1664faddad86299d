//! Demand 3, and what growing in rounds promises, held against the library on every set of edges of
//! small boards.

use demand3::{RoundsTally, Tally, boards, hold, hold_rounds, open_boards};
use table_tests::library;

#[test]
fn demand3_on_every_set() {
    let mut tally = Tally::default();
    for (board, loss) in boards(103, 4000) {
        if let Err(violation) = hold(&board, &loss, library::decode, &mut tally) {
            panic!("{violation:?}");
        }
    }
    println!("{tally:?}");
    assert!(tally.has_seen_all(), "{tally:?}");
}

/// Beside what is promised: rounds are never above s, and no covered set winds.
#[test]
fn rounds_on_every_set() {
    let mut tally = RoundsTally::default();
    for (board, loss) in boards(161, 4000) {
        if let Err(violation) = hold_rounds(&board, &loss, library::decode_rounds, &mut tally) {
            panic!("{violation:?}");
        }
    }
    println!("{tally:?}");
    assert!(tally.has_seen_all(), "{tally:?}");
    assert_eq!((tally.above_s, tally.covered_wound), (0, 0), "{tally:?}");
}

/// Syndromes and loops in the wider sense.
#[test]
fn demand3_on_every_set_with_open_vertices() {
    let mut tally = Tally::default();
    for (board, loss) in open_boards(175, 3000) {
        if let Err(violation) = hold(&board, &loss, library::decode, &mut tally) {
            panic!("{violation:?}");
        }
    }
    println!("{tally:?}");
    assert!(tally.has_seen_open(), "{tally:?}");
}

/// Rounds are within 2s, and for some sets no fewer.
#[test]
fn rounds_on_every_set_with_open_vertices() {
    let mut tally = RoundsTally::default();
    for (board, loss) in open_boards(176, 3000) {
        if let Err(violation) = hold_rounds(&board, &loss, library::decode_rounds, &mut tally) {
            panic!("{violation:?}");
        }
    }
    println!("{tally:?}");
    assert!(tally.has_seen_open(), "{tally:?}");
}
