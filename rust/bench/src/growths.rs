//! The third table: what a call costs apart from growth, and what one growth costs.

use reference::Sheet;
use reference::generators::path;
use reference::torus::torus;
use table_bench::sheets::{RATE, SIDES, flipped, still};

use crate::decoders::{Decoder, Decoders};
use crate::timing::RUNS;

/// How many sheets of each kind there are on a torus, and how many are timed together.
const SHEETS: usize = 100;
const BLOCK: usize = 5;

pub fn table(decoders: &mut Decoders) {
    println!(
        "decode, nanoseconds for a call apart from growth and for one growth, best of {RUNS}:"
    );
    println!("call = time with one edge lost and its two ends lit, where nothing grows;");
    println!("growth = (time at 5 % flips, or on the path with both ends lit, - call) / growths");
    println!("    board growths      call    growth");
    for side in SIDES {
        let grown = flipped(&torus(side), RATE, SHEETS);
        row(decoders, &format!("torus-{side}"), &grown, 64 / side);
    }
    row(decoders, "path-1024", &[Sheet::new(path(1024), &[0, 1023], &[])], 10);
}

fn row(decoders: &mut Decoders, name: &str, grown: &[Sheet], times: usize) {
    let still = vec![still(&grown[0].board); grown.len()];
    assert_eq!(decoders.same_keys(&still), 0.0);
    let growths = decoders.same_keys(grown);
    let lanes = [&still[..], grown].map(|sheets| (Decoder::Table, sheets));
    let [call, whole] = decoders.by_turns(lanes, BLOCK, times).map(|time| 1000.0 * time);
    let growth = (whole - call) / growths;
    println!("{name:>9} {growths:>7.1} {call:>9.0} {growth:>9.0}");
}
