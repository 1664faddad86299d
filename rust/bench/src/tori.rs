//! The first table: decoding on tori, beside the two programs that make one pass over all vertices and
//! edges at each choice.

use reference::torus::torus;
use table_bench::sheets::{RATES, SHEETS, SIDES, flipped, flips};

use crate::decoders::{Decoder, Decoders};
use crate::timing::RUNS;

pub fn table(decoders: &mut Decoders) {
    println!("decode, microseconds for a sheet: {SHEETS} seeded sheets, best of {RUNS} runs");
    println!("side flips growths     table     plain plain/table     tuned tuned/table");
    for side in SIDES {
        for rate in RATES {
            row(decoders, side, rate);
        }
    }
}

fn row(decoders: &mut Decoders, side: usize, rate: usize) {
    let board = torus(side);
    let sheets = flipped(&board, rate, SHEETS);
    let growths = decoders.same_keys(&sheets);
    let lanes = [Decoder::Table, Decoder::Plain, Decoder::Tuned].map(|by| (by, &sheets[..]));
    let [table, plain, tuned] = decoders.by_turns(lanes, SHEETS, 1);
    let (by_plain, by_tuned) = (plain / table, tuned / table);
    let flips = flips(&board, rate);
    println!(
        "{side:>4} {flips:>5} {growths:>7.1} {table:>9.2} {plain:>9.2} {by_plain:>11.2} {tuned:>9.2} {by_tuned:>11.2}"
    );
}
