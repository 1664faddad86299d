//! The second table: boards of other shapes and sizes, with the times of decoding in rounds.

use std::time::Duration;

use reference::Sheet;
use table_bench::sheets::other_boards;

use crate::decoders::{Decoder, Decoders};
use crate::timing::RUNS;

/// A row's sheets are gone through so often that the library takes this time at least.
const ENOUGH: Duration = Duration::from_millis(20);

/// How many sheets are timed together.
const BLOCK: usize = 10;

pub fn table(decoders: &mut Decoders) {
    println!(
        "decode, microseconds for a sheet: other boards and tori at about 5 %, best of {RUNS} runs"
    );
    println!(
        "               board    lit growths     table     tuned tuned/table    counted counted/table    rounds"
    );
    for (name, sheets) in other_boards() {
        row(decoders, name, &sheets);
    }
}

fn row(decoders: &mut Decoders, name: &str, sheets: &[Sheet]) {
    let growths = decoders.same_keys(sheets);
    decoders.same_rounds(sheets);
    let times = enough(decoders, sheets);
    let lanes = [Decoder::Table, Decoder::Tuned, Decoder::Counted, Decoder::Rounds];
    let lanes = lanes.map(|by| (by, sheets));
    let [table, tuned, counted, rounds] = decoders.by_turns(lanes, BLOCK, times);
    let lit = sheets.iter().flat_map(|sheet| &sheet.syndrome).filter(|&&lit| lit == 1).count();
    let lit = lit as f64 / sheets.len() as f64;
    let (by_tuned, by_counted) = (tuned / table, counted / table);
    println!(
        "{name:>20} {lit:>6.1} {growths:>7.1} {table:>9.2} {tuned:>9.2} {by_tuned:>11.2} {counted:>9.2} {by_counted:>13.2} {rounds:>9.2}"
    );
}

/// How many times to go through the sheets, so that the library takes a time that can be measured.
fn enough(decoders: &mut Decoders, sheets: &[Sheet]) -> usize {
    let mut times = 1;
    while decoders.time(Decoder::Table, sheets, times) < ENOUGH {
        times *= 2;
    }
    times
}
