//! The fourth table: the distance, and reading and writing a text.

use std::hint::black_box;

use reference::torus::torus;
use reference::{Sheet, text};
use table_bench::sheets::{RATE, flipped, lent};

use crate::timing::{RUNS, best};

pub fn table() {
    println!("other calls on the torus of a side, microseconds for a call, best of {RUNS} runs");
    println!("side  distance      read     write");
    for side in [4, 8, 16, 32] {
        let sheet = &flipped(&torus(side), RATE, 1)[0];
        let (distance, read, write) = (distance_time(sheet), read_time(sheet), write_time(sheet));
        println!("{side:>4} {distance:>9.2} {read:>9.2} {write:>9.2}");
    }
}

fn distance_time(sheet: &Sheet) -> f64 {
    let mut shown = vec![0; sheet.board.edges()];
    best(3, || {
        let answer = table::distance(lent(sheet).board, &mut shown);
        assert!(matches!(black_box(answer), Ok(Some(_))));
    })
}

fn read_time(sheet: &Sheet) -> f64 {
    let text = text::write(sheet);
    let (mut ends, mut marks) = (vec![0; 2 * table::EDGES], vec![0; table::EDGES]);
    let (mut open, mut syndrome) = (vec![0; table::VERTICES], vec![0; table::VERTICES]);
    let mut loss = vec![0; table::EDGES];
    best(100, || {
        let answer = table::read(&text, &mut ends, &mut marks, &mut open, &mut syndrome, &mut loss);
        assert!(black_box(answer).is_ok());
    })
}

fn write_time(sheet: &Sheet) -> f64 {
    let mut text = vec![0; table::TEXT];
    best(100, || {
        let answer = table::write(lent(sheet), &mut text);
        assert!(black_box(answer).is_ok());
    })
}
