//! On every sheet of the benchmark the library's key is that of document 01's steps, by growths and in
//! rounds.

use reference::Sheet;
use reference::generators::path;
use reference::torus::torus;
use table_bench::sheets::{RATES, SHEETS, SIDES, flipped, other_boards, still};
use table_tests::agrees;

fn agree(sheets: &[Sheet]) {
    for sheet in sheets {
        agrees::decode(sheet).expect("a correction");
        agrees::decode_rounds(sheet).expect("a correction in rounds");
    }
}

fn tori(side: usize) {
    for rate in RATES {
        agree(&flipped(&torus(side), rate, SHEETS));
    }
}

#[test]
fn small_tori() {
    tori(SIDES[0]);
    tori(SIDES[1]);
}

#[test]
fn large_tori() {
    tori(SIDES[2]);
}

#[test]
fn boards() {
    other_boards().iter().for_each(|(_, sheets)| agree(sheets));
    agree(&SIDES.map(|side| still(&torus(side))));
    agree(&[still(&path(1024))]);
}
