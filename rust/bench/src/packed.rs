//! The fifth table: packing and unpacking a full sheet, and decoding a packed sheet beside unpacking it
//! first.

use std::hint::black_box;

use reference::generators::ring;
use reference::torus::torus;
use reference::{PackedSheet, Sheet};
use table_bench::sheets::{RATE, RATES, flipped, lent};

use crate::timing::{RUNS, best};

/// How many calls a run has.
const CALLS: usize = 500;

pub fn table() {
    println!("packed sheets, microseconds for a call, best of {RUNS} runs");
    println!("1024 vertices and 4096 edges      pack    unpack lit_total  list_lit");
    for (name, byte) in [("no bit", 0), ("all bits", 1)] {
        let [pack, unpack, lit_total, list_lit] = full_sheet(byte);
        println!("{name:>28} {pack:>9.2} {unpack:>9.2} {lit_total:>9.2} {list_lit:>9.2}");
    }
    println!("                       board    packed    unpack and decode");
    row("m1-ring-4", &Sheet::new(ring(), &[0, 3], &[]));
    row("torus-8", &flipped(&torus(8), RATE, 1)[0]);
    row("torus-32, 50 flips", &flipped(&torus(32), RATES[0], 1)[0]);
    row("nothing-lit-32", &Sheet::new(torus(32), &[], &[]));
}

/// The times of a sheet that is as large as it may be, each byte this one: packing, unpacking, the lit
/// total and the list.
fn full_sheet(byte: u8) -> [f64; 4] {
    let (vertices, edges) = (table::VERTICES, table::EDGES);
    let (mut syndrome, mut loss) = (vec![byte; vertices], vec![byte; edges]);
    let (mut words, mut loss_words) = (vec![0; vertices / 64], vec![0; edges / 64]);
    let mut list = vec![0; vertices];
    let pack = best(CALLS, || {
        let answer = table::pack(vertices, edges, &syndrome, &loss, &mut words, &mut loss_words);
        assert!(black_box(answer).is_ok());
    });
    let unpack = best(CALLS, || {
        let answer = table::unpack(vertices, edges, &words, &loss_words, &mut syndrome, &mut loss);
        assert!(black_box(answer).is_ok());
    });
    let lit_total = best(CALLS, || {
        assert!(black_box(table::lit_total(vertices, &words)).is_ok());
    });
    let list_lit = best(CALLS, || {
        assert!(black_box(table::list_lit(vertices, &words, &mut list)).is_ok());
    });
    [pack, unpack, lit_total, list_lit]
}

/// Both ways to the key of a sheet, which is compared before a time is taken.
fn row(name: &str, sheet: &Sheet) {
    let PackedSheet { board, syndrome: words, loss: loss_words } = &PackedSheet::new(sheet);
    let (vertices, edges) = (board.vertices, board.edges());
    let (mut support, mut correction) = (vec![7; edges], vec![7; edges]);
    let packed_sheet =
        table::PackedSheet { board: lent(sheet).board, syndrome: words, loss: loss_words };
    let key = table::decode_packed(packed_sheet, &mut support, &mut correction);
    let written = (support.clone(), correction.clone());
    assert_eq!(table::decode(lent(sheet), &mut support, &mut correction), key, "{name}");
    assert_eq!((&support, &correction), (&written.0, &written.1), "{name}");
    let packed = best(CALLS, || {
        let key = table::decode_packed(packed_sheet, &mut support, &mut correction);
        assert!(black_box(key).is_ok());
    });
    let (mut syndrome, mut loss) = (vec![0; vertices], vec![0; edges]);
    let plain = best(CALLS, || {
        let counts = table::unpack(vertices, edges, words, loss_words, &mut syndrome, &mut loss);
        assert!(black_box(counts).is_ok());
        let unpacked = table::Sheet { board: packed_sheet.board, syndrome: &syndrome, loss: &loss };
        let key = table::decode(unpacked, &mut support, &mut correction);
        assert!(black_box(key).is_ok());
    });
    println!("{name:>28} {packed:>9.2} {plain:>20.2}");
}
