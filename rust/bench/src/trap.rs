//! The last table: setting a trap on boards of sixteen edges. It takes longest where the sets of several
//! sizes must be tried, and where the key of each takes long: on long rings, a few edges lost elsewhere.

use std::hint::black_box;

use reference::board::{Board, size};
use reference::generators::{crowd, crowd_with_loops, cycle, long_ring, opened, path};
use reference::trap::{TRAP_LIMIT, is_trap, trap_into};
use reference::{Random, Sheet};
use table_bench::sheets::lent;

use crate::timing::{RUNS, best};

const SEED: u64 = 306;

/// How many random boards there are.
const BOARDS: usize = 50;

pub fn table() {
    println!("trap, {TRAP_LIMIT} edges, milliseconds for a call, best of {RUNS} runs");
    println!("                         board   edges      time");
    let row = |name: &str, fewest: Option<usize>, time: f64| {
        println!("{name:>30} {:>7} {time:>9.2}", fewest.unwrap_or(0));
    };
    for (name, sheet) in sheets() {
        let (fewest, time) = measured(&sheet);
        row(name, fewest, time);
    }
    for lost in 1..=3 {
        let ring = ring(lost);
        let (fewest, few_vertices) = measured(&ring);
        let name = format!("ring of {}, {lost} lost elsewhere", TRAP_LIMIT - lost);
        row(&name, fewest, few_vertices);
        row("the same, 1,024 vertices", fewest, time(&wide(&ring), fewest));
    }
    let times: Vec<f64> = random_sheets().iter().map(|sheet| measured(sheet).1).collect();
    let mean = times.iter().sum::<f64>() / BOARDS as f64;
    let slowest = times.iter().copied().fold(0.0, f64::max);
    println!("{:>38} {mean:>9.2}", format!("{BOARDS} at random, mean"));
    println!("{:>38} {slowest:>9.2}", format!("{BOARDS} at random, slowest"));
}

/// The fewest edges of a trap by the plain search, for boards of few vertices, on which it is quick; and
/// the time.
fn measured(sheet: &Sheet) -> (Option<usize>, f64) {
    let fewest = trap_into(&sheet.board, &sheet.loss, TRAP_LIMIT).expect("no refusal");
    (fewest, time(sheet, fewest))
}

/// The time in milliseconds. That so many edges are said, and a trap is shown, is looked at before it is
/// taken.
fn time(sheet: &Sheet, fewest: Option<usize>) -> f64 {
    let (board, loss) = (lent(sheet).board, &sheet.loss);
    let mut set = [0; TRAP_LIMIT];
    assert_eq!(table::trap(board, loss, &mut set), Ok(fewest), "{sheet:?}");
    assert_eq!(size(&set), fewest.unwrap_or(0), "{sheet:?}");
    assert_eq!(is_trap(&sheet.board, loss, &set), fewest.is_some(), "{sheet:?}");
    let microseconds = best(1, || {
        let answer = table::trap(board, loss, &mut set);
        assert!(black_box(answer).is_ok());
    });
    microseconds / 1000.0
}

/// Boards with nothing lost. On the path no loop winds, so that no set is tried.
fn sheets() -> Vec<(&'static str, Sheet)> {
    let side_by_side: Vec<_> = (0..16).map(|edge| (0, 1, u8::from(edge == 15))).collect();
    vec![
        ("path, no mark", Sheet::new(path(17), &[], &[])),
        ("side by side", Sheet::new(Board::new(2, &side_by_side), &[], &[])),
        ("ring of 16", ring(0)),
    ]
}

/// So many lost loop edges without a mark, at a vertex by itself, and then the edges of a ring, of which
/// the last has a mark. A smallest trap is half of the ring, rounded up; where some are lost the search
/// begins at fewer edges, as all lost ones count.
fn ring(lost: usize) -> Sheet {
    let around = TRAP_LIMIT - lost;
    let mut ring = long_ring(around);
    ring.marks[around - 1] = 1;
    let ends = [vec![around as u16; 2 * lost], ring.ends].concat();
    let marks = [vec![0; lost], ring.marks].concat();
    let board = Board { vertices: around + 1, ends, marks, open: vec![0; around + 1] };
    Sheet::new(board, &[], &(0..lost).collect::<Vec<usize>>())
}

/// The same ring with its vertices far apart among as many as there may be.
fn wide(sheet: &Sheet) -> Sheet {
    let ends = sheet.board.ends.iter().map(|&end| 60 * end).collect();
    let marks = sheet.board.marks.clone();
    let board = Board { vertices: 1024, ends, marks, open: vec![0; 1024] };
    Sheet { loss: sheet.loss.clone(), ..Sheet::new(board, &[], &[]) }
}

/// Boards with edges anywhere, some of them loop edges, and cycles with chords; some with open vertices.
/// Every fifth edge is lost, or none.
fn random_sheets() -> Vec<Sheet> {
    let mut random = Random::new(SEED);
    let sheet = |number: usize| {
        let vertices = random.from_to(8, TRAP_LIMIT);
        let board = match number % 3 {
            0 => crowd(&mut random, vertices, TRAP_LIMIT),
            1 => crowd_with_loops(&mut random, vertices, TRAP_LIMIT),
            _ => cycle(&mut random, vertices, TRAP_LIMIT - vertices),
        };
        let board = if number.is_multiple_of(5) { opened(&mut random, board) } else { board };
        let loss = random.set(TRAP_LIMIT, if number.is_multiple_of(4) { 200 } else { 0 });
        Sheet { loss, ..Sheet::new(board, &[], &[]) }
    };
    (0..BOARDS).map(sheet).collect()
}
