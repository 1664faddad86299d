//! Holds demand 3 against the plain decoder on seeded random boards, without open vertices and with
//! them, and what growing in rounds promises against the plain decoder in rounds; prints what was done.
//!
//! It fails where a part of a statement is broken, where a part had nothing to say, where no board
//! shows that the bound cannot be one lower, and where a wrong decoder passes.

use std::process::ExitCode;

use demand3::wrong::{self, Decoder, RoundsDecoder};
use demand3::{Part, RoundsTally, Tally, hold, hold_rounds};
use demand3::{boards, every_board, every_open_board, open_boards};
use reference::board::{Board, Sheet, members, size, together};
use reference::generators::ring;
use reference::{decode, decode_rounds, distance};

const SEED: u64 = 20;
const BOARDS: usize = 10_000;
const OPEN_BOARDS: usize = 8_000;

/// Every board with at most so many edges is gone through in rounds.
const EDGES: usize = 4;

/// Every board with at most so many edges, its vertices numbered as they come, is gone through with
/// every set of open vertices.
const OPEN_EDGES: usize = 3;

/// A board with its lost edges.
type Lossy = (Board, Vec<u8>);

fn main() -> ExitCode {
    match run() {
        Ok(()) => ExitCode::SUCCESS,
        Err(message) => {
            eprintln!("demand 3: {message}");
            ExitCode::FAILURE
        }
    }
}

fn run() -> Result<(), String> {
    println!("demand 3 against every set of edges, seed {SEED}");
    let boards = boards(SEED, BOARDS);
    seen(hold_on(boards.iter().cloned())?.has_seen_all())?;
    show_m3()?;
    refute_wrong_decoders(&boards, &wrong::ALL)?;
    println!("in rounds, on the same boards");
    closed_rounds(hold_rounds_on(boards.iter().cloned())?)?;
    println!("in rounds, on every board with at most {EDGES} edges and marks 0 and 1");
    closed_rounds(hold_rounds_on((0..=EDGES).flat_map(every_board))?)?;
    refute_wrong_rounds(&boards, &wrong::ROUNDS)?;
    show_one_half(&boards)?;
    run_open()
}

/// The same with open vertices.
fn run_open() -> Result<(), String> {
    println!("demand 3 on boards with open vertices, seed {SEED}");
    let boards = open_boards(SEED, OPEN_BOARDS);
    seen(hold_on(boards.iter().cloned())?.has_seen_open())?;
    let every = || (0..=OPEN_EDGES).flat_map(every_open_board);
    let small = format!("boards of at most {OPEN_EDGES} edges, marks 0 and 1 and every open set");
    println!("demand 3 on {small}");
    hold_on(every())?;
    refute_wrong_decoders(&boards, &wrong::OPEN)?;
    println!("in rounds, on the same boards with open vertices");
    seen(hold_rounds_on(boards.iter().cloned())?.has_seen_open())?;
    println!("in rounds, on {small}");
    hold_rounds_on(every())?;
    refute_wrong_rounds(&boards, &wrong::OPEN_ROUNDS)
}

/// Whether a statement had something to say in each of its parts.
fn seen(all: bool) -> Result<(), String> {
    if all { Ok(()) } else { Err("a part of the statement had nothing to say".to_string()) }
}

/// Two things that rounds do not promise but that are never seen otherwise where no vertex is open.
fn closed_rounds(tally: RoundsTally) -> Result<(), String> {
    seen(tally.has_seen_all())?;
    if tally.above_s + tally.covered_wound > 0 {
        return Err("rounds are above s, or a covered set winds".to_string());
    }
    Ok(())
}

fn hold_on(boards: impl Iterator<Item = Lossy>) -> Result<Tally, String> {
    let mut tally = Tally::default();
    for (board, loss) in boards {
        hold(&board, &loss, decode, &mut tally).map_err(|broken| format!("{broken:?}"))?;
    }
    print(&tally);
    Ok(tally)
}

fn print(tally: &Tally) {
    print_lines(&[
        (tally.boards, "boards, each with its lost edges"),
        (tally.syndromes, "syndromes, all of each board"),
        (tally.unmet, "of them met by no set, and exactly these are answered 10"),
        (tally.sets, "sets E, all of each board: the correction has E's syndrome, growths <= 2s"),
        (tally.growths_reached, "of them with growths = 2s, s above 0"),
        (
            tally.covered,
            "with every winding loop above t + 2s edges, s above 0: none winds with the correction",
        ),
        (tally.covered_lost_loop, "of them with a loop edge in E that is lost"),
        (tally.covered_kept_loop, "of them with a loop edge in E that is not lost"),
        (
            tally.one_short,
            "wind with the correction where every winding loop is above t + 2s - 1 edges",
        ),
        (tally.one_short_unlost, "of them with nothing lost"),
        (tally.one_short_loop, "of them with a loop edge in E"),
    ]);
    if tally.covered_open > 0 {
        print_lines(&[
            (
                tally.covered_open,
                "with every winding loop above t + 2s edges: E ends at open vertices",
            ),
            (
                tally.covered_over_open,
                "of these E and the correction end at different open vertices",
            ),
            (
                tally.one_short_open,
                "one short: E and the correction end at different open vertices",
            ),
        ]);
    }
}

fn print_lines(lines: &[(usize, &str)]) {
    for (count, what) in lines {
        println!("{count:>9} {what}");
    }
}

/// m3: the ring with all edges lost, E being its last edge alone.
fn show_m3() -> Result<(), String> {
    let ring = ring();
    let sheet = Sheet::new(ring.clone(), &[0, 3], &[0, 1, 2, 3]);
    let error = [0, 0, 0, 1];
    let key = decode(&sheet).map_err(|refusal| format!("m3: {refusal:?}"))?;
    let kept = members(&error).filter(|&edge| sheet.loss[edge] == 0).count();
    let reach = size(&sheet.loss) + 2 * kept;
    let fewest = distance::by_search(&ring).ok_or("m3: no distance")?;
    let winds = ring.winds(&together(&error, &key.correction));
    let correction: Vec<usize> = members(&key.correction).collect();
    println!(
        "m3: E = {{3}}, t + 2s = {reach}, distance {fewest}, correction {correction:?}, together they wind: {winds}"
    );
    let counterexample = winds && fewest > reach - 1 && ring.syndrome(&error) == sheet.syndrome;
    if counterexample { Ok(()) } else { Err("m3 is no counterexample to t + 2s - 1".to_string()) }
}

fn refute_wrong_decoders(
    boards: &[Lossy],
    decoders: &[(&str, Decoder, Part)],
) -> Result<(), String> {
    for &(name, decoder, part) in decoders {
        let mut ignored = Tally::default();
        let found = boards
            .iter()
            .filter_map(|(board, loss)| hold(board, loss, decoder, &mut ignored).err())
            .find(|violation| violation.part == part);
        if found.is_none() {
            return Err(format!("a wrong decoder passes: {name}"));
        }
        println!("wrong decoder found out, {name}: {part:?}");
    }
    Ok(())
}

/// What rounds promise.
fn hold_rounds_on(boards: impl Iterator<Item = Lossy>) -> Result<RoundsTally, String> {
    let mut tally = RoundsTally::default();
    for (board, loss) in boards {
        hold_rounds(&board, &loss, decode_rounds, &mut tally)
            .map_err(|broken| format!("{broken:?}"))?;
    }
    print_rounds(&tally);
    Ok(tally)
}

fn print_rounds(tally: &RoundsTally) {
    print_lines(&[
        (tally.boards, "boards, each with its lost edges"),
        (tally.unmet, "syndromes met by no set, and exactly these are answered 10"),
        (
            tally.sets,
            "sets E: the correction has E's syndrome and lies in the full edges, rounds <= 2s",
        ),
        (tally.s_reached, "of them with rounds = s, s above 0"),
        (tally.s_reached_lost_loop, "of these with a loop edge in E that is lost"),
        (tally.above_s, "with rounds above s; not promised"),
        (tally.twice_s, "of these with rounds = 2s"),
        (tally.covered, "with every winding loop above t + 2s edges, s above 0"),
        (tally.covered_wound, "of these wind with the correction; not promised"),
        (tally.one_short, "wind where every winding loop is above t + 2s - 1 edges"),
    ]);
}

fn refute_wrong_rounds(
    boards: &[Lossy],
    decoders: &[(&str, RoundsDecoder, Part)],
) -> Result<(), String> {
    for &(name, decoder, part) in decoders {
        let mut ignored = RoundsTally::default();
        let found = boards
            .iter()
            .filter_map(|(board, loss)| hold_rounds(board, loss, decoder, &mut ignored).err())
            .find(|violation| violation.part == part);
        if found.is_none() {
            return Err(format!("a wrong decoder in rounds passes: {name}"));
        }
        println!("wrong decoder in rounds found out, {name}: {part:?}");
    }
    Ok(())
}

/// A wrong decoder that keeps the promise, and is found out by what is counted beside it.
fn show_one_half(boards: &[Lossy]) -> Result<(), String> {
    let mut tally = RoundsTally::default();
    for (board, loss) in boards {
        hold_rounds(board, loss, wrong::gains_one_half, &mut tally)
            .map_err(|broken| format!("{broken:?}"))?;
    }
    let RoundsTally { above_s, covered_wound, .. } = tally;
    if above_s == 0 || covered_wound == 0 {
        return Err("one half-edge in a round passes".to_string());
    }
    println!(
        "wrong decoder in rounds, an edge gains one half-edge in a round: rounds <= 2s, but above s for {above_s} sets, and {covered_wound} covered sets wind"
    );
    Ok(())
}
