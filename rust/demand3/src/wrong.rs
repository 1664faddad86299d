//! Decoders that demand 3 shuts out, and decoders in rounds that their promise shuts out: holding it
//! against each must find a violation. One keeps the promise, and shows in what is counted beside it.

use reference::board::{Board, Sheet, members};
use reference::components::components;
use reference::decoding::smallest_odd;
use reference::open_sides::wanted_ends;
use reference::refusal::{NO_CORRECTION, refuse};
use reference::{Key, Refusal, RoundsKey, decode, decode_rounds, peeling};

use crate::Part;

/// A decoder, by what it does.
pub type Decoder = fn(&Sheet) -> Result<Key, Refusal>;

/// Each wrong decoder: what is wrong with it, and the part of the statement that finds it out.
pub const ALL: [(&str, Decoder, Part); 6] = [
    ("the board's own forest peeled without growth", peels_the_board, Part::Winds),
    ("an empty correction", corrects_nothing, Part::WrongSyndrome),
    ("10 before looking", refuses_at_once, Part::RefusedThoughMet),
    ("never 10", never_refuses, Part::AnsweredThoughUnmet),
    ("one growth more than made", counts_one_more, Part::TooManyGrowths),
    ("the loop edges in the correction", corrects_loops, Part::Winds),
];

/// Each decoder that is wrong on boards with open vertices, likewise.
pub const OPEN: [(&str, Decoder, Part); 3] = [
    ("10 for odd parts that hold an open vertex", refuses_open_parts, Part::RefusedThoughMet),
    ("clusters with an open vertex grow", grows_open_clusters, Part::TooManyGrowths),
    ("no open vertex is added to the odd ends", adds_no_open_end, Part::WrongSyndrome),
];

/// A decoder in rounds, by what it does.
pub type RoundsDecoder = fn(&Sheet) -> Result<RoundsKey, Refusal>;

/// Each wrong decoder in rounds: what is wrong with it, and the part of the promise that finds it out.
pub const ROUNDS: [(&str, RoundsDecoder, Part); 5] = [
    ("the board's own forest peeled after the rounds", peels_the_board_in_rounds, Part::NotFull),
    ("an empty correction", corrects_nothing_in_rounds, Part::WrongSyndrome),
    ("10 before looking", refuses_rounds_at_once, Part::RefusedThoughMet),
    ("one round more than made", counts_a_round_more, Part::TooManyRounds),
    ("a count of half-edges for the rounds", counts_half_edges, Part::TooManyRounds),
];

/// Each decoder in rounds that is wrong on boards with open vertices, likewise.
pub const OPEN_ROUNDS: [(&str, RoundsDecoder, Part); 2] = [
    ("10 for odd parts that hold an open vertex", refuses_open_rounds, Part::RefusedThoughMet),
    ("clusters with an open vertex grow", grows_open_clusters_in_rounds, Part::TooManyRounds),
];

fn peels_the_board(sheet: &Sheet) -> Result<Key, Refusal> {
    let correction = peeled_board(sheet)?;
    Ok(Key { growths: 0, support: vec![2; sheet.board.edges()], correction })
}

/// The correction in the forest of all edges, full or not.
fn peeled_board(sheet: &Sheet) -> Result<Vec<u8>, Refusal> {
    if let Some(vertex) = smallest_odd(&sheet.board, &sheet.syndrome) {
        return refuse(NO_CORRECTION, vertex);
    }
    let forest = peeling::forest(&sheet.board, |_| true);
    Ok(peeling::peel(&sheet.board, &forest, &sheet.syndrome).expect("no odd part"))
}

fn corrects_nothing(sheet: &Sheet) -> Result<Key, Refusal> {
    let key = decode(sheet)?;
    Ok(Key { correction: vec![0; sheet.board.edges()], ..key })
}

fn refuses_at_once(_: &Sheet) -> Result<Key, Refusal> {
    refuse(NO_CORRECTION, 0)
}

fn never_refuses(sheet: &Sheet) -> Result<Key, Refusal> {
    let nothing = vec![0; sheet.board.edges()];
    let empty = Key { growths: 0, support: nothing.clone(), correction: nothing };
    Ok(decode(sheet).unwrap_or(empty))
}

fn counts_one_more(sheet: &Sheet) -> Result<Key, Refusal> {
    let key = decode(sheet)?;
    Ok(Key { growths: key.growths + 1, ..key })
}

fn corrects_loops(sheet: &Sheet) -> Result<Key, Refusal> {
    let mut key = decode(sheet)?;
    for edge in (0..sheet.board.edges()).filter(|&edge| sheet.board.is_loop(edge)) {
        key.correction[edge] = 1;
    }
    Ok(key)
}

fn peels_the_board_in_rounds(sheet: &Sheet) -> Result<RoundsKey, Refusal> {
    let key = decode_rounds(sheet)?;
    Ok(RoundsKey { correction: peeled_board(sheet)?, ..key })
}

fn corrects_nothing_in_rounds(sheet: &Sheet) -> Result<RoundsKey, Refusal> {
    let key = decode_rounds(sheet)?;
    Ok(RoundsKey { correction: vec![0; sheet.board.edges()], ..key })
}

fn refuses_rounds_at_once(_: &Sheet) -> Result<RoundsKey, Refusal> {
    refuse(NO_CORRECTION, 0)
}

fn counts_a_round_more(sheet: &Sheet) -> Result<RoundsKey, Refusal> {
    let key = decode_rounds(sheet)?;
    Ok(RoundsKey { rounds: key.rounds + 1, ..key })
}

/// The half-edges of all edges that are not lost.
fn counts_half_edges(sheet: &Sheet) -> Result<RoundsKey, Refusal> {
    let key = decode_rounds(sheet)?;
    let gained = key.support.iter().zip(&sheet.loss).filter(|(_, lost)| **lost == 0);
    let rounds = gained.map(|(&support, _)| usize::from(support)).sum();
    Ok(RoundsKey { rounds, ..key })
}

/// An edge gains one half-edge in a round at most, where both of its ends lie in odd clusters too. All
/// that rounds promise is kept then; but rounds are above s for some sets, and some wind with the
/// correction though every winding loop has more than t + 2s edges.
pub fn gains_one_half(sheet: &Sheet) -> Result<RoundsKey, Refusal> {
    decode_rounds(sheet)?;
    let board = &sheet.board;
    let mut support: Vec<u8> = sheet.loss.iter().map(|lost| 2 * lost).collect();
    let mut rounds = 0;
    loop {
        let cluster = components(board, |edge| support[edge] == 2);
        let mut odd = vec![false; board.vertices];
        for vertex in members(&sheet.syndrome) {
            odd[cluster[vertex]] ^= true;
        }
        if !odd.contains(&true) {
            break;
        }
        for (edge, support) in support.iter_mut().enumerate() {
            let gains = board.ends_of(edge).iter().any(|&end| odd[cluster[end]]);
            *support = 2.min(*support + u8::from(gains));
        }
        rounds += 1;
    }
    let forest = peeling::forest(board, |edge| support[edge] == 2);
    let correction = peeling::peel(board, &forest, &sheet.syndrome).expect("no odd cluster");
    Ok(RoundsKey { rounds, support, correction })
}

/// Number 10 where some part of the board with all vertices closed is odd.
fn refuse_open_parts(sheet: &Sheet) -> Result<(), Refusal> {
    let closed = Board { open: vec![0; sheet.board.vertices], ..sheet.board.clone() };
    match smallest_odd(&closed, &sheet.syndrome) {
        Some(vertex) => refuse(NO_CORRECTION, vertex),
        None => Ok(()),
    }
}

fn refuses_open_parts(sheet: &Sheet) -> Result<Key, Refusal> {
    refuse_open_parts(sheet)?;
    decode(sheet)
}

fn refuses_open_rounds(sheet: &Sheet) -> Result<RoundsKey, Refusal> {
    refuse_open_parts(sheet)?;
    decode_rounds(sheet)
}

/// The correction without the ends that were added: what it has of each cluster that has one is left
/// out.
fn adds_no_open_end(sheet: &Sheet) -> Result<Key, Refusal> {
    let mut key = decode(sheet)?;
    let board = &sheet.board;
    let cluster = components(board, |edge| key.support[edge] == 2);
    let ends = board.odd_ends(&key.correction);
    for end in members(&ends).filter(|&end| board.open[end] == 1) {
        for edge in (0..board.edges()).filter(|&e| cluster[board.ends_of(e)[0]] == cluster[end]) {
            key.correction[edge] = 0;
        }
    }
    Ok(key)
}

fn grows_open_clusters(sheet: &Sheet) -> Result<Key, Refusal> {
    decode(sheet)?;
    let (growths, support) = grown_past_open(sheet, false);
    let correction = peeled(sheet, &support);
    Ok(Key { growths, support, correction })
}

fn grows_open_clusters_in_rounds(sheet: &Sheet) -> Result<RoundsKey, Refusal> {
    decode_rounds(sheet)?;
    let (rounds, support) = grown_past_open(sheet, true);
    let correction = peeled(sheet, &support);
    Ok(RoundsKey { rounds, support, correction })
}

/// Growth in which a cluster is odd by its syndrome alone, whatever vertices it holds, until those that
/// are odd have no edge left to grow: the first of them by itself, or all together.
fn grown_past_open(sheet: &Sheet, together: bool) -> (usize, Vec<u8>) {
    let board = &sheet.board;
    let mut support: Vec<u8> = sheet.loss.iter().map(|lost| 2 * lost).collect();
    for steps in 0.. {
        let cluster = components(board, |edge| support[edge] == 2);
        let mut odd = vec![false; board.vertices];
        for vertex in members(&sheet.syndrome) {
            odd[cluster[vertex]] ^= true;
        }
        let gains = |edge: usize, name: usize| {
            let ends = board.ends_of(edge);
            support[edge] < 2 && ends.iter().any(|&end| cluster[end] == name)
        };
        let mut grow: Vec<usize> = (0..board.vertices)
            .filter(|&name| odd[name] && (0..board.edges()).any(|edge| gains(edge, name)))
            .collect();
        grow.truncate(if together { board.vertices } else { 1 });
        if grow.is_empty() {
            return (steps, support);
        }
        for (edge, support) in support.iter_mut().enumerate() {
            let ends = board.ends_of(edge).into_iter().filter(|&end| grow.contains(&cluster[end]));
            *support = 2.min(*support + ends.count() as u8);
        }
    }
    unreachable!("no support is above 2")
}

/// The correction in the forest of the full edges.
fn peeled(sheet: &Sheet, support: &[u8]) -> Vec<u8> {
    let board = &sheet.board;
    let full = |edge: usize| support[edge] == 2;
    let wanted = wanted_ends(board, &sheet.syndrome, &components(board, full));
    peeling::peel(board, &peeling::forest(board, full), &wanted).expect("no odd part")
}
