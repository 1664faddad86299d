//! Every call on seeded random boards of every kind, compared with the plain decoder.

use reference::board::together;
use reference::generators::{Kind, sheet};
use reference::torus::torus;
use reference::{Random, Sheet};
use table::Verdict;
use table_tests::agrees;
use table_tests::loops::closed_set;

const BOARDS: usize = 24_000;

/// How often each outcome was seen.
#[derive(Debug, Default)]
struct Seen {
    grown: usize,
    still: usize,
    refused: usize,
    off: usize,
    same: usize,
    wound: usize,
    rounds_differ: usize,
    distance: usize,
    no_distance: usize,
}

#[test]
fn every_call_agrees() {
    let mut random = Random::new(101);
    let mut seen = Seen::default();
    for round in 0..BOARDS {
        let kind = Kind::ALL[round % Kind::ALL.len()];
        let board = kind.board(&mut random);
        let sheet = sheet(&mut random, board);
        let near = match (agrees::decode(&sheet), agrees::decode_rounds(&sheet)) {
            (Ok(key), Ok(rounds)) => {
                *(if key.growths > 0 { &mut seen.grown } else { &mut seen.still }) += 1;
                seen.rounds_differ += usize::from(key.support != rounds.support);
                key.correction
            }
            (decoded, in_rounds) => {
                assert_eq!(decoded.err(), in_rounds.err(), "{sheet:?}");
                seen.refused += 1;
                vec![0; sheet.board.edges()]
            }
        };
        judge(&mut random, &sheet, &near, &mut seen);
        let found = agrees::distance(&sheet.board).expect("a board that keeps the rules");
        *(if found.is_some() { &mut seen.distance } else { &mut seen.no_distance }) += 1;
        let text = agrees::write(&sheet).expect("a short text");
        assert_eq!(agrees::read(&text).as_ref(), Ok(&sheet));
    }
    println!("{BOARDS} boards: {seen:?}");
    let Seen { grown, still, refused, off, same, wound, rounds_differ, distance, no_distance } =
        seen;
    let all = [grown, still, refused, off, same, wound, rounds_differ, distance, no_distance];
    assert!(all.iter().all(|&count| count > 1000), "{seen:?}");
}

/// Verdicts on a set, on that set with a closed one, and on any set at all.
fn judge(random: &mut Random, sheet: &Sheet, near: &[u8], seen: &mut Seen) {
    let closed = closed_set(random, &sheet.board);
    let any = random.set(near.len(), 200);
    for handed in [near.to_vec(), together(near, &closed), any] {
        match agrees::verdict(sheet, &handed) {
            Ok(Verdict::Off(_)) => seen.off += 1,
            Ok(Verdict::Same) => seen.same += 1,
            Ok(Verdict::Wound(_)) => seen.wound += 1,
            Err(_) => {}
        }
    }
}

#[test]
fn tori_with_flips_and_losses() {
    let mut random = Random::new(102);
    for side in 1..=16 {
        let board = torus(side);
        for rate in [10, 25, 50, 100, 200] {
            let error = random.set(board.edges(), rate);
            let loss = random.set(board.edges(), rate / 2);
            let syndrome = board.syndrome(&error);
            let sheet = Sheet { board: board.clone(), syndrome, loss };
            agrees::decode(&sheet).expect("the error has the syndrome");
            let verdict = agrees::verdict(&sheet, &error);
            assert!(matches!(verdict, Ok(Verdict::Same | Verdict::Wound(_))), "{verdict:?}");
        }
    }
}
