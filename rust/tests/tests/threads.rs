//! Calls on several threads at once: sheets are shared, buffers are each thread's own.

use std::thread;

use reference::generators::{Kind, opened, sheet};
use reference::torus::torus;
use reference::{PackedSheet, Random, Sheet};
use table::{GAME_EDGES, TRAP_EDGES};
use table_tests::packed::{Listing, Packing, Unpacking, decode_packed, lit_total};
use table_tests::{agrees, game, library, trap};

const THREADS: usize = 4;

/// Small sheets of every kind, half of them with open vertices, and tori, whose keys take longer.
fn sheets() -> Vec<Sheet> {
    let mut random = Random::new(141);
    let mut sheets: Vec<Sheet> = (0..2000)
        .map(|round| {
            let board = Kind::ALL[round % Kind::ALL.len()].board(&mut random);
            let board = if round % 20 < 10 { board } else { opened(&mut random, board) };
            sheet(&mut random, board)
        })
        .collect();
    for _ in 0..40 {
        let board = torus(16);
        let syndrome = board.syndrome(&random.set(board.edges(), 50));
        let loss = random.set(board.edges(), 20);
        sheets.push(Sheet { board, syndrome, loss });
    }
    sheets
}

#[test]
fn keys_are_those_of_one_thread() {
    let sheets = &sheets();
    let decode = |sheet: &Sheet| {
        let packed = PackedSheet::new(sheet);
        let keys = (library::decode(sheet), library::decode_packed(&packed));
        (keys, library::decode_rounds(sheet))
    };
    let keys: &Vec<_> = &sheets.iter().map(decode).collect();
    thread::scope(|scope| {
        for first in 0..THREADS {
            scope.spawn(move || {
                let turn = sheets.len() / THREADS * first;
                for at in (turn..sheets.len()).chain(0..turn) {
                    assert_eq!(decode(&sheets[at]), keys[at], "{:?}", sheets[at]);
                }
            });
        }
    });
}

/// Each thread makes other calls than its neighbours at the same time.
#[test]
fn all_calls_at_once() {
    let sheets = &sheets()[..1000];
    thread::scope(|scope| {
        scope.spawn(|| {
            for sheet in sheets {
                let _ = agrees::decode(sheet);
            }
        });
        scope.spawn(|| {
            for sheet in sheets {
                let _ = agrees::decode_rounds(sheet);
            }
        });
        scope.spawn(|| {
            for sheet in sheets {
                agrees::distance(&sheet.board).expect("a board that keeps the rules");
            }
        });
        scope.spawn(|| {
            for sheet in sheets {
                let text = agrees::write(sheet).expect("a short text");
                assert_eq!(agrees::read(&text).as_ref(), Ok(sheet));
            }
        });
        scope.spawn(|| {
            for (round, sheet) in sheets.iter().enumerate() {
                let _ = agrees::verdict(sheet, &sheet.loss);
                let side = 1 + round as u32 % 32;
                let edges = 2 * (side * side) as usize;
                agrees::torus_with(side, 2 * edges, edges).expect("a side in range");
                let side = 2 + round as u32 % 30;
                let edges = (side * side + (side - 1) * (side - 1)) as usize;
                let vertices = (side * (side + 1)) as usize;
                agrees::planar_with(side, 2 * edges, edges, vertices).expect("a side in range");
            }
        });
        scope.spawn(|| {
            for round in 0..sheets.len() as u32 {
                let side = 1 + round % 32;
                let rounds = 1 + round % (1024 / (side * side));
                let readings: Vec<u8> =
                    (0..rounds * side * side).map(|at| (at % 3 == round % 3).into()).collect();
                agrees::stack(side, rounds, &readings).expect("a side and rounds in range");
            }
        });
        scope.spawn(|| {
            let mut random = Random::new(142);
            for round in 0..sheets.len() {
                let side = 1 + round % 12;
                let board = torus(side);
                let [error, loss] = [0; 2].map(|_| random.set(board.edges(), 50));
                let answer = agrees::faces(side as u32, &board.syndrome(&error), &loss, &error);
                assert!(answer.is_ok(), "the error has the syndrome");
            }
        });
        scope.spawn(|| {
            for sheet in sheets {
                let Sheet { board, syndrome, loss } = sheet;
                let words = Packing::new(syndrome, loss).call().expect("words");
                let bytes = Unpacking::new(board.vertices, board.edges(), &words).call();
                assert_eq!(bytes, Ok((syndrome.clone(), loss.clone())));
                let lit = Listing::new(board.vertices, &words.0).call().expect("a list");
                assert_eq!(lit_total(board.vertices, &words.0), Ok(lit.len()));
                let _ = decode_packed(&PackedSheet::new(sheet));
            }
        });
        scope.spawn(|| {
            for Sheet { board, .. } in sheets {
                let played = game::game(board, &vec![0; board.edges()]);
                assert_eq!(played.is_ok(), board.edges() <= GAME_EDGES, "{played:?}");
            }
        });
        scope.spawn(|| {
            // Where there are nine edges or more, and not too many, the plain search that a trap is
            // compared with takes longer than all else.
            let few = |edges: usize| edges <= 8 || edges > TRAP_EDGES;
            for Sheet { board, loss, .. } in sheets.iter().filter(|sheet| few(sheet.loss.len())) {
                let set = trap::trap(board, loss);
                assert_eq!(set.is_ok(), board.edges() <= TRAP_EDGES, "{set:?}");
            }
        });
    });
}
