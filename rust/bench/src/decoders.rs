//! The library's decoders and the three programs to compare with, in one shape.

use std::hint::black_box;
use std::time::Duration;

use reference::{Key, RoundsKey, Sheet, decode_rounds};
use table_bench::counted::Counted;
use table_bench::plain::{Answer, Plain};
use table_bench::sheets::lent;
use table_bench::tuned::Tuned;

use crate::timing::{RUNS, each, time};

#[derive(Clone, Copy, Debug)]
pub enum Decoder {
    Table,
    Plain,
    Tuned,
    Counted,
    /// The library's, in rounds.
    Rounds,
}

/// The programs that give the same keys as the library.
const PROGRAMS: [Decoder; 3] = [Decoder::Plain, Decoder::Tuned, Decoder::Counted];

/// What is timed by turns with others: a decoder on some sheets.
pub type Lane<'a> = (Decoder, &'a [Sheet]);

/// What the programs keep from one sheet to the next, and the buffers that all decoders fill.
pub struct Decoders {
    plain: Plain,
    tuned: Box<Tuned>,
    counted: Box<Counted>,
    support: Vec<u8>,
    correction: Vec<u8>,
}

impl Default for Decoders {
    fn default() -> Decoders {
        Decoders {
            plain: Plain::default(),
            tuned: Box::default(),
            counted: Box::default(),
            support: vec![0; table::EDGES],
            correction: vec![0; table::EDGES],
        }
    }
}

impl Decoders {
    fn decode(&mut self, decoder: Decoder, sheet: &Sheet) -> Answer {
        let edges = sheet.board.edges();
        let (support, correction) = (&mut self.support[..edges], &mut self.correction[..edges]);
        match decoder {
            Decoder::Plain => self.plain.decode(sheet, support, correction),
            Decoder::Tuned => self.tuned.decode(sheet, support, correction),
            Decoder::Counted => self.counted.decode(sheet, support, correction),
            Decoder::Table => {
                let key = table::decode(lent(sheet), support, correction).ok()?;
                Some((key.growths, key.edges))
            }
            Decoder::Rounds => {
                let key = table::decode_rounds(lent(sheet), support, correction).ok()?;
                Some((key.rounds, key.edges))
            }
        }
    }

    /// A decoder's key; of that in rounds the rounds are its growths.
    fn key(&mut self, decoder: Decoder, sheet: &Sheet) -> Key {
        self.support.fill(7);
        self.correction.fill(7);
        let Some((growths, edges)) = self.decode(decoder, sheet) else {
            panic!("refused by {decoder:?}: {sheet:?}");
        };
        let [support, correction] =
            [&self.support, &self.correction].map(|bytes| bytes[..sheet.board.edges()].to_vec());
        let key = Key { growths, support, correction };
        assert_eq!(key.edges(), edges, "{decoder:?}: {sheet:?}");
        key
    }

    /// Compares the library's keys with those of all programs, and returns the growths of a sheet, in
    /// the mean.
    pub fn same_keys(&mut self, sheets: &[Sheet]) -> f64 {
        let mut growths = 0;
        for sheet in sheets {
            let key = self.key(Decoder::Table, sheet);
            for program in PROGRAMS {
                assert!(self.key(program, sheet) == key, "{program:?}: {sheet:?}");
            }
            growths += key.growths;
        }
        growths as f64 / sheets.len() as f64
    }

    /// Compares the library's keys in rounds with the reference's, which has no time of its own here.
    pub fn same_rounds(&mut self, sheets: &[Sheet]) {
        for sheet in sheets {
            let Key { growths: rounds, support, correction } = self.key(Decoder::Rounds, sheet);
            let key = RoundsKey { rounds, support, correction };
            assert!(decode_rounds(sheet) == Ok(key), "{sheet:?}");
        }
    }

    /// The time of going through all sheets so many times.
    pub fn time(&mut self, decoder: Decoder, sheets: &[Sheet], times: usize) -> Duration {
        time(|| {
            for sheet in (0..times).flat_map(|_| sheets) {
                black_box(self.decode(decoder, sheet));
            }
        })
    }

    /// The best times of some lanes, which have equally many sheets, in microseconds for a sheet. They
    /// run by turns, a block of so many sheets of each, so that what else the machine does falls on all;
    /// of each block the best run counts. All sheets are gone through so many times in a run.
    pub fn by_turns<const N: usize>(
        &mut self,
        lanes: [Lane<'_>; N],
        block: usize,
        times: usize,
    ) -> [f64; N] {
        let sheets = lanes[0].1.len();
        let mut best = vec![[Duration::MAX; N]; sheets.div_ceil(block)];
        for _ in 0..RUNS {
            for (number, best) in best.iter_mut().enumerate() {
                let block = number * block..sheets.min((number + 1) * block);
                for (best, (decoder, sheets)) in best.iter_mut().zip(lanes) {
                    *best = self.time(decoder, &sheets[block.clone()], times).min(*best);
                }
            }
        }
        let total = |lane: usize| best.iter().map(|best| best[lane]).sum();
        std::array::from_fn(|lane| each(total(lane), times * sheets))
    }
}
