//! Every set of edges of one board, and what is held against a decoder however it grows.

use reference::Refusal;
use reference::board::{Board, Sheet};
use reference::refusal::NO_CORRECTION;

/// A part of a statement.
#[derive(Clone, Copy, Debug, PartialEq, Eq)]
pub enum Part {
    /// Not 10 where some set has the syndrome.
    RefusedThoughMet,
    /// No other refusal.
    RefusedOtherwise,
    /// 10 where no set has the syndrome.
    AnsweredThoughUnmet,
    /// The correction has the syndrome.
    WrongSyndrome,
    /// Growths are at most 2s.
    TooManyGrowths,
    /// No winding where every winding loop has more than t + 2s edges.
    Winds,
    /// In rounds, the correction lies inside the full edges.
    NotFull,
    /// Rounds are at most 2s.
    TooManyRounds,
}

/// A sheet on which a decoder's answer, with a key of this type, breaks a part of a statement, and
/// the set at fault if any.
#[derive(Clone, Debug, PartialEq, Eq)]
pub struct Violation<K> {
    pub part: Part,
    pub sheet: Sheet,
    pub answer: Result<K, Refusal>,
    pub set: Option<Vec<u8>>,
}

/// The part that is broken, and the set at fault if any.
pub(crate) type Broken = (Part, Option<u32>);

/// Holds a statement against a decoder's answer to each syndrome of a board with these lost edges. No
/// open vertex is in a syndrome.
pub(crate) fn hold_each<K>(
    board: &Board,
    loss: &[u8],
    decoder: impl Fn(&Sheet) -> Result<K, Refusal>,
    mut statement: impl FnMut(&Sets, u32, &Result<K, Refusal>) -> Result<(), Broken>,
) -> Result<(), Box<Violation<K>>> {
    let all = Sets::of(board, loss);
    let open = bits(&board.open);
    for syndrome in (0..1 << board.vertices).filter(|syndrome| syndrome & open == 0) {
        let sheet = Sheet {
            board: board.clone(),
            syndrome: bytes(syndrome, board.vertices),
            loss: loss.to_vec(),
        };
        let answer = decoder(&sheet);
        if let Err((part, set)) = statement(&all, syndrome, &answer) {
            let set = set.map(|set| bytes(set, board.edges()));
            return Err(Box::new(Violation { part, sheet, answer, set }));
        }
    }
    Ok(())
}

/// Every set of edges of a board, as bits: edge e at bit e, vertex v at bit v.
pub(crate) struct Sets {
    /// The open vertices.
    pub open: u32,
    /// The lost edges.
    pub lost: u32,
    /// The loop edges.
    pub loops: u32,
    /// The odd ends, open ones among them, and the exclusive or of the marks of each set, at the set's
    /// bits.
    sets: Vec<(u32, u8)>,
    /// The sets that have each syndrome, at the syndrome's bits.
    by_syndrome: Vec<Vec<u32>>,
    /// The fewest edges of a set that winds.
    pub distance: Option<usize>,
}

impl Sets {
    fn of(board: &Board, loss: &[u8]) -> Sets {
        let open = bits(&board.open);
        let mut sets = vec![(0, 0)];
        for edge in 0..board.edges() {
            let [a, b] = board.ends_of(edge);
            let without = sets.len();
            sets.extend_from_within(..);
            for (ends, marks) in &mut sets[without..] {
                *ends ^= (1 << a) ^ (1 << b);
                *marks ^= board.marks[edge];
            }
        }
        let mut by_syndrome = vec![Vec::new(); 1 << board.vertices];
        for (set, &(ends, _)) in sets.iter().enumerate() {
            by_syndrome[(ends & !open) as usize].push(set as u32);
        }
        let winding = by_syndrome[0].iter().filter(|&&set| sets[set as usize].1 != 0);
        let distance = winding.map(|&set| members(set)).min();
        let is_loop: Vec<u8> = (0..board.edges()).map(|edge| board.is_loop(edge).into()).collect();
        Sets { open, lost: bits(loss), loops: bits(&is_loop), sets, by_syndrome, distance }
    }

    /// The vertices, not open, that an odd number of a set's edges touch.
    fn syndrome(&self, set: u32) -> u32 {
        self.sets[set as usize].0 & !self.open
    }

    /// Whether an odd number of a set's edges touches some open vertex.
    pub fn ends_open(&self, set: u32) -> bool {
        self.sets[set as usize].0 & self.open != 0
    }

    /// The sets that have the syndrome: 10 exactly where there are none, and otherwise a correction
    /// that has it too.
    pub fn having(
        &self,
        syndrome: u32,
        correction: Result<u32, Refusal>,
    ) -> Result<&[u32], Broken> {
        let having = &self.by_syndrome[syndrome as usize];
        match (correction, having.first()) {
            (Ok(correction), Some(_)) if self.syndrome(correction) != syndrome => {
                Err((Part::WrongSyndrome, None))
            }
            (Ok(_), None) => Err((Part::AnsweredThoughUnmet, None)),
            (Err(refusal), _) if refusal.number != NO_CORRECTION => {
                Err((Part::RefusedOtherwise, None))
            }
            (Err(_), Some(&set)) => Err((Part::RefusedThoughMet, Some(set))),
            (Ok(_), Some(_)) | (Err(_), None) => Ok(having),
        }
    }

    /// How many edges of a set are not lost.
    pub fn kept(&self, set: u32) -> usize {
        members(set & !self.lost)
    }

    /// t + 2s of a set.
    pub fn reach(&self, set: u32) -> usize {
        members(self.lost) + 2 * self.kept(set)
    }

    /// Whether every winding loop has more edges than this.
    pub fn loops_above(&self, bound: usize) -> bool {
        self.distance.is_none_or(|fewest| fewest > bound)
    }

    /// Whether two sets with one syndrome wind together: they are closed together, over open vertices
    /// too.
    pub fn winds(&self, set: u32, other: u32) -> bool {
        self.sets[(set ^ other) as usize].1 != 0
    }
}

fn members(bits: u32) -> usize {
    bits.count_ones() as usize
}

fn bytes(bits: u32, count: usize) -> Vec<u8> {
    (0..count).map(|i| (bits >> i & 1) as u8).collect()
}

pub(crate) fn bits(bytes: &[u8]) -> u32 {
    bytes.iter().rev().fold(0, |bits, &byte| bits << 1 | u32::from(byte))
}
