//! The edges of a board with their ends, and masks of those that are full and those that are not.

use reference::Sheet;

use super::clusters::Clusters;
use super::{EDGES, pairs};

/// Ends are looked through in blocks of so many edges.
const BLOCK: usize = 8;

/// How many edges have their bits in one word of a mask.
const WORD: usize = 64;
const WORDS: usize = EDGES / WORD;

type Mask = [u64; WORDS];

pub struct Edges {
    /// What fills the last word up has no vertices for ends, and no bits in the masks.
    ends: [[[u16; 2]; WORD]; WORDS],
    full: Mask,
    live: Mask,
    /// How many edges there are, how many of them are full, and how many words have them all.
    edges: usize,
    full_edges: usize,
    words: usize,
}

impl Default for Edges {
    fn default() -> Edges {
        Edges {
            ends: [[[0; 2]; WORD]; WORDS],
            full: [0; WORDS],
            live: [0; WORDS],
            edges: 0,
            full_edges: 0,
            words: 0,
        }
    }
}

impl Edges {
    /// Begins a sheet: the lost edges are full.
    pub fn start(&mut self, sheet: &Sheet) {
        let pairs = pairs(&sheet.board);
        (self.edges, self.full_edges, self.words) = (pairs.len(), 0, pairs.len().div_ceil(WORD));
        let ends = self.ends.as_flattened_mut();
        ends[..pairs.len()].copy_from_slice(pairs);
        ends[pairs.len()..self.words * WORD].fill([u16::MAX; 2]);
        for (number, loss) in sheet.loss.chunks(WORD).enumerate() {
            self.full[number] = 0;
            self.live[number] = u64::MAX >> (WORD - loss.len());
            if loss.contains(&1) {
                let lost = (number * WORD..).zip(loss).filter(|(_, lost)| **lost == 1);
                lost.for_each(|(edge, _)| self.fill(edge as u16));
            }
        }
    }

    /// An edge is full from now on.
    fn fill(&mut self, edge: u16) {
        let word = usize::from(edge) / WORD % WORDS;
        let bit = 1 << (usize::from(edge) % WORD);
        self.full[word] |= bit;
        self.live[word] &= !bit;
        self.full_edges += 1;
    }

    /// Whether no more edges are full than are not.
    pub fn are_few_full(&self) -> bool {
        2 * self.full_edges <= self.edges
    }

    /// Goes over all edges, and hands out both ends of each full one, from set bit to set bit.
    pub fn for_full_ends(&self, mut use_end: impl FnMut(u16)) {
        for (ends, &full) in self.ends[..self.words].iter().zip(&self.full) {
            let mut full = full;
            while full != 0 {
                ends[full.trailing_zeros() as usize].iter().for_each(|&end| use_end(end));
                full &= full - 1;
            }
        }
    }

    /// Goes over all edges, and hands out both ends of each that isn't full. Of a word whose bits are
    /// all set, as is the rule, it looks at no single one.
    pub fn for_live_ends(&self, mut use_end: impl FnMut(u16)) {
        for (ends, &live) in self.ends[..self.words].iter().zip(&self.live) {
            if live == u64::MAX {
                ends.as_flattened().iter().for_each(|&end| use_end(end));
                continue;
            }
            for (bit, ends) in ends.iter().enumerate() {
                if (live >> bit) & 1 == 1 {
                    ends.iter().for_each(|&end| use_end(end));
                }
            }
        }
    }

    /// Step 4 but for the fusions: one pass over all edges, in blocks. The ends of a block are held
    /// against the cluster's smallest and largest vertex, and labels looked up where one is between.
    pub fn raise(
        &mut self,
        chosen: u16,
        clusters: &Clusters,
        support: &mut [u8],
        filled: &mut Vec<u16>,
    ) {
        let (labels, last) = (clusters.labels(), clusters.last(chosen));
        for (number, block) in self.blocks().iter().enumerate() {
            if any_between(block.as_flattened(), chosen, last) && self.any_live(number) {
                for (edge, ends) in (number * BLOCK..).zip(block) {
                    let [a, b] = ends.map(|end| u8::from(labels.of(end) == chosen));
                    if a + b != 0 {
                        give(edge, a + b, support, filled);
                    }
                }
            }
        }
        for &edge in &*filled {
            self.fill(edge);
        }
    }

    /// The ends of all edges in blocks.
    fn blocks(&self) -> &[[[u16; 2]; BLOCK]] {
        self.ends[..self.words].as_flattened().as_chunks().0
    }

    /// Whether a block has an edge that isn't full.
    fn any_live(&self, block: usize) -> bool {
        let first = block * BLOCK;
        (self.live[first / WORD % WORDS] >> (first % WORD)) as u8 != 0
    }
}

/// Whether one of some vertices is neither before the first nor after the last.
fn any_between(vertices: &[u16], first: u16, last: u16) -> bool {
    let between = |vertex: u16| vertex.wrapping_sub(first) <= last - first;
    vertices.iter().fold(false, |any, &vertex| any | between(vertex))
}

/// Gives an edge so many half-edges more, though no more than two in all, and lists it where it is
/// full then. Does nothing where it was full before, or where the number is that of no edge.
fn give(edge: usize, gain: u8, support: &mut [u8], filled: &mut Vec<u16>) {
    if let Some(support) = support.get_mut(edge)
        && *support < 2
    {
        *support = 2.min(*support + gain);
        if *support == 2 {
            filled.push(edge as u16);
        }
    }
}
