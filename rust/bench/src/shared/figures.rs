//! The figures that a choice goes by, each a cluster's boundary size, and the least of them.

use super::clusters::{Clusters, Fusion};
use super::{ALL, VERTICES};

/// Figures have a sign because of such numbers alone the processor takes the smaller ones of eight
/// pairs at once, with no instructions beyond those that each x86-64 has.
pub type Figure = i16;

/// Added to the figure of each vertex that isn't the label of an odd cluster: more than any boundary.
const NOT_ODD: Figure = 2048;

/// Figures are looked through in blocks of so many.
const BLOCK: usize = 64;

pub struct Figures {
    /// What the figure of a cluster is counted from, at its label, with [`NOT_ODD`] where it isn't odd.
    base: [Figure; VERTICES],
    figure: [Figure; ALL],
    /// How many figures there are, with those that fill the last block up.
    count: usize,
}

impl Default for Figures {
    fn default() -> Figures {
        Figures { base: [0; VERTICES], figure: [0; ALL], count: 0 }
    }
}

impl Figures {
    /// Begins a sheet: all figures are counted from 0.
    pub fn start(&mut self, clusters: &Clusters) {
        self.count = clusters.labels().all().len().next_multiple_of(BLOCK);
        self.base[..self.count].fill(NOT_ODD);
        for (base, odd) in self.base.iter_mut().zip(clusters.odd()) {
            *base = if odd { 0 } else { NOT_ODD };
        }
    }

    /// The figure of each cluster is counted from its number of vertices instead.
    pub fn count_from_sizes(&mut self, clusters: &Clusters) {
        for &label in clusters.labels().all() {
            self.base[usize::from(label) % VERTICES] += 1;
        }
    }

    /// Of two clusters that became one, what their figures were counted from is added up.
    pub fn fuse(&mut self, Fusion { kept, odd, gone }: Fusion) {
        let [kept, gone] = [kept, gone].map(|label| usize::from(label) % VERTICES);
        let sum = (self.base[kept] + self.base[gone]) % NOT_ODD;
        self.base[kept] = if odd { sum } else { sum + NOT_ODD };
        self.base[gone] = NOT_ODD;
    }

    /// Sets all figures to what they are counted from, and lends them to be counted.
    pub fn begin(&mut self) -> &mut [Figure; ALL] {
        self.figure[..self.count].copy_from_slice(&self.base[..self.count]);
        &mut self.figure
    }

    /// Where the first of the smallest figures is, if a cluster is odd.
    pub fn least(&self) -> Option<u16> {
        let (mut smallest, mut at) = (NOT_ODD, 0);
        let blocks: &[[Figure; BLOCK]] = self.figure[..self.count].as_chunks().0;
        for (number, block) in blocks.iter().enumerate() {
            let least = block.iter().fold(NOT_ODD, |least, &figure| least.min(figure));
            if least < smallest {
                (smallest, at) = (least, number);
            }
        }
        let within = blocks[at].iter().position(|&figure| figure == smallest)?;
        (smallest < NOT_ODD).then_some((at * BLOCK + within) as u16)
    }
}
