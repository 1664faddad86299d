//! The steps that are the same in both programs.

use reference::Sheet;

use super::clusters::Clusters;
use super::edges::Edges;
use super::figures::Figures;
use super::peeling::Peeling;
use super::{pairs, rules};
use crate::plain::Answer;

/// What each program does in its own way.
pub trait Counting {
    /// Begins a sheet. The clusters are those of the lost edges, and figures are counted from 0.
    fn start(&mut self, sheet: &Sheet, clusters: &Clusters, figures: &mut Figures);

    /// Finds the boundary size of each odd cluster anew, as its figure.
    fn count(&mut self, edges: &Edges, clusters: &Clusters, figures: &mut Figures);
}

/// A program, with the arrays that it works in and keeps from one sheet to the next.
#[derive(Default)]
pub struct Steps<C> {
    clusters: Clusters,
    edges: Edges,
    figures: Figures,
    counting: C,
    filled: Vec<u16>,
    peeling: Peeling,
}

impl<C: Counting> Steps<C> {
    /// Decodes a sheet; none where it is refused, and then nothing is written.
    pub fn decode(&mut self, sheet: &Sheet, support: &mut [u8], correction: &mut [u8]) -> Answer {
        if !rules::kept(sheet, support, correction) {
            return None;
        }
        let lit = rules::largest(&sheet.syndrome) == 1;
        if lit && self.has_odd_part(sheet) {
            return None;
        }
        for (support, lost) in support.iter_mut().zip(&sheet.loss) {
            *support = 2 * lost;
        }
        correction.fill(0);
        if !lit {
            return Some((0, 0));
        }
        let growths = self.grow(sheet, support);
        self.clusters.light_open_ends(&sheet.board.open, self.peeling.light(&sheet.syndrome));
        Some((growths, self.peeling.peel(pairs(&sheet.board), support, correction)))
    }

    fn has_odd_part(&mut self, sheet: &Sheet) -> bool {
        self.clusters.find(sheet, pairs(&sheet.board).iter());
        self.clusters.any_odd()
    }

    fn grow(&mut self, sheet: &Sheet, support: &mut [u8]) -> usize {
        let pairs = pairs(&sheet.board);
        let lost = pairs.iter().zip(&sheet.loss).filter(|(_, lost)| **lost == 1);
        self.clusters.find(sheet, lost.map(|(ends, _)| ends));
        self.figures.start(&self.clusters);
        self.edges.start(sheet);
        self.counting.start(sheet, &self.clusters, &mut self.figures);
        let mut growths = 0;
        while let Some(chosen) = self.choose() {
            growths += 1;
            self.filled.clear();
            self.edges.raise(chosen, &self.clusters, support, &mut self.filled);
            for &edge in &self.filled {
                if let Some(fusion) = self.clusters.fuse(pairs[usize::from(edge)]) {
                    self.figures.fuse(fusion);
                }
            }
        }
        growths
    }

    /// The label of the cluster that grows: of the odd ones with the smallest boundary that with the
    /// smallest vertex.
    fn choose(&mut self) -> Option<u16> {
        self.counting.count(&self.edges, &self.clusters, &mut self.figures);
        self.figures.least()
    }
}
