//! The program to compare with in a third form, which goes further than the comparison asks: it counts
//! from the other side. It keeps no boundary size, nor whether a vertex is exposed, but the size of each
//! cluster and how many ends each vertex has, and its passes look at what is full or hidden alone.
//!
//! - Few edges are full as a rule, so their ends are counted: a vertex is exposed where it has more
//!   ends than that. Where most edges are full, the ends of the others are counted.
//! - Most vertices are exposed as a rule, so the others are counted: the boundary is what they leave of
//!   the cluster's size.
//!
//! A growth is that of [`tuned`](crate::tuned).

use reference::Sheet;

use crate::shared::clusters::Clusters;
use crate::shared::edges::Edges;
use crate::shared::figures::{Figure, Figures};
use crate::shared::labels::{self, Labels};
use crate::shared::steps::{Counting, Steps};
use crate::shared::{ALL, VERTICES};

pub type Counted = Steps<Counts>;

pub struct Counts {
    vertices: usize,
    /// How many ends of edges each vertex has. A loop edge has both of its ends there.
    degree: [u16; VERTICES],
    /// How many of them are left, as their edges aren't full: found anew at each choice. What fills the
    /// last block of vertices up has one.
    left: [u16; ALL],
}

impl Default for Counts {
    fn default() -> Counts {
        Counts { vertices: 0, degree: [0; VERTICES], left: [0; ALL] }
    }
}

impl Counting for Counts {
    fn start(&mut self, sheet: &Sheet, clusters: &Clusters, figures: &mut Figures) {
        figures.count_from_sizes(clusters);
        self.vertices = sheet.board.vertices;
        self.degree[..self.vertices].fill(0);
        for &end in &sheet.board.ends {
            self.degree[usize::from(end) % VERTICES] += 1;
        }
        self.left[self.vertices..self.vertices.next_multiple_of(labels::BLOCK)].fill(1);
    }

    fn count(&mut self, edges: &Edges, clusters: &Clusters, figures: &mut Figures) {
        self.find_left(edges);
        self.take_hidden(clusters.labels(), figures.begin());
    }
}

impl Counts {
    /// Finds how many ends each vertex has left: one pass over all edges.
    fn find_left(&mut self, edges: &Edges) {
        let Counts { vertices, degree, left } = self;
        if edges.are_few_full() {
            left[..*vertices].copy_from_slice(&degree[..*vertices]);
            edges.for_full_ends(|end| left[usize::from(end)] -= 1);
        } else {
            left[..*vertices].fill(0);
            edges.for_live_ends(|end| left[usize::from(end)] += 1);
        }
    }

    /// Takes each hidden vertex, one with no ends left, from the figure of its cluster: one pass over
    /// all vertices.
    fn take_hidden(&self, labels: &Labels, figure: &mut [Figure; ALL]) {
        for (labels, left) in labels.blocks().iter().zip(self.left.as_chunks().0) {
            if left.iter().fold(false, |any, &left| any | (left == 0)) {
                take_hidden_of(labels, left, figure);
            }
        }
    }
}

/// Takes the hidden vertices of a block that has some. It stays apart from the pass over the blocks,
/// which is faster without it.
#[inline(never)]
fn take_hidden_of(
    labels: &[u16; labels::BLOCK],
    left: &[u16; labels::BLOCK],
    figure: &mut [Figure; ALL],
) {
    // In a block that is within one cluster one change of its figure is enough.
    if *labels == [labels[0]; labels::BLOCK] {
        let hidden = left.iter().fold(0, |sum, &left| sum + Figure::from(left == 0));
        figure[usize::from(labels[0])] -= hidden;
        return;
    }
    for (&label, &left) in labels.iter().zip(left) {
        if left == 0 {
            figure[usize::from(label)] -= 1;
        }
    }
}
