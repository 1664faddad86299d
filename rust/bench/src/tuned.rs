//! The program to compare with once more, tuned with care: the passes of [`plain`](crate::plain) in the
//! fastest form that was found for them.
//!
//! Each choice makes one pass over all edges, which marks the ends of those that aren't full, and one
//! over all vertices, which adds each marked one to the boundary of its cluster, and takes the least;
//! each growth makes one pass over all edges. No boundary size is kept, nor whether a vertex is exposed:
//! each choice counts anew. There are no lists of a vertex's edges.
//!
//! What makes the passes fast:
//! - A mask says which edges aren't full. A choice takes 64 edges in one word; where all bits are set, as
//!   is the rule, it looks at no single one.
//! - A growth compares the ends of eight edges at once with the cluster's smallest and largest vertex,
//!   and looks up labels where one is between them.

use reference::Sheet;

use crate::shared::ALL;
use crate::shared::clusters::Clusters;
use crate::shared::edges::Edges;
use crate::shared::figures::{Figure, Figures};
use crate::shared::steps::{Counting, Steps};

pub type Tuned = Steps<Passes>;

pub struct Passes {
    /// 1 where a vertex is exposed: found anew at each choice.
    exposed: [u8; ALL],
}

impl Default for Passes {
    fn default() -> Passes {
        Passes { exposed: [0; ALL] }
    }
}

impl Counting for Passes {
    fn start(&mut self, _: &Sheet, _: &Clusters, _: &mut Figures) {}

    fn count(&mut self, edges: &Edges, clusters: &Clusters, figures: &mut Figures) {
        let (labels, figure) = (clusters.labels().all(), figures.begin());
        self.exposed[..labels.len()].fill(0);
        edges.for_live_ends(|end| self.exposed[usize::from(end)] = 1);
        for (&label, &exposed) in labels.iter().zip(&self.exposed) {
            figure[usize::from(label)] += Figure::from(exposed);
        }
    }
}
