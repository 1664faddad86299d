//! Clusters of vertices: which vertices each has, and whether it is odd.

use reference::Sheet;

use super::VERTICES;
use super::labels::Labels;

/// The two bits of a cluster's state: whether an odd number of its vertices is lit, and whether one
/// is open. A cluster is odd where the first alone is set.
const ODD: u8 = 1;
const OPEN: u8 = 2;

pub struct Clusters {
    labels: Labels,
    /// Of each cluster, at its label; 0 at all other vertices.
    state: [u8; VERTICES],
    /// Of each cluster, at its label, its largest vertex.
    last: [u16; VERTICES],
}

/// Two clusters that became one: the label that is kept, whether that cluster is odd, and the label
/// that is gone.
pub struct Fusion {
    pub kept: u16,
    pub odd: bool,
    pub gone: u16,
}

impl Default for Clusters {
    fn default() -> Clusters {
        Clusters { labels: Labels::default(), state: [0; VERTICES], last: [0; VERTICES] }
    }
}

impl Clusters {
    /// Finds the clusters that some edges make.
    pub fn find<'a>(&mut self, sheet: &Sheet, edges: impl Iterator<Item = &'a [u16; 2]>) {
        self.labels.alone(sheet.board.vertices);
        for &[a, b] in edges {
            self.labels.join(a, b);
        }
        self.labels.flatten();
        self.state[..sheet.board.vertices].fill(0);
        let lit_and_open = sheet.syndrome.iter().zip(&sheet.board.open);
        for (vertex, (&label, (lit, open))) in (0..).zip(self.labels.all().iter().zip(lit_and_open))
        {
            let at = usize::from(label) % VERTICES;
            self.state[at] = (self.state[at] ^ (ODD * lit)) | (OPEN * open);
            self.last[at] = vertex;
        }
    }

    pub fn labels(&self) -> &Labels {
        &self.labels
    }

    /// The largest vertex of a cluster. Its label is the smallest.
    pub fn last(&self, label: u16) -> u16 {
        self.last[usize::from(label) % VERTICES]
    }

    /// Of each vertex, whether it is the label of an odd cluster.
    pub fn odd(&self) -> impl Iterator<Item = bool> {
        self.state[..self.labels.all().len()].iter().map(|&state| state == ODD)
    }

    pub fn any_odd(&self) -> bool {
        self.odd().fold(false, |any, odd| any | odd)
    }

    /// Makes the clusters of two vertices one, if they are two.
    pub fn fuse(&mut self, ends: [u16; 2]) -> Option<Fusion> {
        let [x, y] = ends.map(|vertex| self.labels.of(vertex));
        if x == y {
            return None;
        }
        let (kept, gone) = (x.min(y), x.max(y));
        self.labels.replace(gone, self.last(gone), kept);
        let [at, from] = [kept, gone].map(|label| usize::from(label) % VERTICES);
        let (p, q) = (self.state[at], self.state[from]);
        self.state[at] = ((p ^ q) & ODD) | ((p | q) & OPEN);
        self.state[from] = 0;
        self.last[at] = self.last[at].max(self.last[from]);
        Some(Fusion { kept, odd: self.state[at] == ODD, gone })
    }

    /// Lights the smallest open vertex of each cluster in which an odd number is lit.
    pub fn light_open_ends(&mut self, open: &[u8], lit: &mut [u8]) {
        for ((&label, open), lit) in self.labels.all().iter().zip(open).zip(lit) {
            let state = &mut self.state[usize::from(label) % VERTICES];
            let added = open & *state & ODD;
            *state ^= added;
            *lit |= added;
        }
    }
}
