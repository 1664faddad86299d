//! Each vertex has its cluster's label, the smallest vertex in the cluster.

use super::VERTICES;

/// Labels are looked through and replaced in blocks of so many.
pub const BLOCK: usize = 16;

pub struct Labels {
    label: [u16; VERTICES],
    vertices: usize,
}

impl Default for Labels {
    fn default() -> Labels {
        Labels { label: [0; VERTICES], vertices: 0 }
    }
}

impl Labels {
    /// So many vertices, each alone, and so is what fills the last block up.
    pub fn alone(&mut self, vertices: usize) {
        self.vertices = vertices;
        let padded = vertices.next_multiple_of(BLOCK);
        for (vertex, label) in self.label[..padded].iter_mut().enumerate() {
            *label = vertex as u16;
        }
    }

    /// The label of each vertex.
    pub fn all(&self) -> &[u16] {
        &self.label[..self.vertices]
    }

    /// The label of each vertex, in blocks.
    pub fn blocks(&self) -> &[[u16; BLOCK]] {
        &self.label.as_chunks().0[..self.vertices.div_ceil(BLOCK)]
    }

    pub fn of(&self, vertex: u16) -> u16 {
        self.label[usize::from(vertex) % VERTICES]
    }

    /// One label instead of another, which no vertex after a last one has.
    pub fn replace(&mut self, old: u16, last: u16, new: u16) {
        let blocks: &mut [[u16; BLOCK]] = self.label.as_chunks_mut().0;
        for block in &mut blocks[usize::from(old) / BLOCK..=usize::from(last) / BLOCK] {
            for label in block {
                *label = if *label == old { new } else { *label };
            }
        }
    }

    /// Makes the clusters of two vertices one, and says whether they were two. Until
    /// [`flatten`](Labels::flatten) a vertex has not its label but a parent in its cluster, which is
    /// smaller than it, or itself where it is the label.
    ///
    /// This is Rem's algorithm: the vertex with the larger parent gets the other's parent, and what was
    /// its parent is joined instead of it, until a label has been given a parent or both have the same.
    pub fn join(&mut self, mut a: u16, mut b: u16) -> bool {
        while self.of(a) != self.of(b) {
            if self.of(a) < self.of(b) {
                (a, b) = (b, a);
            }
            let parent = self.of(a);
            self.label[usize::from(a) % VERTICES] = self.of(b);
            if parent == a {
                return true;
            }
            a = parent;
        }
        false
    }

    /// Gives each vertex its label. What a vertex has is smaller than it, and so has its label already.
    pub fn flatten(&mut self) {
        for vertex in 0..self.vertices {
            self.label[vertex] = self.of(self.label[vertex]);
        }
    }
}
