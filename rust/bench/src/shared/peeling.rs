//! The forest of the full edges, and in it the correction.

use super::labels::Labels;
use super::{EDGES, VERTICES};

pub struct Peeling {
    joined: Labels,
    lit: [u8; VERTICES],
    /// Of each vertex in the forest: how many edges are left, and the exclusive or of their numbers.
    degree: [u16; VERTICES],
    incident: [u16; VERTICES],
    vertices: usize,
}

impl Default for Peeling {
    fn default() -> Peeling {
        Peeling {
            joined: Labels::default(),
            lit: [0; VERTICES],
            degree: [0; VERTICES],
            incident: [0; VERTICES],
            vertices: 0,
        }
    }
}

impl Peeling {
    /// Lights the vertices of a syndrome, and lends the bytes so that more may be lit.
    pub fn light(&mut self, syndrome: &[u8]) -> &mut [u8] {
        self.vertices = syndrome.len();
        self.lit[..self.vertices].copy_from_slice(syndrome);
        &mut self.lit[..self.vertices]
    }

    /// Fills a correction that is all 0, and returns its number of edges.
    pub fn peel(&mut self, pairs: &[[u16; 2]], support: &[u8], correction: &mut [u8]) -> usize {
        self.find_forest(pairs, support);
        let mut edges = 0;
        for vertex in 0..self.vertices {
            // From each leaf inwards, as long as what is left after it is a leaf again.
            let mut leaf = vertex % VERTICES;
            while self.degree[leaf] == 1 {
                let edge = self.incident[leaf];
                let [a, b] = pairs[usize::from(edge)].map(usize::from);
                let other = (a ^ b ^ leaf) % VERTICES;
                self.degree[leaf] = 0;
                self.degree[other] -= 1;
                self.incident[other] ^= edge;
                let lit = self.lit[leaf];
                self.lit[other] ^= lit;
                correction[usize::from(edge)] = lit;
                edges += usize::from(lit);
                leaf = other;
            }
        }
        edges
    }

    /// Takes each full edge, in rising number, whose ends aren't joined yet.
    fn find_forest(&mut self, pairs: &[[u16; 2]], support: &[u8]) {
        self.joined.alone(self.vertices);
        self.degree[..self.vertices].fill(0);
        self.incident[..self.vertices].fill(0);
        for (edge, (&[a, b], _)) in
            pairs.iter().zip(support).enumerate().filter(|(_, (_, full))| **full == 2)
        {
            if self.joined.join(a, b) {
                for end in [a, b] {
                    self.degree[usize::from(end) % VERTICES] += 1;
                    self.incident[usize::from(end) % VERTICES] ^= (edge % EDGES) as u16;
                }
            }
        }
    }
}
