//! The program to compare with: document 01's steps as one would write them for speed, but with no
//! boundary sizes kept. Each choice makes one pass over all edges and one over all vertices. Open
//! vertices are those of document 02, K5.
//!
//! It makes the same tests as the library and fills the same buffers, and it allocates nothing after
//! the first sheet of a size.

use reference::Sheet;

/// What the lent buffers are filled with, beside them: growths and correction edges.
pub type Answer = Option<(usize, usize)>;

/// The arrays that decoding works in, kept from one sheet to the next.
#[derive(Default)]
pub struct Plain {
    clusters: UnionFind,
    forest: UnionFind,
    /// Whether a vertex touches an edge that isn't full.
    exposed: Vec<bool>,
    /// Of each cluster, at its root.
    boundary: Vec<u16>,
    odd: Vec<bool>,
    open: Vec<bool>,
    smallest: Vec<u16>,
    newly_full: Vec<usize>,
    /// Of each vertex in the forest: how many edges are left, and the exclusive or of their numbers.
    degree: Vec<u16>,
    incident: Vec<usize>,
    lit: Vec<u8>,
}

impl Plain {
    /// Decodes a sheet; none where it is refused, and then nothing is written.
    pub fn decode(&mut self, sheet: &Sheet, support: &mut [u8], correction: &mut [u8]) -> Answer {
        if !keeps_the_rules(sheet, support, correction) || self.has_odd_part(sheet) {
            return None;
        }
        for (support, lost) in support.iter_mut().zip(&sheet.loss) {
            *support = 2 * lost;
        }
        let growths = self.grow(sheet, support);
        Some((growths, self.peel(sheet, support, correction)))
    }

    fn has_odd_part(&mut self, sheet: &Sheet) -> bool {
        let parts = &mut self.clusters;
        parts.reset(sheet.board.vertices);
        for ends in sheet.board.ends.chunks_exact(2) {
            parts.join(ends[0], ends[1]);
        }
        refill(&mut self.odd, sheet.board.vertices, false);
        refill(&mut self.open, sheet.board.vertices, false);
        for (vertex, (&lit, &open)) in sheet.syndrome.iter().zip(&sheet.board.open).enumerate() {
            let root = usize::from(parts.root(vertex as u16));
            self.odd[root] ^= lit == 1;
            self.open[root] |= open == 1;
        }
        self.odd.iter().zip(&self.open).any(|(&odd, &open)| odd && !open)
    }

    fn grow(&mut self, sheet: &Sheet, support: &mut [u8]) -> usize {
        let ends = &sheet.board.ends;
        self.clusters.reset(sheet.board.vertices);
        for (ends, _) in ends.chunks_exact(2).zip(&*support).filter(|(_, full)| **full == 2) {
            self.clusters.join(ends[0], ends[1]);
        }
        let mut growths = 0;
        while let Some(chosen) = self.choose(sheet, support) {
            growths += 1;
            self.newly_full.clear();
            for (edge, (ends, support)) in ends.chunks_exact(2).zip(&mut *support).enumerate() {
                if *support < 2 {
                    let first = self.clusters.parent[usize::from(ends[0])] == chosen;
                    let second = self.clusters.parent[usize::from(ends[1])] == chosen;
                    *support = 2.min(*support + u8::from(first) + u8::from(second));
                    if *support == 2 {
                        self.newly_full.push(edge);
                    }
                }
            }
            for &edge in &self.newly_full {
                self.clusters.join(ends[2 * edge], ends[2 * edge + 1]);
            }
        }
        growths
    }

    /// The root of the cluster that grows. After it every vertex's parent is its root.
    fn choose(&mut self, sheet: &Sheet, support: &[u8]) -> Option<u16> {
        let vertices = sheet.board.vertices;
        refill(&mut self.exposed, vertices, false);
        refill(&mut self.boundary, vertices, 0);
        refill(&mut self.odd, vertices, false);
        refill(&mut self.open, vertices, false);
        refill(&mut self.smallest, vertices, u16::MAX);
        for (ends, &support) in sheet.board.ends.chunks_exact(2).zip(support) {
            if support < 2 {
                self.exposed[usize::from(ends[0])] = true;
                self.exposed[usize::from(ends[1])] = true;
            }
        }
        for vertex in 0..vertices {
            let root = self.clusters.root(vertex as u16);
            self.clusters.parent[vertex] = root;
            let root = usize::from(root);
            self.boundary[root] += u16::from(self.exposed[vertex]);
            self.odd[root] ^= sheet.syndrome[vertex] == 1;
            self.open[root] |= sheet.board.open[vertex] == 1;
            self.smallest[root] = self.smallest[root].min(vertex as u16);
        }
        (0..vertices)
            .filter(|&root| self.odd[root] && !self.open[root])
            .min_by_key(|&root| (self.boundary[root], self.smallest[root]))
            .map(|root| root as u16)
    }

    /// Fills the correction and returns its number of edges.
    fn peel(&mut self, sheet: &Sheet, support: &[u8], correction: &mut [u8]) -> usize {
        let ends = &sheet.board.ends;
        self.forest.reset(sheet.board.vertices);
        refill(&mut self.degree, sheet.board.vertices, 0);
        refill(&mut self.incident, sheet.board.vertices, 0);
        correction.fill(0);
        for edge in (0..support.len()).filter(|&edge| support[edge] == 2) {
            if self.forest.join(ends[2 * edge], ends[2 * edge + 1]) {
                for end in [ends[2 * edge], ends[2 * edge + 1]].map(usize::from) {
                    self.degree[end] += 1;
                    self.incident[end] ^= edge;
                }
            }
        }
        self.lit.clone_from(&sheet.syndrome);
        self.add_open_ends(sheet);
        let mut edges = 0;
        for vertex in 0..sheet.board.vertices {
            // From each leaf inwards, as long as what is left after it is a leaf again.
            let mut leaf = vertex;
            while self.degree[leaf] == 1 {
                let edge = self.incident[leaf];
                let [a, b] = [ends[2 * edge], ends[2 * edge + 1]].map(usize::from);
                let other = a ^ b ^ leaf;
                self.degree[leaf] = 0;
                self.degree[other] -= 1;
                self.incident[other] ^= edge;
                if self.lit[leaf] == 1 {
                    correction[edge] = 1;
                    edges += 1;
                    self.lit[other] ^= 1;
                }
                leaf = other;
            }
        }
        edges
    }

    /// Adds to the lit vertices the smallest open one of each cluster in which an odd number is lit. The
    /// last choice left, at each root, whether it is odd, and the root as every vertex's parent.
    fn add_open_ends(&mut self, sheet: &Sheet) {
        for vertex in 0..sheet.board.vertices {
            let root = usize::from(self.clusters.parent[vertex]);
            if sheet.board.open[vertex] == 1 && self.odd[root] {
                self.odd[root] = false;
                self.lit[vertex] = 1;
            }
        }
    }
}

/// The tests 1 to 4, 6 to 8, 16 and 17.
fn keeps_the_rules(sheet: &Sheet, support: &[u8], correction: &[u8]) -> bool {
    let Sheet { board, syndrome, loss } = sheet;
    let edges = board.ends.len() / 2;
    (1..=1024).contains(&board.vertices)
        && board.ends.len().is_multiple_of(2)
        && edges <= 4096
        && [board.marks.len(), loss.len(), support.len(), correction.len()] == [edges; 4]
        && [syndrome.len(), board.open.len()] == [board.vertices; 2]
        && board.ends.iter().all(|&end| usize::from(end) < board.vertices)
        && board.marks.iter().all(|&mark| mark <= 3)
        && syndrome.iter().chain(loss).chain(&board.open).all(|&byte| byte <= 1)
        && syndrome.iter().zip(&board.open).all(|(&lit, &open)| lit & open == 0)
}

fn refill<T: Copy>(buffer: &mut Vec<T>, count: usize, value: T) {
    buffer.clear();
    buffer.resize(count, value);
}

/// Sets of vertices, by union by size and path halving.
#[derive(Default)]
struct UnionFind {
    parent: Vec<u16>,
    size: Vec<u16>,
}

impl UnionFind {
    fn reset(&mut self, vertices: usize) {
        self.parent.clear();
        self.parent.extend(0..vertices as u16);
        refill(&mut self.size, vertices, 1);
    }

    fn root(&mut self, mut vertex: u16) -> u16 {
        while self.parent[usize::from(vertex)] != vertex {
            let parent = self.parent[usize::from(vertex)];
            let above = self.parent[usize::from(parent)];
            self.parent[usize::from(vertex)] = above;
            vertex = above;
        }
        vertex
    }

    /// Whether the two were in different sets, which are then one.
    fn join(&mut self, a: u16, b: u16) -> bool {
        let (a, b) = (self.root(a), self.root(b));
        if a == b {
            return false;
        }
        let sizes = (self.size[usize::from(a)], self.size[usize::from(b)]);
        let (upper, lower) = if sizes.0 < sizes.1 { (b, a) } else { (a, b) };
        self.parent[usize::from(lower)] = upper;
        self.size[usize::from(upper)] = sizes.0 + sizes.1;
        true
    }
}
