//! Document 01, "Board and loops", and what document 02, K5, adds: vertices may be open.

/// The largest vertex count of a board.
pub const VERTEX_LIMIT: usize = 1024;

/// The largest edge count of a board.
pub const EDGE_LIMIT: usize = 4096;

/// A graph as it is lent: two ends and a mark for each edge, and for each vertex a byte that says
/// whether it is open. Nothing says that it keeps the rules.
#[derive(Clone, Debug, PartialEq, Eq)]
pub struct Board {
    pub vertices: usize,
    pub ends: Vec<u16>,
    pub marks: Vec<u8>,
    pub open: Vec<u8>,
}

/// A board with its syndrome, a byte for each vertex, and its loss, a byte for each edge.
#[derive(Clone, Debug, PartialEq, Eq)]
pub struct Sheet {
    pub board: Board,
    pub syndrome: Vec<u8>,
    pub loss: Vec<u8>,
}

impl Board {
    /// The board with these edges, each given by its two ends and its mark, and no open vertex.
    pub fn new(vertices: usize, edges: &[(u16, u16, u8)]) -> Board {
        Board {
            vertices,
            ends: edges.iter().flat_map(|&(a, b, _)| [a, b]).collect(),
            marks: edges.iter().map(|&(_, _, mark)| mark).collect(),
            open: vec![0; vertices],
        }
    }

    /// The board with these vertices open, and no others.
    pub fn with_open(self, open: &[usize]) -> Board {
        Board { open: set_of(self.vertices, open), ..self }
    }

    /// The number of edges.
    pub fn edges(&self) -> usize {
        self.ends.len() / 2
    }

    /// The two ends of an edge.
    pub fn ends_of(&self, edge: usize) -> [usize; 2] {
        [self.ends[2 * edge].into(), self.ends[2 * edge + 1].into()]
    }

    /// Whether both ends of an edge are one vertex.
    pub fn is_loop(&self, edge: usize) -> bool {
        let [a, b] = self.ends_of(edge);
        a == b
    }

    /// The odd ends of an edge set: the vertices, open or not, touching an odd number of its edges. A
    /// loop edge touches its vertex with both ends, so it adds nothing.
    pub fn odd_ends(&self, set: &[u8]) -> Vec<u8> {
        let mut odd = vec![0; self.vertices];
        for edge in members(set) {
            for end in self.ends_of(edge) {
                odd[end] ^= 1;
            }
        }
        odd
    }

    /// The syndrome of an edge set: its odd ends without the open ones, which have no syndrome.
    pub fn syndrome(&self, set: &[u8]) -> Vec<u8> {
        self.dark_where_open(self.odd_ends(set))
    }

    /// A set of vertices without the open ones.
    pub fn dark_where_open(&self, set: Vec<u8>) -> Vec<u8> {
        set.iter().zip(&self.open).map(|(&lit, &open)| if open == 1 { 0 } else { lit }).collect()
    }

    /// The exclusive or of a set's marks.
    pub fn crossings(&self, set: &[u8]) -> u8 {
        members(set).fold(0, |sum, edge| sum ^ self.marks[edge])
    }

    /// An edge set is closed if its syndrome is empty: evenness is asked at no open vertex.
    pub fn is_closed(&self, set: &[u8]) -> bool {
        size(&self.syndrome(set)) == 0
    }

    /// It winds if it is closed and the exclusive or of its marks isn't 0.
    pub fn winds(&self, set: &[u8]) -> bool {
        self.is_closed(set) && self.crossings(set) != 0
    }

    /// Whether some of a set's edges wind, for sets of few edges: all choices of them are tried. The game
    /// finds it out in a way of its own, which is compared with this one.
    pub fn contains_winding_loop(&self, set: &[u8]) -> bool {
        let own: Vec<usize> = members(set).collect();
        assert!(own.len() < 24, "too many choices");
        (0_u32..1 << own.len()).any(|choice| {
            let chosen = (0..own.len()).filter(|at| choice >> at & 1 == 1);
            let edges: Vec<usize> = chosen.map(|at| own[at]).collect();
            self.winds(&set_of(set.len(), &edges))
        })
    }
}

impl Sheet {
    /// The sheet with these syndrome vertices and lost edges.
    pub fn new(board: Board, lit: &[usize], lost: &[usize]) -> Sheet {
        Sheet { syndrome: set_of(board.vertices, lit), loss: set_of(board.edges(), lost), board }
    }
}

/// Two sets together: an edge in both cancels.
pub fn together(a: &[u8], b: &[u8]) -> Vec<u8> {
    assert_eq!(a.len(), b.len());
    a.iter().zip(b).map(|(x, y)| x ^ y).collect()
}

/// How many members a set has.
pub fn size(set: &[u8]) -> usize {
    members(set).count()
}

/// The members of a set, rising.
pub fn members(set: &[u8]) -> impl Iterator<Item = usize> + '_ {
    (0..set.len()).filter(|&i| set[i] == 1)
}

/// The set of the numbers on a list, as a byte for each number below `count`.
pub fn set_of(count: usize, list: &[usize]) -> Vec<u8> {
    let mut set = vec![0; count];
    for &i in list {
        set[i] = 1;
    }
    set
}
