//! What the calls are lent to read, and the limits of it.

/// The largest vertex count of a board, and the count of open bytes and of syndrome bytes that
/// [`read`](crate::read) is lent.
pub const VERTICES: usize = 1024;

/// The largest edge count of a board, and the count of marks and of loss bytes that
/// [`read`](crate::read) is lent; it is lent twice as many ends.
pub const EDGES: usize = 4096;

/// The largest edge count of a board that [`game`](crate::game) is lent.
pub const GAME_EDGES: usize = 10;

/// The largest edge count of a board that [`trap`](crate::trap) is lent.
pub const TRAP_EDGES: usize = 16;

/// The largest number of bytes of a text that is read or written.
pub const TEXT: usize = 65_536;

/// How many items, vertices or edges, a word has bits for.
pub(crate) const WORD: usize = 64;

/// The largest number of words of a packed syndrome: those that [`VERTICES`] vertices fill.
pub const SYNDROME_WORDS: usize = VERTICES / WORD;

/// The largest number of words of a packed loss: those that [`EDGES`] edges fill.
pub const LOSS_WORDS: usize = EDGES / WORD;

/// A graph with numbered vertices and edges.
#[derive(Clone, Copy, Debug, PartialEq, Eq)]
pub struct Board<'a> {
    /// 1 to [`VERTICES`].
    pub vertices: usize,
    /// Two for each edge, below the vertex count; at most twice [`EDGES`]. Where both are one vertex
    /// the edge is a loop edge: it adds nothing to any syndrome, and is closed by itself.
    pub ends: &'a [u16],
    /// One for each edge, 0 to 3: bit 0 says that it crosses line A, bit 1 line B.
    pub marks: &'a [u8],
    /// A byte for each vertex, 1 where it is open, else 0: at an open vertex an error may run off the
    /// board, so it has no syndrome, and a set may end there and be closed. All are 0 on a board
    /// without open sides.
    pub open: &'a [u8],
}

/// A board with its syndrome and its lost edges.
#[derive(Clone, Copy, Debug, PartialEq, Eq)]
pub struct Sheet<'a> {
    /// The board that was drawn.
    pub board: Board<'a>,
    /// A byte for each vertex, 1 where it is in the syndrome, else 0; 0 at each open vertex.
    pub syndrome: &'a [u8],
    /// A byte for each edge, 1 where it is lost, else 0.
    pub loss: &'a [u8],
}

/// A board with its syndrome and its lost edges, each packed into words: item i, a vertex or an edge,
/// is bit i % 64 of word i / 64. So many items fill a word for each 64 of them, and one more where some
/// are left; no bit past the last item is set.
#[derive(Clone, Copy, Debug, PartialEq, Eq)]
pub struct PackedSheet<'a> {
    /// The board that was drawn.
    pub board: Board<'a>,
    /// A bit for each vertex, 1 where it is in the syndrome, else 0; 0 at each open vertex. At most
    /// [`SYNDROME_WORDS`].
    pub syndrome: &'a [u64],
    /// A bit for each edge, 1 where it is lost, else 0. At most [`LOSS_WORDS`].
    pub loss: &'a [u64],
}
