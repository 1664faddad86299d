//! Setting a trap.

use crate::exported::call;
use crate::returned::{impossible, values};
use crate::{Board, Refusal};

/// Finds the fewest edges of a trap and writes one such trap, a byte for each edge; `None`, and all
/// bytes 0, where there is none.
///
/// A set is a trap where the key misleads: the correction that [`decode`](crate::decode) gives for its
/// syndrome, with these edges lost, winds together with it, so that [`verdict`](crate::verdict) says
/// [`Wound`](crate::Verdict::Wound) of the set. Where several traps have the fewest edges, which of them
/// is written is left open.
///
/// There is a trap exactly where some loop winds; on a board with open vertices that may run from one of
/// them to another. The smallest has at most half as many edges as the [`distance`](crate::distance),
/// rounded up, and a trap with s edges that are not lost, on a board with t lost edges, has t + 2s no
/// smaller than the distance.
///
/// # Errors
///
/// [`Refusal::TrapEdges`] says that the board has more than [`TRAP_EDGES`](crate::TRAP_EDGES) edges;
/// any other rule that the lent buffers break comes before it.
///
/// # Examples
///
/// Two edges join two vertices, and the second has a mark. The table answers with the first, or with the
/// one that is lost:
///
/// ```
/// use table::{Board, trap};
///
/// let mut set = [9; 2];
/// let pair = Board { vertices: 2, ends: &[0, 1, 0, 1], marks: &[0, 1], open: &[0, 0] };
/// assert_eq!(trap(pair, &[0, 0], &mut set), Ok(Some(1)));
/// assert_eq!(set, [0, 1]);
/// assert_eq!(trap(pair, &[0, 1], &mut set), Ok(Some(1)));
/// assert_eq!(set, [1, 0]);
///
/// let unmarked = Board { marks: &[0, 0], ..pair };
/// assert_eq!(trap(unmarked, &[0, 0], &mut set), Ok(None));
/// assert_eq!(set, [0, 0]);
/// ```
///
/// With nothing lost, a trap on the ring has two edges. With two edges lost a single one is a trap: its
/// ends are lit, and the table goes the long way round.
///
/// ```
/// use table::{Board, Sheet, Verdict, trap, verdict};
///
/// let ends = &[0, 1, 1, 2, 2, 3, 3, 0];
/// let board = Board { vertices: 4, ends, marks: &[0, 0, 0, 1], open: &[0; 4] };
/// let mut set = [9; 4];
/// assert_eq!(trap(board, &[0; 4], &mut set), Ok(Some(2)));
/// let loss = &[1, 1, 0, 0];
/// assert_eq!(trap(board, loss, &mut set), Ok(Some(1)));
/// assert_eq!(set, [0, 0, 0, 1]);
///
/// let sheet = Sheet { board, syndrome: &[1, 0, 0, 1], loss };
/// assert_eq!(verdict(sheet, &set), Ok(Verdict::Wound(1)));
/// ```
#[must_use = "a refusal has written nothing"]
pub fn trap(board: Board<'_>, loss: &[u8], set: &mut [u8]) -> Result<Option<usize>, Refusal> {
    let Board { vertices, ends, marks, open } = board;
    let returned = call!(surface_trap(vertices; ends, marks, open, loss; set));
    returned_trap(returned, marks.len())
}

/// The fewest edges of a trap, on a board with so many edges, that a returned number stands for. A trap
/// has an edge at least: the correction of an empty syndrome is empty.
fn returned_trap(returned: u64, edges: usize) -> Result<Option<usize>, Refusal> {
    match values(returned, &[1, 2, 3, 4, 6, 8, 16, 23])? {
        (0, 0) => Ok(None),
        (fewest @ 1.., 1) if fewest <= edges => Ok(Some(fewest)),
        _ => impossible(returned),
    }
}

#[cfg(test)]
mod tests {
    use super::returned_trap;
    use crate::Refusal;

    #[test]
    fn each_answer() {
        assert_eq!(returned_trap(0, 0), Ok(None));
        assert_eq!(returned_trap(0, 16), Ok(None));
        assert_eq!(returned_trap(1 << 8 | 1 << 40, 1), Ok(Some(1)));
        assert_eq!(returned_trap(16 << 8 | 1 << 40, 16), Ok(Some(16)));
        assert_eq!(returned_trap(8 | 4095 << 8, 4096), Err(Refusal::LossByte(4095)));
        assert_eq!(returned_trap(16 | 1023 << 8, 4), Err(Refusal::OpenByte(1023)));
        assert_eq!(returned_trap(23, 17), Err(Refusal::TrapEdges));
    }

    #[test]
    #[should_panic(expected = "returned 0x10000000000, which this call never answers")]
    fn trap_without_edges() {
        let _ = returned_trap(1 << 40, 4);
    }

    #[test]
    #[should_panic(expected = "returned 0x400, which this call never answers")]
    fn edges_of_no_trap() {
        let _ = returned_trap(4 << 8, 4);
    }

    #[test]
    #[should_panic(expected = "returned 0x20000000400, which this call never answers")]
    fn neither_some_nor_none() {
        let _ = returned_trap(4 << 8 | 2 << 40, 4);
    }

    #[test]
    #[should_panic(expected = "returned 0x10000000500, which this call never answers")]
    fn edge_too_many() {
        let _ = returned_trap(5 << 8 | 1 << 40, 4);
    }

    #[test]
    #[should_panic(expected = "returned 0x117, which this call never answers")]
    fn place_of_too_many_edges() {
        let _ = returned_trap(23 | 1 << 8, 17);
    }

    #[test]
    #[should_panic(expected = "returned 0xa, which this call never answers")]
    fn no_correction() {
        let _ = returned_trap(10, 4);
    }

    #[test]
    #[should_panic(expected = "returned 0x11, which this call never answers")]
    fn number_of_a_syndrome() {
        let _ = returned_trap(17, 4);
    }
}
