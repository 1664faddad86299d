//! The distance.

use crate::exported::call;
use crate::returned::{impossible, values};
use crate::{Board, Refusal};

/// Finds the fewest edges of a winding loop and writes one such loop, a byte for each edge; `None`,
/// and all bytes 0, where no loop winds.
///
/// # Errors
///
/// A refusal says which rule the lent buffers break.
///
/// # Examples
///
/// ```
/// use table::{Board, distance};
///
/// let mut shown = [9; 2];
/// let pair = Board { vertices: 2, ends: &[0, 1, 0, 1], marks: &[0, 1], open: &[0, 0] };
/// assert_eq!(distance(pair, &mut shown), Ok(Some(2)));
/// assert_eq!(shown, [1, 1]);
///
/// let unmarked = Board { marks: &[0, 0], ..pair };
/// assert_eq!(distance(unmarked, &mut shown), Ok(None));
/// assert_eq!(shown, [0, 0]);
/// ```
///
/// A loop edge is closed by itself, so with a mark it winds:
///
/// ```
/// use table::{Board, distance};
///
/// let mut shown = [9; 3];
/// let ends = &[0, 1, 1, 1, 0, 1];
/// let board = Board { vertices: 2, ends, marks: &[0, 2, 1], open: &[0, 0] };
/// assert_eq!(distance(board, &mut shown), Ok(Some(1)));
/// assert_eq!(shown, [0, 1, 0]);
/// ```
///
/// A way from one open vertex to another is closed too:
///
/// ```
/// use table::{Board, distance};
///
/// let mut shown = [9; 2];
/// let path = Board { vertices: 3, ends: &[0, 1, 1, 2], marks: &[1, 0], open: &[1, 0, 1] };
/// assert_eq!(distance(path, &mut shown), Ok(Some(2)));
/// assert_eq!(shown, [1, 1]);
/// assert_eq!(distance(Board { open: &[1, 0, 0], ..path }, &mut shown), Ok(None));
/// ```
#[must_use = "a refusal has written nothing"]
pub fn distance(board: Board<'_>, shown: &mut [u8]) -> Result<Option<usize>, Refusal> {
    let Board { vertices, ends, marks, open } = board;
    let returned = call!(surface_distance(vertices; ends, marks, open; shown));
    returned_distance(returned, marks.len())
}

/// The distance of a board with so many edges that a returned number stands for. A winding loop has
/// an edge at least.
fn returned_distance(returned: u64, edges: usize) -> Result<Option<usize>, Refusal> {
    match values(returned, &[1, 2, 3, 4, 6, 16])? {
        (0, 0) => Ok(None),
        (fewest @ 1.., 1) if fewest <= edges => Ok(Some(fewest)),
        _ => impossible(returned),
    }
}

#[cfg(test)]
mod tests {
    use super::returned_distance;
    use crate::Refusal;

    #[test]
    fn each_answer() {
        assert_eq!(returned_distance(0, 0), Ok(None));
        assert_eq!(returned_distance(4 << 8 | 1 << 40, 4), Ok(Some(4)));
        assert_eq!(returned_distance(6 | 4095 << 8, 4), Err(Refusal::MarkRange(4095)));
        assert_eq!(returned_distance(16 | 1023 << 8, 4), Err(Refusal::OpenByte(1023)));
    }

    #[test]
    #[should_panic(expected = "returned 0x10000000000, which this call never answers")]
    fn loop_without_edges() {
        let _ = returned_distance(1 << 40, 4);
    }

    #[test]
    #[should_panic(expected = "returned 0x20000000400, which this call never answers")]
    fn neither_some_nor_none() {
        let _ = returned_distance(4 << 8 | 2 << 40, 4);
    }

    #[test]
    #[should_panic(expected = "returned 0x10000000500, which this call never answers")]
    fn edge_too_many() {
        let _ = returned_distance(5 << 8 | 1 << 40, 4);
    }

    #[test]
    #[should_panic(expected = "returned 0x11, which this call never answers")]
    fn number_of_a_syndrome() {
        let _ = returned_distance(17, 4);
    }

    #[test]
    #[should_panic(expected = "returned 0x5, which this call never answers")]
    fn number_not_in_use() {
        let _ = returned_distance(5, 4);
    }
}
