//! Reading a text.

use crate::exported::call;
use crate::returned::{impossible, values};
use crate::{EDGES, Refusal, VERTICES};

/// The counts of the board that [`read`] found in a text, or of the items that
/// [`unpack`](crate::unpack) wrote.
#[derive(Clone, Copy, Debug, PartialEq, Eq)]
#[must_use]
pub struct Counts {
    /// The vertices, and so the syndrome bytes that were written; of a text the open bytes too.
    pub vertices: usize,
    /// The edges, and so the loss bytes that were written; of a text the marks and half the ends too.
    pub edges: usize,
}

/// Reads a text into buffers of exactly twice [`EDGES`] ends, [`EDGES`] marks, [`VERTICES`] open bytes,
/// [`VERTICES`] syndrome bytes and [`EDGES`] loss bytes. Entries past the board's counts are left as
/// they were.
///
/// # Errors
///
/// [`Refusal::MalformedLine`] names the first line that doesn't read, counted from 1.
///
/// # Examples
///
/// ```
/// use table::{Counts, EDGES, Refusal, VERTICES, read};
///
/// let (mut ends, mut marks, mut open) = ([7; 2 * EDGES], [7; EDGES], [7; VERTICES]);
/// let (mut syndrome, mut loss) = ([7; VERTICES], [7; EDGES]);
/// let text = b"V\t3\nE\t0\t1\t0\nE\t1\t2\t3\nO\t1\nS\t0\nS\t2\nX\t1\n";
/// let counts = read(text, &mut ends, &mut marks, &mut open, &mut syndrome, &mut loss);
/// assert_eq!(counts, Ok(Counts { vertices: 3, edges: 2 }));
/// assert_eq!(ends[..5], [0, 1, 1, 2, 7]);
/// assert_eq!(marks[..3], [0, 3, 7]);
/// assert_eq!(open[..4], [0, 1, 0, 7]);
/// assert_eq!(syndrome[..4], [1, 0, 1, 7]);
/// assert_eq!(loss[..3], [0, 1, 7]);
///
/// // Vertex 1 is open, so it can't be lit.
/// let text = b"V\t3\nO\t1\nS\t1\n";
/// let refused = read(text, &mut ends, &mut marks, &mut open, &mut syndrome, &mut loss);
/// assert_eq!(refused, Err(Refusal::MalformedLine(3)));
/// ```
#[must_use = "a refusal has written nothing"]
pub fn read(
    text: &[u8],
    ends: &mut [u16],
    marks: &mut [u8],
    open: &mut [u8],
    syndrome: &mut [u8],
    loss: &mut [u8],
) -> Result<Counts, Refusal> {
    let returned = call!(surface_read(; text; ends, marks, open, syndrome, loss));
    returned_counts(returned)
}

/// The counts that a returned number stands for.
fn returned_counts(returned: u64) -> Result<Counts, Refusal> {
    match values(returned, &[3, 12, 13])? {
        (vertices @ 1..=VERTICES, edges @ ..=EDGES) => Ok(Counts { vertices, edges }),
        _ => impossible(returned),
    }
}

#[cfg(test)]
mod tests {
    use super::{Counts, returned_counts};
    use crate::Refusal;

    #[test]
    fn each_answer() {
        let largest = Counts { vertices: 1024, edges: 4096 };
        assert_eq!(returned_counts(1024 << 8 | 4096 << 40), Ok(largest));
        assert_eq!(returned_counts(1 << 8), Ok(Counts { vertices: 1, edges: 0 }));
        assert_eq!(returned_counts(13 | 1 << 8), Err(Refusal::MalformedLine(1)));
    }

    #[test]
    #[should_panic(expected = "returned 0x0, which this call never answers")]
    fn no_vertices() {
        let _ = returned_counts(0);
    }

    #[test]
    #[should_panic(expected = "returned 0x10010000000100, which this call never answers")]
    fn edge_too_many() {
        let _ = returned_counts(1 << 8 | 4097 << 40);
    }
}
