//! Unpacking a syndrome and a loss.

use super::words::{counted, has_rest};
use crate::exported::call;
use crate::returned::{impossible, values};
use crate::{Counts, Refusal};

/// Unpacks the words of a syndrome and of a loss: writes a syndrome byte for each vertex and a loss
/// byte for each edge, 0 or 1. Item i, a vertex or an edge, is bit i % 64 of word i / 64.
///
/// It is lent exactly as many words as so many vertices and edges fill, one for each 64 of them and one
/// more where some are left, and as many bytes as there are vertices and edges. It answers with these
/// two counts. [`pack`](crate::pack) gives the words back.
///
/// # Errors
///
/// [`Refusal::EndCount`] says that there are more than [`EDGES`](crate::EDGES) edges, and
/// [`Refusal::PastLast`] that a bit past the last item is set, in this word of the syndrome or, where
/// the syndrome has none, in this word of the loss. The counts are tested first, then the lengths.
///
/// # Examples
///
/// ```
/// use table::{Counts, Refusal, unpack};
///
/// let (mut syndrome, mut loss) = ([9; 66], [9; 3]);
/// let words = [0x8000_0000_0000_0021, 0x1];
/// let counts = unpack(66, 3, &words, &[0b100], &mut syndrome, &mut loss);
/// assert_eq!(counts, Ok(Counts { vertices: 66, edges: 3 }));
/// let lit: Vec<usize> = (0..66).filter(|&vertex| syndrome[vertex] == 1).collect();
/// assert_eq!(lit, [0, 5, 63, 64]);
/// assert_eq!(loss, [0, 0, 1]);
///
/// // There is no edge 3; nor is there a vertex 66, which is bit 2 of word 1.
/// let refused = unpack(66, 3, &words, &[0b1000], &mut syndrome, &mut loss);
/// assert_eq!(refused, Err(Refusal::PastLast(0)));
/// let refused = unpack(66, 3, &[0, 0b100], &[0b1000], &mut syndrome, &mut loss);
/// assert_eq!(refused, Err(Refusal::PastLast(1)));
/// assert_eq!(loss, [0, 0, 1]);
/// ```
#[must_use = "a refusal has written nothing"]
pub fn unpack(
    vertices: usize,
    edges: usize,
    syndrome_words: &[u64],
    loss_words: &[u64],
    syndrome: &mut [u8],
    loss: &mut [u8],
) -> Result<Counts, Refusal> {
    let returned =
        call!(surface_unpack(vertices, edges; syndrome_words, loss_words; syndrome, loss));
    returned_counts(returned, vertices, edges)
}

/// Whether the call may refuse so many vertices and edges so, once their counts are in range.
fn refuses(refusal: Refusal, vertices: usize, edges: usize) -> bool {
    match refusal {
        Refusal::BufferLength => true,
        Refusal::PastLast(word) => has_rest(word, vertices) || has_rest(word, edges),
        _ => false,
    }
}

/// The counts that a returned number stands for: those that were lent. Numbers 1 and 2 are given
/// exactly where one of them is out of range.
fn returned_counts(returned: u64, vertices: usize, edges: usize) -> Result<Counts, Refusal> {
    match (values(returned, &[1, 2, 3, 19]), counted(vertices, edges)) {
        (Ok(written), Ok(())) if written == (vertices, edges) => Ok(Counts { vertices, edges }),
        (Err(refusal), Ok(())) if refuses(refusal, vertices, edges) => Err(refusal),
        (Err(refusal), Err(uncounted)) if refusal == uncounted => Err(refusal),
        _ => impossible(returned),
    }
}

#[cfg(test)]
mod tests {
    use super::returned_counts;
    use crate::{Counts, Refusal};

    #[test]
    fn each_answer() {
        let smallest = Counts { vertices: 1, edges: 0 };
        assert_eq!(returned_counts(1 << 8, 1, 0), Ok(smallest));
        let largest = Counts { vertices: 1024, edges: 4096 };
        assert_eq!(returned_counts(1024 << 8 | 4096 << 40, 1024, 4096), Ok(largest));
    }

    #[test]
    fn each_refusal() {
        for vertices in [0, 1025, usize::MAX] {
            assert_eq!(returned_counts(1, vertices, 4097), Err(Refusal::VertexCount));
        }
        for edges in [4097, usize::MAX] {
            assert_eq!(returned_counts(2, 1, edges), Err(Refusal::EndCount));
        }
        assert_eq!(returned_counts(3, 1, 0), Err(Refusal::BufferLength));
        assert_eq!(returned_counts(19 | 1 << 8, 65, 4096), Err(Refusal::PastLast(1)));
        assert_eq!(returned_counts(19 | 63 << 8, 1024, 4095), Err(Refusal::PastLast(63)));
    }

    #[test]
    #[should_panic(expected = "returned 0x4100, which this call never answers")]
    fn other_vertices() {
        let _ = returned_counts(65 << 8, 66, 0);
    }

    #[test]
    #[should_panic(expected = "returned 0x20000000100, which this call never answers")]
    fn other_edges() {
        let _ = returned_counts(1 << 8 | 2 << 40, 1, 3);
    }

    #[test]
    #[should_panic(expected = "returned 0x13, which this call never answers")]
    fn word_before_the_last() {
        let _ = returned_counts(19, 65, 65);
    }

    #[test]
    #[should_panic(expected = "returned 0xf13, which this call never answers")]
    fn full_words() {
        let _ = returned_counts(19 | 15 << 8, 1024, 4096);
    }

    #[test]
    #[should_panic(expected = "returned 0x13, which this call never answers")]
    fn word_before_the_counts() {
        let _ = returned_counts(19, 1, 4097);
    }

    #[test]
    #[should_panic(expected = "returned 0x2, which this call never answers")]
    fn edges_in_range_refused() {
        let _ = returned_counts(2, 1, 4096);
    }

    #[test]
    #[should_panic(expected = "returned 0x7, which this call never answers")]
    fn number_of_packing() {
        let _ = returned_counts(7, 1, 1);
    }
}
