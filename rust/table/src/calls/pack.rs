//! Packing a syndrome and a loss.

use super::words::counted;
use crate::Refusal;
use crate::board::WORD;
use crate::exported::call;
use crate::returned::{impossible, values};

/// How many words [`pack`] wrote: one for each 64 items, and one more where some are left.
#[derive(Clone, Copy, Debug, PartialEq, Eq)]
#[must_use]
pub struct WordCounts {
    /// The words of the syndrome.
    pub syndrome: usize,
    /// The words of the loss; there is none where there is no edge.
    pub loss: usize,
}

/// Packs a syndrome and a loss into words: item i, a vertex or an edge, is bit i % 64 of word i / 64.
/// Bits past the last item are written 0.
///
/// It is lent exactly a syndrome byte for each vertex and a loss byte for each edge, each 0 or 1, and
/// as many words as so many vertices and edges fill: one for each 64 of them, and one more where some
/// are left. [`unpack`](crate::unpack) gives the bytes back.
///
/// # Errors
///
/// [`Refusal::EndCount`] says that there are more than [`EDGES`](crate::EDGES) edges. The counts are
/// tested first, then the lengths, then the bytes.
///
/// # Examples
///
/// Of 66 vertices those past the first 64 stand in a second word:
///
/// ```
/// use table::{Refusal, WordCounts, pack};
///
/// let (mut syndrome, mut loss) = ([0; 66], [0; 3]);
/// for vertex in [0, 5, 63, 64] {
///     syndrome[vertex] = 1;
/// }
/// loss[2] = 1;
/// let (mut syndrome_words, mut loss_words) = ([9; 2], [9; 1]);
/// let counts = pack(66, 3, &syndrome, &loss, &mut syndrome_words, &mut loss_words);
/// assert_eq!(counts, Ok(WordCounts { syndrome: 2, loss: 1 }));
/// assert_eq!(syndrome_words, [0x8000_0000_0000_0021, 0x1]);
/// assert_eq!(loss_words, [0b100]);
///
/// loss[1] = 2;
/// let refused = pack(66, 3, &syndrome, &loss, &mut syndrome_words, &mut loss_words);
/// assert_eq!(refused, Err(Refusal::LossByte(1)));
/// let refused = pack(66, 3, &syndrome, &loss, &mut syndrome_words, &mut []);
/// assert_eq!(refused, Err(Refusal::BufferLength));
/// assert_eq!(pack(66, 4097, &[], &[], &mut [], &mut []), Err(Refusal::EndCount));
/// assert_eq!(loss_words, [0b100]);
/// ```
#[must_use = "a refusal has written nothing"]
pub fn pack(
    vertices: usize,
    edges: usize,
    syndrome: &[u8],
    loss: &[u8],
    syndrome_words: &mut [u64],
    loss_words: &mut [u64],
) -> Result<WordCounts, Refusal> {
    let returned = call!(surface_pack(vertices, edges; syndrome, loss; syndrome_words, loss_words));
    returned_words(returned, vertices, edges)
}

/// Whether the call may refuse so many vertices and edges so, once their counts are in range.
fn refuses(refusal: Refusal, vertices: usize, edges: usize) -> bool {
    match refusal {
        Refusal::BufferLength => true,
        Refusal::SyndromeByte(vertex) => vertex < vertices,
        Refusal::LossByte(edge) => edge < edges,
        _ => false,
    }
}

/// The word counts of so many vertices and edges that a returned number stands for. Numbers 1 and 2
/// are given exactly where a count is out of range.
fn returned_words(returned: u64, vertices: usize, edges: usize) -> Result<WordCounts, Refusal> {
    match (values(returned, &[1, 2, 3, 7, 8]), counted(vertices, edges)) {
        (Ok((syndrome, loss)), Ok(()))
            if syndrome == vertices.div_ceil(WORD) && loss == edges.div_ceil(WORD) =>
        {
            Ok(WordCounts { syndrome, loss })
        }
        (Err(refusal), Ok(())) if refuses(refusal, vertices, edges) => Err(refusal),
        (Err(refusal), Err(uncounted)) if refusal == uncounted => Err(refusal),
        _ => impossible(returned),
    }
}

#[cfg(test)]
mod tests {
    use super::{WordCounts, returned_words};
    use crate::Refusal;

    #[test]
    fn each_answer() {
        let counts = |syndrome, loss| Ok(WordCounts { syndrome, loss });
        assert_eq!(returned_words(1 << 8, 1, 0), counts(1, 0));
        assert_eq!(returned_words(1 << 8 | 1 << 40, 64, 64), counts(1, 1));
        assert_eq!(returned_words(2 << 8 | 2 << 40, 65, 128), counts(2, 2));
        assert_eq!(returned_words(16 << 8 | 64 << 40, 1024, 4096), counts(16, 64));
    }

    #[test]
    fn each_refusal() {
        for vertices in [0, 1025, usize::MAX] {
            assert_eq!(returned_words(1, vertices, 4097), Err(Refusal::VertexCount));
        }
        for edges in [4097, usize::MAX] {
            assert_eq!(returned_words(2, 1, edges), Err(Refusal::EndCount));
        }
        assert_eq!(returned_words(3, 1, 0), Err(Refusal::BufferLength));
        assert_eq!(returned_words(7 | 65 << 8, 66, 0), Err(Refusal::SyndromeByte(65)));
        assert_eq!(returned_words(8 | 4095 << 8, 1, 4096), Err(Refusal::LossByte(4095)));
    }

    #[test]
    #[should_panic(expected = "returned 0x100, which this call never answers")]
    fn word_missing() {
        let _ = returned_words(1 << 8, 65, 0);
    }

    #[test]
    #[should_panic(expected = "returned 0x20000000100, which this call never answers")]
    fn word_too_many() {
        let _ = returned_words(1 << 8 | 2 << 40, 64, 64);
    }

    #[test]
    #[should_panic(expected = "returned 0x4107, which this call never answers")]
    fn vertex_past_the_last() {
        let _ = returned_words(7 | 65 << 8, 65, 4096);
    }

    #[test]
    #[should_panic(expected = "returned 0x8, which this call never answers")]
    fn lost_edge_past_the_last() {
        let _ = returned_words(8, 65, 0);
    }

    #[test]
    #[should_panic(expected = "returned 0x2, which this call never answers")]
    fn edges_before_the_vertices() {
        let _ = returned_words(2, 0, 4097);
    }

    #[test]
    #[should_panic(expected = "returned 0x3, which this call never answers")]
    fn length_before_the_edges() {
        let _ = returned_words(3, 1, 4097);
    }

    #[test]
    #[should_panic(expected = "returned 0x1, which this call never answers")]
    fn counts_in_range_refused() {
        let _ = returned_words(1, 1024, 4096);
    }

    #[test]
    #[should_panic(expected = "returned 0x13, which this call never answers")]
    fn number_of_unpacking() {
        let _ = returned_words(19, 1, 1);
    }
}
