//! The lit total of a packed syndrome.

use super::words::{counted, has_rest};
use crate::Refusal;
use crate::exported::call;
use crate::returned::{impossible, values};

/// The number of lit vertices of a packed syndrome: of the set bits in all its words. Vertex v is bit
/// v % 64 of word v / 64.
///
/// It is lent exactly as many words as so many vertices fill: one for each 64 of them, and one more
/// where some are left.
///
/// # Errors
///
/// [`Refusal::PastLast`] names the word that has a bit past the last vertex.
///
/// # Examples
///
/// ```
/// use table::{Refusal, lit_total};
///
/// assert_eq!(lit_total(66, &[0x8000_0000_0000_0021, 0x1]), Ok(4));
/// assert_eq!(lit_total(66, &[0x8000_0000_0000_0021, 0x4]), Err(Refusal::PastLast(1)));
/// assert_eq!(lit_total(64, &[0x8000_0000_0000_0021, 0x1]), Err(Refusal::BufferLength));
/// ```
pub fn lit_total(vertices: usize, syndrome_words: &[u64]) -> Result<usize, Refusal> {
    let returned = call!(surface_lit_total(vertices; syndrome_words;));
    returned_total(returned, vertices)
}

/// Whether the call may refuse so many vertices so, once their count is in range.
fn refuses(refusal: Refusal, vertices: usize) -> bool {
    match refusal {
        Refusal::BufferLength => true,
        Refusal::PastLast(word) => has_rest(word, vertices),
        _ => false,
    }
}

/// The lit total of so many vertices that a returned number stands for. Number 1 is given exactly where
/// their count is out of range.
pub(super) fn returned_total(returned: u64, vertices: usize) -> Result<usize, Refusal> {
    match (values(returned, &[1, 3, 19]), counted(vertices, 0)) {
        (Ok((total, 0)), Ok(())) if total <= vertices => Ok(total),
        (Err(refusal), Ok(())) if refuses(refusal, vertices) => Err(refusal),
        (Err(refusal), Err(uncounted)) if refusal == uncounted => Err(refusal),
        _ => impossible(returned),
    }
}

#[cfg(test)]
mod tests {
    use super::returned_total;
    use crate::Refusal;

    #[test]
    fn each_answer() {
        assert_eq!(returned_total(0, 1), Ok(0));
        assert_eq!(returned_total(1024 << 8, 1024), Ok(1024));
        for vertices in [0, 1025, usize::MAX] {
            assert_eq!(returned_total(1, vertices), Err(Refusal::VertexCount));
        }
        assert_eq!(returned_total(3, 1024), Err(Refusal::BufferLength));
        assert_eq!(returned_total(19, 63), Err(Refusal::PastLast(0)));
        assert_eq!(returned_total(19 | 15 << 8, 1023), Err(Refusal::PastLast(15)));
    }

    #[test]
    #[should_panic(expected = "returned 0x4200, which this call never answers")]
    fn vertex_too_many() {
        let _ = returned_total(66 << 8, 65);
    }

    #[test]
    #[should_panic(expected = "returned 0x10000000100, which this call never answers")]
    fn second_value() {
        let _ = returned_total(1 << 8 | 1 << 40, 65);
    }

    #[test]
    #[should_panic(expected = "returned 0x13, which this call never answers")]
    fn word_before_the_last() {
        let _ = returned_total(19, 65);
    }

    #[test]
    #[should_panic(expected = "returned 0x13, which this call never answers")]
    fn full_word() {
        let _ = returned_total(19, 64);
    }

    #[test]
    #[should_panic(expected = "returned 0x0, which this call never answers")]
    fn no_vertices() {
        let _ = returned_total(0, 0);
    }

    #[test]
    #[should_panic(expected = "returned 0x3, which this call never answers")]
    fn length_before_the_vertices() {
        let _ = returned_total(3, 1025);
    }

    #[test]
    #[should_panic(expected = "returned 0x2, which this call never answers")]
    fn number_of_edges() {
        let _ = returned_total(2, 65);
    }
}
