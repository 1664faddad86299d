//! Decoding of packed sheets.

use super::decode::returned_steps;
use super::words::has_rest;
use crate::exported::call;
use crate::returned::impossible;
use crate::{Board, Key, PackedSheet, Refusal};

/// Decodes a packed sheet: writes the support of each edge, 0 to 2 half-edges, and a correction byte
/// for each, 1 where it is in the correction, else 0.
///
/// Answer, supports and correction are those of [`decode`](crate::decode) on the bytes that
/// [`unpack`](crate::unpack) makes of the words.
///
/// # Errors
///
/// Those of [`decode`](crate::decode) on these bytes. [`Refusal::PastLast`] stands in the place of
/// [`Refusal::SyndromeByte`] and [`Refusal::LossByte`], after the board's ends and marks and before its
/// open bytes, and names the word in its own sheet, one of the syndrome's before one of the loss's.
///
/// # Examples
///
/// The ring, with vertices 0 and 3 in the syndrome; then with edges 0, 1 and 2 lost as well:
///
/// ```
/// use table::{Board, Key, PackedSheet, Refusal, decode_packed};
///
/// let ends = &[0, 1, 1, 2, 2, 3, 3, 0];
/// let board = Board { vertices: 4, ends, marks: &[0, 0, 0, 1], open: &[0; 4] };
/// let (mut support, mut correction) = ([9; 4], [9; 4]);
///
/// let sheet = PackedSheet { board, syndrome: &[0b1001], loss: &[0] };
/// let key = decode_packed(sheet, &mut support, &mut correction);
/// assert_eq!(key, Ok(Key { growths: 2, edges: 1 }));
/// assert_eq!((support, correction), ([2, 0, 0, 2], [0, 0, 0, 1]));
///
/// let lost = PackedSheet { loss: &[0b0111], ..sheet };
/// let key = decode_packed(lost, &mut support, &mut correction);
/// assert_eq!(key, Ok(Key { growths: 0, edges: 3 }));
/// assert_eq!((support, correction), ([2, 2, 2, 0], [1, 1, 1, 0]));
///
/// // There is no vertex 4.
/// let past = PackedSheet { syndrome: &[0b1_1001], ..sheet };
/// assert_eq!(decode_packed(past, &mut support, &mut correction), Err(Refusal::PastLast(0)));
/// let one = PackedSheet { syndrome: &[0b1000], ..sheet };
/// assert_eq!(decode_packed(one, &mut support, &mut correction), Err(Refusal::NoCorrection(0)));
/// assert_eq!((support, correction), ([2, 2, 2, 0], [1, 1, 1, 0]));
/// ```
#[must_use = "a refusal has written nothing"]
pub fn decode_packed(
    sheet: PackedSheet<'_>,
    support: &mut [u8],
    correction: &mut [u8],
) -> Result<Key, Refusal> {
    let PackedSheet { board: Board { vertices, ends, marks, open }, syndrome, loss } = sheet;
    let returned = call!(
        surface_decode_packed(vertices; ends, marks, open, syndrome, loss; support, correction)
    );
    returned_key(returned, vertices, marks.len())
}

/// The key of a board with so many vertices and edges that a returned number stands for. Number 19 is
/// given of a last word alone, the syndrome's or the loss's.
fn returned_key(returned: u64, vertices: usize, all: usize) -> Result<Key, Refusal> {
    match returned_steps(returned, &[1, 2, 3, 4, 6, 19, 16, 17, 10], all) {
        Ok((growths, edges)) => Ok(Key { growths, edges }),
        Err(Refusal::PastLast(word)) if !has_rest(word, vertices) && !has_rest(word, all) => {
            impossible(returned)
        }
        Err(refusal) => Err(refusal),
    }
}

#[cfg(test)]
mod tests {
    use super::returned_key;
    use crate::{Key, Refusal};

    #[test]
    fn each_answer() {
        assert_eq!(returned_key(0, 1, 0), Ok(Key { growths: 0, edges: 0 }));
        assert_eq!(returned_key(6 << 8 | 3 << 40, 4, 3), Ok(Key { growths: 6, edges: 3 }));
        assert_eq!(returned_key(10 | 5 << 8, 6, 3), Err(Refusal::NoCorrection(5)));
        assert_eq!(returned_key(16 | 5 << 8, 6, 3), Err(Refusal::OpenByte(5)));
        assert_eq!(returned_key(17 | 5 << 8, 6, 3), Err(Refusal::LitOpen(5)));
        assert_eq!(returned_key(19, 63, 64), Err(Refusal::PastLast(0)));
        assert_eq!(returned_key(19 | 15 << 8, 1023, 4096), Err(Refusal::PastLast(15)));
        assert_eq!(returned_key(19 | 63 << 8, 1024, 4095), Err(Refusal::PastLast(63)));
    }

    #[test]
    #[should_panic(expected = "returned 0x700, which this call never answers")]
    fn growth_too_many() {
        let _ = returned_key(7 << 8, 4, 3);
    }

    #[test]
    #[should_panic(expected = "returned 0x40000000000, which this call never answers")]
    fn edge_too_many() {
        let _ = returned_key(4 << 40, 4, 3);
    }

    #[test]
    #[should_panic(expected = "returned 0x13, which this call never answers")]
    fn word_before_the_last() {
        let _ = returned_key(19, 1023, 4095);
    }

    #[test]
    #[should_panic(expected = "returned 0xf13, which this call never answers")]
    fn full_words() {
        let _ = returned_key(19 | 15 << 8, 1024, 4096);
    }

    #[test]
    #[should_panic(expected = "returned 0x7, which this call never answers")]
    fn number_of_bytes() {
        let _ = returned_key(7, 4, 3);
    }
}
