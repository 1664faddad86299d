//! Decoding.

use crate::exported::call;
use crate::returned::{impossible, values};
use crate::{Board, Refusal, Sheet};

/// What [`decode`] counts of the key whose bytes it writes.
#[derive(Clone, Copy, Debug, PartialEq, Eq)]
#[must_use]
pub struct Key {
    /// How often a cluster grew.
    pub growths: usize,
    /// How many edges the correction has.
    pub edges: usize,
}

/// Decodes a sheet: writes the support of each edge, 0 to 2 half-edges, and a correction byte for
/// each, 1 where it is in the correction, else 0.
///
/// The correction has the sheet's syndrome. It may end at open vertices, which have none.
///
/// # Errors
///
/// [`Refusal::NoCorrection`] says that no set of edges has the syndrome; every other refusal says
/// which rule the lent buffers break.
///
/// # Examples
///
/// On a path an odd number of syndrome vertices can't be paired:
///
/// ```
/// use table::{Board, Key, Refusal, Sheet, decode};
///
/// let board = Board { vertices: 4, ends: &[0, 1, 1, 2, 2, 3], marks: &[0; 3], open: &[0; 4] };
/// let (mut support, mut correction) = ([9; 3], [9; 3]);
///
/// let pair = Sheet { board, syndrome: &[1, 0, 0, 1], loss: &[0; 3] };
/// let key = decode(pair, &mut support, &mut correction);
/// assert_eq!(key, Ok(Key { growths: 6, edges: 3 }));
/// assert_eq!((support, correction), ([2; 3], [1; 3]));
///
/// let three = Sheet { board, syndrome: &[0, 1, 1, 1], loss: &[0; 3] };
/// let none = decode(three, &mut support, &mut correction);
/// assert_eq!(none, Err(Refusal::NoCorrection(0)));
/// assert_eq!((support, correction), ([2; 3], [1; 3]));
/// ```
///
/// Where vertex 0 is open, the error may have run off the board there. A cluster that holds it is
/// never odd, so {2} grows no more once it does:
///
/// ```
/// use table::{Board, Key, Refusal, Sheet, decode};
///
/// let (ends, open) = (&[0, 1, 1, 2, 2, 3], &[1, 0, 0, 0]);
/// let board = Board { vertices: 4, ends, marks: &[0; 3], open };
/// let (mut support, mut correction) = ([9; 3], [9; 3]);
///
/// let one = Sheet { board, syndrome: &[0, 0, 1, 0], loss: &[0; 3] };
/// let key = decode(one, &mut support, &mut correction);
/// assert_eq!(key, Ok(Key { growths: 4, edges: 2 }));
/// assert_eq!((support, correction), ([2; 3], [1, 1, 0]));
///
/// let lit = Sheet { syndrome: &[1, 0, 1, 0], ..one };
/// assert_eq!(decode(lit, &mut support, &mut correction), Err(Refusal::LitOpen(0)));
/// ```
#[must_use = "a refusal has written nothing"]
pub fn decode(sheet: Sheet<'_>, support: &mut [u8], correction: &mut [u8]) -> Result<Key, Refusal> {
    let Sheet { board: Board { vertices, ends, marks, open }, syndrome, loss } = sheet;
    let returned =
        call!(surface_decode(vertices; ends, marks, open, syndrome, loss; support, correction));
    returned_key(returned, marks.len())
}

/// The key of a board with so many edges that a returned number stands for.
fn returned_key(returned: u64, all: usize) -> Result<Key, Refusal> {
    let (growths, edges) = returned_steps(returned, &[1, 2, 3, 4, 6, 7, 8, 16, 17, 10], all)?;
    Ok(Key { growths, edges })
}

/// The steps of growth and the correction edges that a returned number stands for, on a board with so
/// many edges, or one of these refusals: a decoder makes at most two steps for each edge.
pub(super) fn returned_steps(
    returned: u64,
    refusals: &[u8],
    all: usize,
) -> Result<(usize, usize), Refusal> {
    match values(returned, refusals)? {
        (steps, edges) if steps <= 2 * all && edges <= all => Ok((steps, edges)),
        _ => impossible(returned),
    }
}

#[cfg(test)]
mod tests {
    use super::{Key, returned_key};
    use crate::Refusal;

    #[test]
    fn each_answer() {
        assert_eq!(returned_key(0, 0), Ok(Key { growths: 0, edges: 0 }));
        assert_eq!(returned_key(6 << 8 | 3 << 40, 3), Ok(Key { growths: 6, edges: 3 }));
        assert_eq!(returned_key(10 | 5 << 8, 3), Err(Refusal::NoCorrection(5)));
        assert_eq!(returned_key(16 | 5 << 8, 3), Err(Refusal::OpenByte(5)));
        assert_eq!(returned_key(17 | 5 << 8, 3), Err(Refusal::LitOpen(5)));
    }

    #[test]
    #[should_panic(expected = "returned 0x700, which this call never answers")]
    fn growth_too_many() {
        let _ = returned_key(7 << 8, 3);
    }

    #[test]
    #[should_panic(expected = "returned 0x40000000000, which this call never answers")]
    fn edge_too_many() {
        let _ = returned_key(4 << 40, 3);
    }

    #[test]
    #[should_panic(expected = "returned 0x9, which this call never answers")]
    fn number_of_the_verdict() {
        let _ = returned_key(9, 3);
    }

    #[test]
    #[should_panic(expected = "returned 0x5, which this call never answers")]
    fn number_not_in_use() {
        let _ = returned_key(5, 3);
    }

    #[test]
    #[should_panic(expected = "returned 0x13, which this call never answers")]
    fn number_of_packed_sheets() {
        let _ = returned_key(19, 3);
    }
}
