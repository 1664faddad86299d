//! Decoding by growth in rounds.

use super::decode::returned_steps;
use crate::exported::call;
use crate::{Board, Refusal, Sheet};

/// What [`decode_rounds`] counts of the key whose bytes it writes.
#[derive(Clone, Copy, Debug, PartialEq, Eq)]
#[must_use]
pub struct RoundsKey {
    /// How many rounds there were. In each all odd clusters grew together, so this is no number of
    /// growths.
    pub rounds: usize,
    /// How many edges the correction has.
    pub edges: usize,
}

/// Decodes a sheet as [`decode`](crate::decode) does, but by growing in rounds: in a round every edge
/// that isn't full gains a half-edge for each of its ends in a cluster that was odd when the round
/// began, up to 2, and then all clusters that full edges join fuse. It writes the support of each
/// edge, 0 to 2 half-edges, and a correction byte for each, 1 where it is in the correction, else 0.
///
/// The correction has the sheet's syndrome and lies inside the edges with support 2. For every set of
/// edges that has the syndrome, s of them not lost, there are at most 2s rounds.
///
/// The rule on t + 2s is not claimed here: that such a set and the correction together don't wind,
/// where every winding loop has more than t + 2s edges and t edges are lost, is said of
/// [`decode`](crate::decode) alone.
///
/// # Errors
///
/// Those of [`decode`](crate::decode), on the same sheets: [`Refusal::NoCorrection`] says that no set
/// of edges has the syndrome; every other refusal says which rule the lent buffers break.
///
/// # Examples
///
/// On a path {0} and {3} meet half of the way, after 3 rounds; one of them alone grows 6 times:
///
/// ```
/// use table::{Board, Key, Refusal, RoundsKey, Sheet, decode, decode_rounds};
///
/// let ends = &[0, 1, 1, 2, 2, 3, 3, 4];
/// let board = Board { vertices: 5, ends, marks: &[0; 4], open: &[0; 5] };
/// let (mut support, mut correction) = ([9; 4], [9; 4]);
///
/// let pair = Sheet { board, syndrome: &[1, 0, 0, 1, 0], loss: &[0; 4] };
/// let key = decode_rounds(pair, &mut support, &mut correction);
/// assert_eq!(key, Ok(RoundsKey { rounds: 3, edges: 3 }));
/// assert_eq!((support, correction), ([2; 4], [1, 1, 1, 0]));
///
/// let key = decode(pair, &mut support, &mut correction);
/// assert_eq!(key, Ok(Key { growths: 6, edges: 3 }));
/// assert_eq!((support, correction), ([2, 2, 2, 0], [1, 1, 1, 0]));
///
/// let three = Sheet { board, syndrome: &[0, 1, 1, 1, 0], loss: &[0; 4] };
/// let none = decode_rounds(three, &mut support, &mut correction);
/// assert_eq!(none, Err(Refusal::NoCorrection(0)));
/// assert_eq!((support, correction), ([2, 2, 2, 0], [1, 1, 1, 0]));
/// ```
///
/// With vertex 4 open, {3} reaches it after 2 rounds and is odd no longer, while {0} grows on, and meets
/// that cluster after 4:
///
/// ```
/// use table::{Board, RoundsKey, Sheet, decode_rounds};
///
/// let (ends, open) = (&[0, 1, 1, 2, 2, 3, 3, 4], &[0, 0, 0, 0, 1]);
/// let board = Board { vertices: 5, ends, marks: &[0; 4], open };
/// let (mut support, mut correction) = ([9; 4], [9; 4]);
/// let pair = Sheet { board, syndrome: &[1, 0, 0, 1, 0], loss: &[0; 4] };
/// let key = decode_rounds(pair, &mut support, &mut correction);
/// assert_eq!(key, Ok(RoundsKey { rounds: 4, edges: 3 }));
/// assert_eq!((support, correction), ([2; 4], [1, 1, 1, 0]));
/// ```
#[must_use = "a refusal has written nothing"]
pub fn decode_rounds(
    sheet: Sheet<'_>,
    support: &mut [u8],
    correction: &mut [u8],
) -> Result<RoundsKey, Refusal> {
    let Sheet { board: Board { vertices, ends, marks, open }, syndrome, loss } = sheet;
    let returned = call!(
        surface_decode_rounds(vertices; ends, marks, open, syndrome, loss; support, correction)
    );
    returned_key(returned, marks.len())
}

/// The key of a board with so many edges that a returned number stands for.
fn returned_key(returned: u64, all: usize) -> Result<RoundsKey, Refusal> {
    let (rounds, edges) = returned_steps(returned, &[1, 2, 3, 4, 6, 7, 8, 16, 17, 10], all)?;
    Ok(RoundsKey { rounds, edges })
}

#[cfg(test)]
mod tests {
    use super::{RoundsKey, returned_key};
    use crate::Refusal;

    #[test]
    fn each_answer() {
        assert_eq!(returned_key(0, 0), Ok(RoundsKey { rounds: 0, edges: 0 }));
        assert_eq!(returned_key(6 << 8 | 3 << 40, 3), Ok(RoundsKey { rounds: 6, edges: 3 }));
        assert_eq!(returned_key(10 | 5 << 8, 3), Err(Refusal::NoCorrection(5)));
        assert_eq!(returned_key(16 | 5 << 8, 3), Err(Refusal::OpenByte(5)));
        assert_eq!(returned_key(17 | 5 << 8, 3), Err(Refusal::LitOpen(5)));
    }

    #[test]
    #[should_panic(expected = "returned 0x700, which this call never answers")]
    fn round_too_many() {
        let _ = returned_key(7 << 8, 3);
    }

    #[test]
    #[should_panic(expected = "returned 0x40000000000, which this call never answers")]
    fn edge_too_many() {
        let _ = returned_key(4 << 40, 3);
    }

    #[test]
    #[should_panic(expected = "returned 0x9, which this call never answers")]
    fn number_of_the_verdict() {
        let _ = returned_key(9, 3);
    }

    #[test]
    #[should_panic(expected = "returned 0x5, which this call never answers")]
    fn number_not_in_use() {
        let _ = returned_key(5, 3);
    }
}
