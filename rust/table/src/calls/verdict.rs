//! The verdict on a handed-in set.

use crate::exported::call;
use crate::returned::{impossible, values};
use crate::{Board, Refusal, Sheet};

/// What [`verdict`] and [`faces`](crate::faces) say of a handed-in set.
#[derive(Clone, Copy, Debug, PartialEq, Eq)]
#[must_use]
pub enum Verdict {
    /// Its syndrome differs from the one put; this is the smallest vertex where it does, and not open.
    Off(usize),
    /// Together with the correction the set doesn't wind.
    Same,
    /// Together with the correction the set winds, with this exclusive or of marks, 1 to 3.
    Wound(u8),
}

impl Verdict {
    /// The verdict on a board with so many vertices that two returned values stand for, where there is
    /// one.
    pub(super) fn new(values: (usize, usize), vertices: usize) -> Option<Verdict> {
        match values {
            (1, vertex) if vertex < vertices => Some(Verdict::Off(vertex)),
            (2, 0) => Some(Verdict::Same),
            (3, marks @ 1..=3) => Some(Verdict::Wound(marks as u8)),
            _ => None,
        }
    }
}

/// Compares a handed-in set, a byte for each edge, with the correction of a sheet.
///
/// # Errors
///
/// Where there is no correction it refuses as [`decode`](crate::decode) does, with the same vertex.
///
/// # Examples
///
/// The long way round the ring winds with the correction:
///
/// ```
/// use table::{Board, Refusal, Sheet, Verdict, verdict};
///
/// let ends = &[0, 1, 1, 2, 2, 3, 3, 0];
/// let board = Board { vertices: 4, ends, marks: &[0, 0, 0, 1], open: &[0; 4] };
/// let sheet = Sheet { board, syndrome: &[1, 0, 0, 1], loss: &[0; 4] };
/// assert_eq!(verdict(sheet, &[0, 0, 0, 1]), Ok(Verdict::Same));
/// assert_eq!(verdict(sheet, &[1, 1, 1, 0]), Ok(Verdict::Wound(1)));
/// assert_eq!(verdict(sheet, &[1, 1, 0, 0]), Ok(Verdict::Off(2)));
///
/// let odd = Sheet { syndrome: &[0, 0, 1, 0], ..sheet };
/// assert_eq!(verdict(odd, &[0; 4]), Err(Refusal::NoCorrection(0)));
/// ```
///
/// Both ends of a path are open, and its first edge crosses a line. Which way the error ran off the
/// board shows, though either way has the syndrome:
///
/// ```
/// use table::{Board, Sheet, Verdict, verdict};
///
/// let (ends, open) = (&[0, 1, 1, 2, 2, 3], &[1, 0, 0, 1]);
/// let board = Board { vertices: 4, ends, marks: &[1, 0, 0], open };
/// let sheet = Sheet { board, syndrome: &[0, 1, 0, 0], loss: &[0; 3] };
/// assert_eq!(verdict(sheet, &[1, 0, 0]), Ok(Verdict::Same));
/// assert_eq!(verdict(sheet, &[0, 1, 1]), Ok(Verdict::Wound(1)));
/// assert_eq!(verdict(sheet, &[0, 0, 1]), Ok(Verdict::Off(1)));
/// ```
#[must_use = "nothing is written: the answer is all there is"]
pub fn verdict(sheet: Sheet<'_>, handed: &[u8]) -> Result<Verdict, Refusal> {
    let Sheet { board: Board { vertices, ends, marks, open }, syndrome, loss } = sheet;
    let returned = call!(surface_verdict(vertices; ends, marks, open, syndrome, loss, handed;));
    returned_verdict(returned, vertices)
}

/// The verdict on a board with so many vertices that a returned number stands for.
fn returned_verdict(returned: u64, vertices: usize) -> Result<Verdict, Refusal> {
    let values = values(returned, &[1, 2, 3, 4, 6, 7, 8, 9, 16, 17, 10])?;
    Verdict::new(values, vertices).map_or_else(|| impossible(returned), Ok)
}

#[cfg(test)]
mod tests {
    use super::{Verdict, returned_verdict};
    use crate::Refusal;

    #[test]
    fn each_answer() {
        assert_eq!(returned_verdict(1 << 8 | 6 << 40, 7), Ok(Verdict::Off(6)));
        assert_eq!(returned_verdict(2 << 8, 7), Ok(Verdict::Same));
        assert_eq!(returned_verdict(3 << 8 | 3 << 40, 7), Ok(Verdict::Wound(3)));
        assert_eq!(returned_verdict(9 | 5 << 8, 7), Err(Refusal::HandedByte(5)));
        assert_eq!(returned_verdict(16 | 5 << 8, 7), Err(Refusal::OpenByte(5)));
        assert_eq!(returned_verdict(17 | 5 << 8, 7), Err(Refusal::LitOpen(5)));
    }

    #[test]
    #[should_panic(expected = "returned 0x10000000400, which this call never answers")]
    fn fourth_verdict() {
        let _ = returned_verdict(4 << 8 | 1 << 40, 7);
    }

    #[test]
    #[should_panic(expected = "returned 0x300, which this call never answers")]
    fn wound_without_marks() {
        let _ = returned_verdict(3 << 8, 7);
    }

    #[test]
    #[should_panic(expected = "returned 0x70000000100, which this call never answers")]
    fn off_outside_the_board() {
        let _ = returned_verdict(1 << 8 | 7 << 40, 7);
    }

    #[test]
    #[should_panic(expected = "returned 0x5, which this call never answers")]
    fn number_not_in_use() {
        let _ = returned_verdict(5, 7);
    }
}
