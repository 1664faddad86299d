//! The builder of stacks.

use crate::exported::call;
use crate::returned::{impossible, values};
use crate::{Refusal, VERTICES};

/// Writes the stack of a torus that is read in so many rounds, with the syndrome that its readings
/// make, and answers with its vertex count.
///
/// The torus has a side from 1 to 32, and the stack has a layer for each round, of at most
/// [`VERTICES`] vertices in all. It is lent exactly rounds × side² readings, a byte for each vertex in
/// each round, 0 or 1, round after round; two ends and a mark for each of its (3 rounds - 1) × side²
/// edges; and as many syndrome bytes as readings. No vertex is open: whoever decodes the stack lends a
/// 0 for each.
///
/// Rounds, and so layers, are counted from 0. Layer k is the torus, with its vertex v as
/// k × side² + v and its edge e as 2k × side² + e. After the edges of all layers, edge
/// 2 rounds × side² + k × side² + v runs from v in layer k to v in layer k + 1, and has mark 0. The
/// syndrome of layer 0 is its reading; that of a later layer is where its reading differs from the one
/// before.
///
/// A flip is the edge of the torus in its round's layer, and a wrong reading is the edge from its layer
/// to the next. Where each reading is the torus's syndrome of all flips so far, changed at its wrong
/// readings, and the last reading has no wrong one, the flips and the wrong readings together have the
/// syndrome of the stack.
///
/// # Errors
///
/// The side is tested first, then the rounds, then the lengths. [`Refusal::SyndromeByte`] names the
/// vertex of the stack that has a reading byte above 1.
///
/// # Examples
///
/// The torus of side 1, read twice. Its syndrome is empty whatever flips, so that a vertex that is lit
/// in the first round was read wrongly there:
///
/// ```
/// use table::{Refusal, stack};
///
/// let (mut ends, mut marks, mut syndrome) = ([9; 10], [9; 5], [9; 2]);
/// assert_eq!(stack(1, 2, &[1, 0], &mut ends, &mut marks, &mut syndrome), Ok(2));
/// assert_eq!(ends, [0, 0, 0, 0, 1, 1, 1, 1, 0, 1]);
/// assert_eq!(marks, [1, 2, 1, 2, 0]);
/// assert_eq!(syndrome, [1, 1]);
///
/// let mut refusal = |side, rounds, readings| {
///     stack(side, rounds, readings, &mut ends, &mut marks, &mut syndrome).unwrap_err()
/// };
/// assert_eq!(refusal(33, 0, &[0, 2]), Refusal::TorusSide(33));
/// assert_eq!(refusal(1, 1025, &[0, 2]), Refusal::RoundCount);
/// assert_eq!(refusal(1, 3, &[0, 2]), Refusal::BufferLength);
/// assert_eq!(refusal(1, 2, &[0, 2]), Refusal::SyndromeByte(1));
/// ```
///
/// The torus of side 5, read three times. Edge 12, from vertex 6 to 7, flips before round 1, and vertex
/// 17 is read wrongly in round 0. The correction says both:
///
/// ```
/// use table::{Board, Key, Sheet, decode, stack};
///
/// # fn main() -> Result<(), table::Refusal> {
/// let mut readings = [0; 75];
/// for (round, vertex) in [(0, 17), (1, 6), (1, 7), (2, 6), (2, 7)] {
///     readings[25 * round + vertex] = 1;
/// }
/// let (mut ends, mut marks, mut syndrome) = ([0; 400], [0; 200], [0; 75]);
/// let vertices = stack(5, 3, &readings, &mut ends, &mut marks, &mut syndrome)?;
///
/// let board = Board { vertices, ends: &ends, marks: &marks, open: &[0; 75] };
/// let sheet = Sheet { board, syndrome: &syndrome, loss: &[0; 200] };
/// let (mut support, mut correction) = ([0; 200], [0; 200]);
/// let key = decode(sheet, &mut support, &mut correction)?;
/// assert_eq!(key, Key { growths: 4, edges: 2 });
/// assert_eq!((correction[50 + 12], correction[150 + 17]), (1, 1));
/// # Ok(())
/// # }
/// ```
#[must_use = "a refusal has written nothing"]
pub fn stack(
    side: u32,
    rounds: u32,
    readings: &[u8],
    ends: &mut [u16],
    marks: &mut [u8],
    syndrome: &mut [u8],
) -> Result<usize, Refusal> {
    let returned = call!(surface_stack(side, rounds; readings; ends, marks, syndrome));
    returned_vertices(returned, side, rounds)
}

/// The vertex count of the stack of a side and so many rounds; number 11 or 15 where there is none.
fn stacked(side: u32, rounds: u32) -> Result<usize, Refusal> {
    if !(1..=32).contains(&side) {
        return Err(Refusal::TorusSide(side));
    }
    let vertices = u64::from(rounds) * u64::from(side * side);
    if vertices == 0 || vertices > VERTICES as u64 {
        return Err(Refusal::RoundCount);
    }
    Ok(vertices as usize)
}

/// The vertex count of the stack of a side and so many rounds that a returned number stands for.
/// Numbers 11 and 15 are given exactly where there is no such stack.
fn returned_vertices(returned: u64, side: u32, rounds: u32) -> Result<usize, Refusal> {
    match (values(returned, &[3, 7, 11, 15]), stacked(side, rounds)) {
        (Ok((vertices, 0)), Ok(all)) if vertices == all => Ok(vertices),
        (Err(Refusal::BufferLength), Ok(_)) => Err(Refusal::BufferLength),
        (Err(Refusal::SyndromeByte(vertex)), Ok(all)) if vertex < all => {
            Err(Refusal::SyndromeByte(vertex))
        }
        (Err(refusal), Err(unbuilt)) if refusal == unbuilt => Err(refusal),
        _ => impossible(returned),
    }
}

#[cfg(test)]
mod tests {
    use super::returned_vertices;
    use crate::Refusal;

    #[test]
    fn each_answer() {
        assert_eq!(returned_vertices(1 << 8, 1, 1), Ok(1));
        assert_eq!(returned_vertices(1024 << 8, 1, 1024), Ok(1024));
        assert_eq!(returned_vertices(1024 << 8, 32, 1), Ok(1024));
        assert_eq!(returned_vertices(75 << 8, 5, 3), Ok(75));
        assert_eq!(returned_vertices(3, 32, 1), Err(Refusal::BufferLength));
        assert_eq!(returned_vertices(7, 1, 1), Err(Refusal::SyndromeByte(0)));
        assert_eq!(returned_vertices(7 | 74 << 8, 5, 3), Err(Refusal::SyndromeByte(74)));
        assert_eq!(returned_vertices(7 | 1023 << 8, 16, 4), Err(Refusal::SyndromeByte(1023)));
    }

    /// The rounds are looked at only where the side is in range.
    #[test]
    fn sides_and_rounds_that_are_refused() {
        for rounds in [0, 1, 1024, u32::MAX] {
            assert_eq!(returned_vertices(11, 0, rounds), Err(Refusal::TorusSide(0)));
            assert_eq!(returned_vertices(11 | 33 << 8, 33, rounds), Err(Refusal::TorusSide(33)));
            let largest = u64::from(u32::MAX) << 8;
            let refusal = returned_vertices(11 | largest, u32::MAX, rounds);
            assert_eq!(refusal, Err(Refusal::TorusSide(u32::MAX)));
        }
        for (side, rounds) in [(1, 0), (1, 1025), (5, 41), (32, 0), (32, 2), (32, u32::MAX)] {
            assert_eq!(returned_vertices(15, side, rounds), Err(Refusal::RoundCount));
        }
        // So many vertices are a multiple of 2^32.
        for (side, rounds) in [(32, 1 << 22), (16, 1 << 24), (8, 1 << 26), (2, 1 << 30)] {
            assert_eq!(returned_vertices(15, side, rounds), Err(Refusal::RoundCount));
        }
    }

    #[test]
    #[should_panic(expected = "returned 0x4b00, which this call never answers")]
    fn vertices_of_another_stack() {
        let _ = returned_vertices(75 << 8, 5, 4);
    }

    #[test]
    #[should_panic(expected = "returned 0x10000004b00, which this call never answers")]
    fn second_value() {
        let _ = returned_vertices(75 << 8 | 1 << 40, 5, 3);
    }

    #[test]
    #[should_panic(expected = "returned 0x4b07, which this call never answers")]
    fn reading_past_the_last() {
        let _ = returned_vertices(7 | 75 << 8, 5, 3);
    }

    #[test]
    #[should_panic(expected = "returned 0xf, which this call never answers")]
    fn rounds_in_range_refused() {
        let _ = returned_vertices(15, 5, 40);
    }

    #[test]
    #[should_panic(expected = "returned 0x0, which this call never answers")]
    fn no_round_built() {
        let _ = returned_vertices(0, 5, 0);
    }

    #[test]
    #[should_panic(expected = "returned 0x40100, which this call never answers")]
    fn round_too_many_built() {
        let _ = returned_vertices(1025 << 8, 5, 41);
    }

    #[test]
    #[should_panic(expected = "returned 0x10b, which this call never answers")]
    fn side_1_refused() {
        let _ = returned_vertices(11 | 1 << 8, 1, 1);
    }

    #[test]
    #[should_panic(expected = "returned 0xf, which this call never answers")]
    fn rounds_before_the_side() {
        let _ = returned_vertices(15, 33, 0);
    }

    #[test]
    #[should_panic(expected = "returned 0x210b, which this call never answers")]
    fn another_side_refused() {
        let _ = returned_vertices(11 | 33 << 8, 34, 1);
    }

    #[test]
    #[should_panic(expected = "returned 0x3, which this call never answers")]
    fn length_before_the_rounds() {
        let _ = returned_vertices(3, 5, 41);
    }

    #[test]
    #[should_panic(expected = "returned 0x7, which this call never answers")]
    fn reading_before_the_rounds() {
        let _ = returned_vertices(7, 5, 0);
    }

    #[test]
    #[should_panic(expected = "returned 0xa, which this call never answers")]
    fn number_of_decoding() {
        let _ = returned_vertices(10, 5, 3);
    }
}
