//! The planar builder.

use crate::Refusal;
use crate::exported::call;
use crate::returned::{impossible, values};

/// Writes the planar board of a side, 2 to 31, and answers with its vertex count.
///
/// It has side rows of side + 1 vertices, of which the first and the last are open. It is lent exactly
/// two ends and a mark for each of its side² + (side - 1)² edges, and an open byte for each of its
/// side × (side + 1) vertices.
///
/// # Errors
///
/// The side is tested before the lengths.
///
/// # Examples
///
/// ```
/// use table::{Refusal, planar};
///
/// let (mut ends, mut marks, mut open) = ([9; 10], [9; 5], [9; 6]);
/// assert_eq!(planar(2, &mut ends, &mut marks, &mut open), Ok(6));
/// assert_eq!(ends, [0, 1, 1, 2, 3, 4, 4, 5, 1, 4]);
/// assert_eq!(marks, [1, 0, 1, 0, 0]);
/// assert_eq!(open, [1, 0, 1, 1, 0, 1]);
///
/// assert_eq!(planar(3, &mut ends, &mut marks, &mut open), Err(Refusal::BufferLength));
/// assert_eq!(planar(32, &mut ends, &mut marks, &mut open), Err(Refusal::PlanarSide(32)));
/// ```
///
/// The fewest edges from one open side to the other are the side, so that is the distance:
///
/// ```
/// use table::{Board, distance, planar};
///
/// let (mut ends, mut marks, mut open) = ([0; 50], [0; 25], [0; 20]);
/// let vertices = planar(4, &mut ends, &mut marks, &mut open).unwrap();
/// let board = Board { vertices, ends: &ends, marks: &marks, open: &open };
/// assert_eq!(distance(board, &mut [0; 25]), Ok(Some(4)));
/// ```
#[must_use = "a refusal has written nothing"]
pub fn planar(
    side: u32,
    ends: &mut [u16],
    marks: &mut [u8],
    open: &mut [u8],
) -> Result<usize, Refusal> {
    let returned = call!(surface_planar(side;; ends, marks, open));
    returned_vertices(returned, side)
}

/// The vertex count of the planar board of a side that a returned number stands for. Number 18 is
/// given exactly where no planar board has that side.
fn returned_vertices(returned: u64, side: u32) -> Result<usize, Refusal> {
    let built = (2..=31).contains(&side);
    match values(returned, &[3, 18]) {
        Ok((vertices, 0)) if built && vertices == (side * (side + 1)) as usize => Ok(vertices),
        Err(Refusal::BufferLength) if built => Err(Refusal::BufferLength),
        Err(Refusal::PlanarSide(refused)) if !built && refused == side => {
            Err(Refusal::PlanarSide(side))
        }
        _ => impossible(returned),
    }
}

#[cfg(test)]
mod tests {
    use super::returned_vertices;
    use crate::Refusal;

    #[test]
    fn each_answer() {
        assert_eq!(returned_vertices(6 << 8, 2), Ok(6));
        assert_eq!(returned_vertices(992 << 8, 31), Ok(992));
        assert_eq!(returned_vertices(3, 31), Err(Refusal::BufferLength));
        assert_eq!(returned_vertices(18, 0), Err(Refusal::PlanarSide(0)));
        assert_eq!(returned_vertices(18 | 1 << 8, 1), Err(Refusal::PlanarSide(1)));
        assert_eq!(returned_vertices(18 | 32 << 8, 32), Err(Refusal::PlanarSide(32)));
        let largest = u64::from(u32::MAX) << 8;
        assert_eq!(returned_vertices(18 | largest, u32::MAX), Err(Refusal::PlanarSide(u32::MAX)));
    }

    #[test]
    #[should_panic(expected = "returned 0x3e000, which this call never answers")]
    fn vertices_of_another_side() {
        let _ = returned_vertices(992 << 8, 30);
    }

    #[test]
    #[should_panic(expected = "returned 0x10000000600, which this call never answers")]
    fn second_value() {
        let _ = returned_vertices(6 << 8 | 1 << 40, 2);
    }

    #[test]
    #[should_panic(expected = "returned 0x2012, which this call never answers")]
    fn another_side_refused() {
        let _ = returned_vertices(18 | 32 << 8, 33);
    }

    #[test]
    #[should_panic(expected = "returned 0x212, which this call never answers")]
    fn side_2_refused() {
        let _ = returned_vertices(18 | 2 << 8, 2);
    }

    #[test]
    #[should_panic(expected = "returned 0x200, which this call never answers")]
    fn side_1_built() {
        let _ = returned_vertices(2 << 8, 1);
    }

    #[test]
    #[should_panic(expected = "returned 0x3, which this call never answers")]
    fn length_before_the_side() {
        let _ = returned_vertices(3, 32);
    }

    #[test]
    #[should_panic(expected = "returned 0x210b, which this call never answers")]
    fn number_of_the_torus() {
        let _ = returned_vertices(11 | 33 << 8, 33);
    }
}
