//! The torus builder.

use crate::Refusal;
use crate::exported::call;
use crate::returned::{impossible, values};

/// Writes the torus of a side, 1 to 32, and answers with its vertex count.
///
/// It is lent exactly 4 side² ends and 2 side² marks.
///
/// # Errors
///
/// The side is tested before the lengths.
///
/// # Examples
///
/// ```
/// use table::{Refusal, torus};
///
/// let (mut ends, mut marks) = ([0; 16], [0; 8]);
/// assert_eq!(torus(2, &mut ends, &mut marks), Ok(4));
/// assert_eq!(ends, [0, 1, 0, 2, 1, 0, 1, 3, 2, 3, 2, 0, 3, 2, 3, 1]);
/// assert_eq!(marks, [0, 0, 1, 0, 0, 2, 1, 2]);
///
/// assert_eq!(torus(3, &mut ends, &mut marks), Err(Refusal::BufferLength));
/// assert_eq!(torus(33, &mut ends, &mut marks), Err(Refusal::TorusSide(33)));
/// ```
///
/// Both edges of the torus of side 1 return to its one vertex:
///
/// ```
/// use table::torus;
///
/// let (mut ends, mut marks) = ([9; 4], [9; 2]);
/// assert_eq!(torus(1, &mut ends, &mut marks), Ok(1));
/// assert_eq!((ends, marks), ([0; 4], [1, 2]));
/// ```
#[must_use = "a refusal has written nothing"]
pub fn torus(side: u32, ends: &mut [u16], marks: &mut [u8]) -> Result<usize, Refusal> {
    let returned = call!(surface_torus(side;; ends, marks));
    returned_vertices(returned, side)
}

/// The vertex count of the torus of a side that a returned number stands for. Number 11 is given
/// exactly where no torus has that side.
fn returned_vertices(returned: u64, side: u32) -> Result<usize, Refusal> {
    let built = (1..=32).contains(&side);
    match values(returned, &[3, 11]) {
        Ok((vertices, 0)) if built && vertices == (side as usize).pow(2) => Ok(vertices),
        Err(Refusal::BufferLength) if built => Err(Refusal::BufferLength),
        Err(Refusal::TorusSide(refused)) if !built && refused == side => {
            Err(Refusal::TorusSide(side))
        }
        _ => impossible(returned),
    }
}

#[cfg(test)]
mod tests {
    use super::returned_vertices;
    use crate::Refusal;

    #[test]
    fn each_answer() {
        assert_eq!(returned_vertices(1 << 8, 1), Ok(1));
        assert_eq!(returned_vertices(1024 << 8, 32), Ok(1024));
        assert_eq!(returned_vertices(3, 32), Err(Refusal::BufferLength));
        assert_eq!(returned_vertices(11, 0), Err(Refusal::TorusSide(0)));
        assert_eq!(returned_vertices(11 | 33 << 8, 33), Err(Refusal::TorusSide(33)));
    }

    #[test]
    #[should_panic(expected = "returned 0x40000, which this call never answers")]
    fn vertices_of_another_side() {
        let _ = returned_vertices(1024 << 8, 31);
    }

    #[test]
    #[should_panic(expected = "returned 0x10000000400, which this call never answers")]
    fn second_value() {
        let _ = returned_vertices(4 << 8 | 1 << 40, 2);
    }

    #[test]
    #[should_panic(expected = "returned 0x210b, which this call never answers")]
    fn another_side_refused() {
        let _ = returned_vertices(11 | 33 << 8, 34);
    }

    #[test]
    #[should_panic(expected = "returned 0x10b, which this call never answers")]
    fn side_1_refused() {
        let _ = returned_vertices(11 | 1 << 8, 1);
    }

    #[test]
    #[should_panic(expected = "returned 0x0, which this call never answers")]
    fn side_0_built() {
        let _ = returned_vertices(0, 0);
    }

    #[test]
    #[should_panic(expected = "returned 0x3, which this call never answers")]
    fn length_before_the_side() {
        let _ = returned_vertices(3, 33);
    }
}
