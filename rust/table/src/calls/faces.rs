//! The verdict on a torus, with faces as evidence.

use crate::exported::call;
use crate::returned::{impossible, values};
use crate::{Refusal, Verdict};

/// Compares a handed-in set with the correction on the torus of a side, 1 to 32, as
/// [`verdict`](crate::verdict) does on the board that [`torus`](crate::torus) writes, and writes faces as
/// evidence where it says [`Verdict::Same`].
///
/// It is lent exactly a syndrome byte for each of the side² vertices, a loss byte and a handed-in byte
/// for each of the 2 side² edges, and a byte to write for each of the side² faces.
///
/// Face r × side + c lies between rows r and r + 1 and columns c and c + 1, counted modulo the side. Of
/// a vertex v edge 2v leads to the next column, and edge 2v + 1 to the next row; so the face has edges
/// 2v and 2v + 1 of vertex (r, c), 2v of (r + 1, c), and 2v + 1 of (r, c + 1). A byte is 1 where its
/// face is marked, else 0. The marked faces, an edge of two of them cancelling, make up the handed-in
/// set and the correction together. All other faces would make them up as well; those without face 0
/// are marked.
///
/// Where the answer is another one, nothing is written. No faces make up sets that wind together.
///
/// # Errors
///
/// The side is tested first, then the lengths. Where there is no correction the vertex is 0, as a torus
/// is one part.
///
/// # Examples
///
/// The torus of side 3 with vertices 0 and 1 in the syndrome, of which edge 0 is the correction. Another
/// way from 0 to 1, over edges 12, 13 and 15, leads round face 6; over edges 2 and 4, round the torus:
///
/// ```
/// use table::{Refusal, Verdict, faces};
///
/// let (lit, loss, mut marked) = ([1, 1, 0, 0, 0, 0, 0, 0, 0], [0; 18], [9; 9]);
/// let mut judge = |handed: &[usize]| {
///     let mut set = [0; 18];
///     handed.iter().for_each(|&edge| set[edge] = 1);
///     (faces(3, &lit, &loss, &set, &mut marked), marked)
/// };
/// assert_eq!(judge(&[2, 4]), (Ok(Verdict::Wound(1)), [9; 9]));
/// assert_eq!(judge(&[12, 13]), (Ok(Verdict::Off(1)), [9; 9]));
/// assert_eq!(judge(&[12, 13, 15]), (Ok(Verdict::Same), [0, 0, 0, 0, 0, 0, 1, 0, 0]));
/// assert_eq!(judge(&[0]), (Ok(Verdict::Same), [0; 9]));
///
/// // Round face 0, which is shown by all others.
/// assert_eq!(judge(&[1, 3, 6]), (Ok(Verdict::Same), [0, 1, 1, 1, 1, 1, 1, 1, 1]));
///
/// let mut refusal = |side, lit| faces(side, lit, &loss, &loss, &mut marked).unwrap_err();
/// assert_eq!(refusal(33, &[1; 9]), Refusal::TorusSide(33));
/// assert_eq!(refusal(3, &[1; 8]), Refusal::BufferLength);
/// assert_eq!(refusal(3, &[1; 9]), Refusal::NoCorrection(0));
/// ```
///
/// The one face of the torus of side 1 has each of its two edges twice, so that it makes up nothing:
///
/// ```
/// use table::{Verdict, faces};
///
/// let mut marked = [9];
/// assert_eq!(faces(1, &[0], &[0, 0], &[0, 1], &mut marked), Ok(Verdict::Wound(2)));
/// assert_eq!(marked, [9]);
/// assert_eq!(faces(1, &[0], &[0, 0], &[0, 0], &mut marked), Ok(Verdict::Same));
/// assert_eq!(marked, [0]);
/// ```
#[must_use = "faces are written only where the answer is same"]
pub fn faces(
    side: u32,
    syndrome: &[u8],
    loss: &[u8],
    handed: &[u8],
    faces: &mut [u8],
) -> Result<Verdict, Refusal> {
    let returned = call!(surface_faces(side; syndrome, loss, handed; faces));
    returned_faces(returned, side)
}

/// The vertex count of the torus of a side; number 11 where there is none.
fn vertices_of(side: u32) -> Result<usize, Refusal> {
    if (1..=32).contains(&side) {
        Ok((side * side) as usize)
    } else {
        Err(Refusal::TorusSide(side))
    }
}

/// Whether the call may refuse so on the torus of so many vertices, which is one part.
fn refuses(refusal: Refusal, vertices: usize) -> bool {
    match refusal {
        Refusal::BufferLength | Refusal::NoCorrection(0) => true,
        Refusal::SyndromeByte(vertex) => vertex < vertices,
        Refusal::LossByte(edge) | Refusal::HandedByte(edge) => edge < 2 * vertices,
        _ => false,
    }
}

/// The verdict on the torus of a side that a returned number stands for. Number 11 is given exactly
/// where no torus has that side.
fn returned_faces(returned: u64, side: u32) -> Result<Verdict, Refusal> {
    match (values(returned, &[3, 7, 8, 9, 10, 11]), vertices_of(side)) {
        (Ok(values), Ok(vertices)) => {
            Verdict::new(values, vertices).map_or_else(|| impossible(returned), Ok)
        }
        (Err(refusal), Ok(vertices)) if refuses(refusal, vertices) => Err(refusal),
        (Err(refusal), Err(unbuilt)) if refusal == unbuilt => Err(refusal),
        _ => impossible(returned),
    }
}

#[cfg(test)]
mod tests {
    use super::returned_faces;
    use crate::{Refusal, Verdict};

    #[test]
    fn each_answer() {
        assert_eq!(returned_faces(1 << 8, 2), Ok(Verdict::Off(0)));
        assert_eq!(returned_faces(1 << 8 | 1023 << 40, 32), Ok(Verdict::Off(1023)));
        assert_eq!(returned_faces(2 << 8, 1), Ok(Verdict::Same));
        assert_eq!(returned_faces(2 << 8, 32), Ok(Verdict::Same));
        assert_eq!(returned_faces(3 << 8 | 1 << 40, 1), Ok(Verdict::Wound(1)));
        assert_eq!(returned_faces(3 << 8 | 3 << 40, 32), Ok(Verdict::Wound(3)));
    }

    #[test]
    fn each_refusal() {
        assert_eq!(returned_faces(11, 0), Err(Refusal::TorusSide(0)));
        assert_eq!(returned_faces(11 | 33 << 8, 33), Err(Refusal::TorusSide(33)));
        let largest = u64::from(u32::MAX) << 8;
        assert_eq!(returned_faces(11 | largest, u32::MAX), Err(Refusal::TorusSide(u32::MAX)));
        assert_eq!(returned_faces(3, 1), Err(Refusal::BufferLength));
        assert_eq!(returned_faces(7 | 8 << 8, 3), Err(Refusal::SyndromeByte(8)));
        assert_eq!(returned_faces(8 | 17 << 8, 3), Err(Refusal::LossByte(17)));
        assert_eq!(returned_faces(9 | 2047 << 8, 32), Err(Refusal::HandedByte(2047)));
        assert_eq!(returned_faces(10, 32), Err(Refusal::NoCorrection(0)));
    }

    #[test]
    #[should_panic(expected = "returned 0x400, which this call never answers")]
    fn fourth_verdict() {
        let _ = returned_faces(4 << 8, 3);
    }

    #[test]
    #[should_panic(expected = "returned 0x90000000100, which this call never answers")]
    fn off_outside_the_torus() {
        let _ = returned_faces(1 << 8 | 9 << 40, 3);
    }

    #[test]
    #[should_panic(expected = "returned 0x200, which this call never answers")]
    fn side_0_judged() {
        let _ = returned_faces(2 << 8, 0);
    }

    #[test]
    #[should_panic(expected = "returned 0x30000000300, which this call never answers")]
    fn side_33_judged() {
        let _ = returned_faces(3 << 8 | 3 << 40, 33);
    }

    #[test]
    #[should_panic(expected = "returned 0x10b, which this call never answers")]
    fn side_1_refused() {
        let _ = returned_faces(11 | 1 << 8, 1);
    }

    #[test]
    #[should_panic(expected = "returned 0x210b, which this call never answers")]
    fn another_side_refused() {
        let _ = returned_faces(11 | 33 << 8, 34);
    }

    #[test]
    #[should_panic(expected = "returned 0x3, which this call never answers")]
    fn length_before_the_side() {
        let _ = returned_faces(3, 33);
    }

    #[test]
    #[should_panic(expected = "returned 0xa, which this call never answers")]
    fn no_correction_before_the_side() {
        let _ = returned_faces(10, 33);
    }

    #[test]
    #[should_panic(expected = "returned 0x907, which this call never answers")]
    fn vertex_past_the_last() {
        let _ = returned_faces(7 | 9 << 8, 3);
    }

    #[test]
    #[should_panic(expected = "returned 0x1208, which this call never answers")]
    fn lost_edge_past_the_last() {
        let _ = returned_faces(8 | 18 << 8, 3);
    }

    #[test]
    #[should_panic(expected = "returned 0x1209, which this call never answers")]
    fn handed_edge_past_the_last() {
        let _ = returned_faces(9 | 18 << 8, 3);
    }

    #[test]
    #[should_panic(expected = "returned 0x10a, which this call never answers")]
    fn second_part() {
        let _ = returned_faces(10 | 1 << 8, 3);
    }

    #[test]
    #[should_panic(expected = "returned 0x10, which this call never answers")]
    fn number_of_the_verdict_alone() {
        let _ = returned_faces(16, 3);
    }
}
