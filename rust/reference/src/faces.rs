//! Document 02, K9, "Faces as evidence": on a torus, the faces that make up a handed-in set and the
//! correction together.

use crate::board::{Sheet, members, together};
use crate::decoding::key;
use crate::refusal::{self, Refusal};
use crate::torus::torus;
use crate::verdict::{Verdict, judged};

/// The verdict on the torus of this side, with the faces where it is same, or a refusal; the buffer
/// lent for the faces has this length.
pub fn faces_into(
    side: u32,
    syndrome: &[u8],
    loss: &[u8],
    handed: &[u8],
    faces: usize,
) -> Result<(Verdict, Option<Vec<u8>>), Refusal> {
    refusal::faces(side, syndrome, loss, handed, faces)?;
    let side = side as usize;
    let (syndrome, loss) = (syndrome.to_vec(), loss.to_vec());
    let sheet = Sheet { board: torus(side), syndrome, loss };
    let correction = key(&sheet)?.correction;
    let verdict = judged(&sheet, handed, &correction);
    let shown = match verdict {
        Verdict::Same => Some(
            making_up(side, &together(handed, &correction))
                .expect("a closed set that doesn't wind is made up of faces"),
        ),
        Verdict::Off(_) | Verdict::Wound(_) => None,
    };
    Ok((verdict, shown))
}

/// The four edges of a face of the torus of a side. On side 1 each is named twice.
pub fn edges_of(side: usize, face: usize) -> [usize; 4] {
    let (row, column) = (face / side, face % side);
    let first_kind = |row: usize, column: usize| 2 * (row % side * side + column % side);
    let second_kind = |row: usize, column: usize| first_kind(row, column) + 1;
    [
        first_kind(row, column),
        first_kind(row + 1, column),
        second_kind(row, column),
        second_kind(row, column + 1),
    ]
}

/// The edges that faces make up, an edge counted twice cancelling.
pub fn made_up(side: usize, faces: &[u8]) -> Vec<u8> {
    let mut set = vec![0; 2 * side * side];
    for face in members(faces) {
        for edge in edges_of(side, face) {
            set[edge] ^= 1;
        }
    }
    set
}

/// The faces without face 0 that make up a set of edges, where there are such. Of the two faces beside
/// an edge one is marked and the other not if the edge is in the set, else both or neither: so the marks
/// spread from face 0 over all of the torus, and are then held to make up the set.
pub fn making_up(side: usize, set: &[u8]) -> Option<Vec<u8>> {
    let mut beside = vec![Vec::new(); set.len()];
    for face in 0..side * side {
        for edge in edges_of(side, face) {
            beside[edge].push(face);
        }
    }
    let mut marks = vec![None; side * side];
    let mut reached = vec![(0, 0)];
    while let Some((face, mark)) = reached.pop() {
        if marks[face].is_none() {
            marks[face] = Some(mark);
            for edge in edges_of(side, face) {
                reached.extend(beside[edge].iter().map(|&other| (other, mark ^ set[edge])));
            }
        }
    }
    let marks: Vec<u8> = marks.into_iter().flatten().collect();
    (made_up(side, &marks) == set).then_some(marks)
}
