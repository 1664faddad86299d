//! The verdict with faces, held to the verdict on the torus and to document 02's words.

use crate::{agrees, library};
use reference::board::{Sheet, together};
use table::{Refusal, Verdict};

/// What the call answers, and the faces that it writes where that is same.
pub type Answer = Result<(Verdict, Option<Vec<u8>>), Refusal>;

/// What is lent to be read, beside a side.
#[derive(Clone, Debug)]
pub struct Lent {
    pub syndrome: Vec<u8>,
    pub loss: Vec<u8>,
    pub handed: Vec<u8>,
}

impl Lent {
    /// Nothing lit, lost or handed in, on the torus of a side.
    pub fn blank(side: usize) -> Lent {
        let (vertices, edges) = (side * side, 2 * side * side);
        Lent { syndrome: vec![0; vertices], loss: vec![0; edges], handed: vec![0; edges] }
    }

    /// The sheet, with this set handed in.
    pub fn new(sheet: &Sheet, handed: &[u8]) -> Lent {
        let Sheet { syndrome, loss, .. } = sheet.clone();
        Lent { syndrome, loss, handed: handed.to_vec() }
    }
}

/// Holds faces to document 02's words: a byte for each, and those that are marked, an edge counted twice
/// cancelling, make up the set; of the two choices, the one without face 0.
fn hold_faces(side: usize, faces: &[u8], set: &[u8]) {
    assert!(faces.len() == side * side && faces.iter().all(|&byte| byte <= 1), "{faces:?}");
    assert_eq!(faces[0], 0, "{faces:?}");
    let number = |r: usize, c: usize| (r % side) * side + c % side;
    let mut sum = vec![0; set.len()];
    for (r, c) in (0..side).flat_map(|r| (0..side).map(move |c| (r, c))) {
        let byte = faces[number(r, c)];
        sum[2 * number(r, c)] ^= byte;
        sum[2 * number(r + 1, c)] ^= byte;
        sum[2 * number(r, c) + 1] ^= byte;
        sum[2 * number(r, c + 1) + 1] ^= byte;
    }
    assert_eq!(sum, set, "side {side}: {faces:?}");
}

/// The call on a side in range, with a buffer of the right length to fill, held to answer as the
/// library's verdict does on the library's torus, and to write faces that make up the handed-in set and
/// the library's correction together.
pub fn judge(side: usize, lent: &Lent) -> Answer {
    let Lent { syndrome, loss, handed } = lent.clone();
    let answer = agrees::faces(side as u32, &syndrome, &loss, &handed);
    let edges = 2 * side * side;
    let board = agrees::torus_with(side as u32, 2 * edges, edges).expect("a side in range");
    let sheet = Sheet { board, syndrome, loss };
    let verdict = agrees::verdict(&sheet, &handed);
    assert_eq!(answer.as_ref().map(|(judged, _)| *judged).map_err(|refusal| *refusal), verdict);
    if let Ok((_, Some(faces))) = &answer {
        let key = library::decode(&sheet).expect("a correction");
        hold_faces(side, faces, &together(&handed, &key.correction));
    }
    answer
}
