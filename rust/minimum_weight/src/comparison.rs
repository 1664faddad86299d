//! A decoder compared with this one on tori and planar boards: no correction has fewer edges than the
//! fewest, and neither winds with the error where its own bound says so.

use reference::board::{Board, Sheet, members, size, together};
use reference::{Key, Random, Refusal};

use crate::{LIT_LIMIT, minimum_weight};

/// What was compared.
#[derive(Clone, Copy, Debug, Default, PartialEq, Eq)]
pub struct Comparison {
    /// Sheets.
    pub sheets: usize,
    /// Corrections with more edges than the fewest.
    pub larger: usize,
    /// Errors with t + 2s below the distance.
    pub within: usize,
    /// Other errors, which wind with the correction.
    pub wound: usize,
}

/// Decodes so many random errors on the torus or the planar board of a side, which is its distance, and
/// panics where a decoder is at fault.
pub fn compare(
    random: &mut Random,
    board: &Board,
    side: usize,
    sheets: usize,
    decoder: impl Fn(&Sheet) -> Result<Key, Refusal>,
) -> Comparison {
    let mut comparison = Comparison::default();
    while comparison.sheets < sheets {
        let lost = random.below(side);
        let loss = random.set_of_size(board.edges(), lost);
        let flipped = random.from_to(1, side + 1);
        let error = random.set_of_size(board.edges(), flipped);
        let syndrome = board.syndrome(&error);
        if size(&syndrome) > LIT_LIMIT {
            continue;
        }
        let sheet = Sheet { board: board.clone(), syndrome, loss };
        let key = decoder(&sheet).expect("the error has the syndrome");
        compare_one(&sheet, &error, side, &key.correction, &mut comparison);
    }
    comparison
}

fn compare_one(
    sheet: &Sheet,
    error: &[u8],
    distance: usize,
    correction: &[u8],
    to: &mut Comparison,
) {
    let board = &sheet.board;
    let fewest = minimum_weight(board, &sheet.syndrome).expect("the error has the syndrome");
    assert!(size(correction) >= size(&fewest), "fewer edges than the fewest: {sheet:?}");
    let kept = members(error).filter(|&edge| sheet.loss[edge] == 0).count();
    let within = size(&sheet.loss) + 2 * kept < distance;
    let winds = board.winds(&together(error, correction));
    assert!(!(within && winds), "{error:?} winds with the correction: {sheet:?}");
    let fewest_winds = board.winds(&together(error, &fewest));
    assert!(!(2 * size(error) < distance && fewest_winds), "the fewest edges wind: {sheet:?}");
    to.sheets += 1;
    to.larger += usize::from(size(correction) > size(&fewest));
    to.within += usize::from(within);
    to.wound += usize::from(winds);
}
