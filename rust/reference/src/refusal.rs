//! Document 01, "Numbers and places": the tests of each call, in the order of their numbers. By
//! document 02, K3, equal ends break no rule, so that number 5 never occurs; by K5 the open bytes are
//! tested after 8 and 9 and before 10; by K1 a stack's rounds are tested after its side and before any
//! length; by K9 the verdict with faces tests the side before all else; by K7 words are tested right
//! after 8; by K11 the game tests its own three after the board's, and by K12 a trap its one.

use crate::board::{Board, EDGE_LIMIT, Sheet, VERTEX_LIMIT};
use crate::game::GAME_LIMIT;
use crate::packed::{PackedSheet, WORD, is_set, unpacked, words_of};
use crate::trap::TRAP_LIMIT;

/// Why a call refuses: the number of the rule that is broken, and where.
#[derive(Clone, Copy, Debug, PartialEq, Eq)]
pub struct Refusal {
    pub number: u8,
    pub place: u64,
}

/// A test passes or refuses.
pub type Test = Result<(), Refusal>;

/// Number 10, "no correction".
pub const NO_CORRECTION: u8 = 10;

/// Refuses with this number and place.
pub fn refuse<T>(number: u8, place: usize) -> Result<T, Refusal> {
    let place = place as u64;
    Err(Refusal { number, place })
}

fn unless(kept: bool, number: u8, place: usize) -> Test {
    if kept { Ok(()) } else { refuse(number, place) }
}

/// Refuses at the first place below `count` that breaks the rule.
fn first_place(number: u8, count: usize, broken: impl Fn(usize) -> bool) -> Test {
    match (0..count).find(|&place| broken(place)) {
        Some(place) => refuse(number, place),
        None => Ok(()),
    }
}

/// Numbers 1, 2 and 3: the counts, and the lengths of all other buffers that are lent, each given
/// with the length that it must have.
fn counts(board: &Board, lengths: &[(usize, usize)]) -> Test {
    let ends = board.ends.len();
    vertex_count(board.vertices)?;
    unless(ends.is_multiple_of(2) && ends <= 2 * EDGE_LIMIT, 2, 0)?;
    buffer_lengths(lengths)
}

fn vertex_count(vertices: usize) -> Test {
    unless((1..=VERTEX_LIMIT).contains(&vertices), 1, 0)
}

fn buffer_lengths(lengths: &[(usize, usize)]) -> Test {
    unless(lengths.iter().all(|(is, must)| is == must), 3, 0)
}

/// Numbers 4 and 6: the edges.
fn edges(board: &Board) -> Test {
    let count = board.edges();
    first_place(4, count, |edge| board.ends_of(edge).iter().any(|&end| end >= board.vertices))?;
    first_place(6, count, |edge| board.marks[edge] > 3)
}

/// Numbers 7, 8, 9 and 16: a byte above 1.
fn bytes(number: u8, lent: &[u8]) -> Test {
    first_place(number, lent.len(), |place| lent[place] > 1)
}

/// Numbers 1 to 4 and 6 to 8 of a call that is lent a sheet and further buffers of so many bytes,
/// which must have one for each edge.
fn sheet(sheet: &Sheet, further: &[usize]) -> Test {
    let Sheet { board, syndrome, loss } = sheet;
    let count = board.edges();
    let mut lengths = vec![
        (board.marks.len(), count),
        (board.open.len(), board.vertices),
        (syndrome.len(), board.vertices),
        (loss.len(), count),
    ];
    lengths.extend(further.iter().map(|&length| (length, count)));
    counts(board, &lengths)?;
    edges(board)?;
    bytes(7, syndrome)?;
    bytes(8, loss)
}

/// Numbers 16 and 17: an open byte above 1, and an open vertex that is lit.
fn open_sides(sheet: &Sheet) -> Test {
    let open = &sheet.board.open;
    bytes(16, open)?;
    first_place(17, open.len(), |vertex| open[vertex] == 1 && sheet.syndrome[vertex] == 1)
}

/// The tests of decoding, which is lent buffers of these lengths to fill; all but number 10.
pub fn decoding(lent: &Sheet, support: usize, correction: usize) -> Test {
    sheet(lent, &[support, correction])?;
    open_sides(lent)
}

/// The tests of the verdict; all but number 10.
pub fn verdict(lent: &Sheet, handed: &[u8]) -> Test {
    sheet(lent, &[handed.len()])?;
    bytes(9, handed)?;
    open_sides(lent)
}

/// The tests of the verdict with faces, which is lent a buffer of this length to fill; all but number
/// 10. It is lent a side in place of a board, and the lengths are tested only once that is in range.
pub fn faces(side: u32, syndrome: &[u8], loss: &[u8], handed: &[u8], faces: usize) -> Test {
    let side = side as usize;
    unless((1..=32).contains(&side), 11, side)?;
    let (vertices, edges) = (side * side, 2 * side * side);
    buffer_lengths(&[
        (syndrome.len(), vertices),
        (loss.len(), edges),
        (handed.len(), edges),
        (faces, vertices),
    ])?;
    bytes(7, syndrome)?;
    bytes(8, loss)?;
    bytes(9, handed)
}

/// Numbers 1 to 4, 6 and 16 of a call that is lent a board and one more buffer of so many bytes, which
/// must have one for each edge.
fn whole_board(board: &Board, further: usize) -> Test {
    let count = board.edges();
    let lengths =
        [(board.marks.len(), count), (board.open.len(), board.vertices), (further, count)];
    counts(board, &lengths)?;
    edges(board)?;
    bytes(16, &board.open)
}

/// The tests of the distance, which is lent a buffer of this length to fill.
pub fn distance(board: &Board, shown: usize) -> Test {
    whole_board(board, shown)
}

/// The tests of the game.
pub fn game(board: &Board, position: &[u8]) -> Test {
    whole_board(board, position.len())?;
    unless(board.edges() <= GAME_LIMIT, 20, 0)?;
    first_place(21, position.len(), |edge| position[edge] > 2)?;
    let [winder, blocker] = [1, 2].map(|by| position.iter().filter(|&&byte| byte == by).count());
    unless(winder == blocker || winder == blocker + 1, 22, 0)
}

/// The tests of setting a trap, which is lent a buffer of this length to fill.
pub fn trap(board: &Board, loss: &[u8], set: usize) -> Test {
    let count = board.edges();
    let lengths = [
        (board.marks.len(), count),
        (board.open.len(), board.vertices),
        (loss.len(), count),
        (set, count),
    ];
    counts(board, &lengths)?;
    edges(board)?;
    bytes(8, loss)?;
    bytes(16, &board.open)?;
    unless(count <= TRAP_LIMIT, 23, 0)
}

/// The tests of the torus builder, which is lent buffers of these lengths to fill. The lengths are
/// tested only once the side is in range.
pub fn torus(side: u32, ends: usize, marks: usize) -> Test {
    let side = side as usize;
    unless((1..=32).contains(&side), 11, side)?;
    buffer_lengths(&[(ends, 4 * side * side), (marks, 2 * side * side)])
}

/// The tests of the planar builder, which is lent buffers of these lengths to fill. The side is tested
/// first, and is the only range that is tested.
pub fn planar(side: u32, ends: usize, marks: usize, open: usize) -> Test {
    let side = side as usize;
    unless((2..=31).contains(&side), 18, side)?;
    let along_rows = side * side;
    let down_inner_columns = (side - 1) * (side - 1);
    let edges = along_rows + down_inner_columns;
    buffer_lengths(&[(ends, 2 * edges), (marks, edges), (open, side * (side + 1))])
}

/// The tests of the builder of stacks, which is lent these readings, and buffers of these lengths to
/// fill. The rounds are tested once the side is in range, the lengths once both are, and the readings
/// last.
pub fn stack(
    side: u32,
    rounds: u32,
    readings: &[u8],
    (ends, marks, syndrome): (usize, usize, usize),
) -> Test {
    unless((1..=32).contains(&side), 11, side as usize)?;
    let layer = u64::from(side * side);
    let vertices = u64::from(rounds) * layer;
    unless(rounds > 0 && vertices <= VERTEX_LIMIT as u64, 15, 0)?;
    let (layer, vertices) = (layer as usize, vertices as usize);
    let inside_layers = 2 * vertices;
    let between_layers = vertices - layer;
    let edges = inside_layers + between_layers;
    buffer_lengths(&[
        (readings.len(), vertices),
        (ends, 2 * edges),
        (marks, edges),
        (syndrome, vertices),
    ])?;
    bytes(7, readings)
}

/// The tests of the reader on the buffers that it is lent to fill.
pub fn reader(ends: usize, marks: usize, open: usize, syndrome: usize, loss: usize) -> Test {
    buffer_lengths(&[
        (ends, 2 * EDGE_LIMIT),
        (marks, EDGE_LIMIT),
        (open, VERTEX_LIMIT),
        (syndrome, VERTEX_LIMIT),
        (loss, EDGE_LIMIT),
    ])
}

/// The tests of the writer on the sheet that it is lent.
pub fn writer(lent: &Sheet) -> Test {
    sheet(lent, &[])?;
    open_sides(lent)
}

/// Numbers 1 and 2 of a call that is lent counts in place of a board.
fn lent_counts((vertices, edges): (usize, usize)) -> Test {
    vertex_count(vertices)?;
    unless(edges <= EDGE_LIMIT, 2, 0)
}

/// Number 19: a bit past the last of so many items, in the words that these fill.
fn words(items: usize, lent: &[u64]) -> Test {
    let bits = WORD * lent.len();
    match (items..bits).find(|&bit| is_set(lent, bit)) {
        Some(bit) => refuse(19, bit / WORD),
        None => Ok(()),
    }
}

/// The tests of packing, which is lent buffers for so many words to fill.
pub fn packing(
    (vertices, edges): (usize, usize),
    syndrome: &[u8],
    loss: &[u8],
    (syndrome_words, loss_words): (usize, usize),
) -> Test {
    lent_counts((vertices, edges))?;
    buffer_lengths(&[
        (syndrome.len(), vertices),
        (loss.len(), edges),
        (syndrome_words, words_of(vertices)),
        (loss_words, words_of(edges)),
    ])?;
    bytes(7, syndrome)?;
    bytes(8, loss)
}

/// The tests of unpacking, which is lent buffers for so many bytes to fill.
pub fn unpacking(
    (vertices, edges): (usize, usize),
    syndrome_words: &[u64],
    loss_words: &[u64],
    (syndrome, loss): (usize, usize),
) -> Test {
    lent_counts((vertices, edges))?;
    buffer_lengths(&[
        (syndrome_words.len(), words_of(vertices)),
        (loss_words.len(), words_of(edges)),
        (syndrome, vertices),
        (loss, edges),
    ])?;
    words(vertices, syndrome_words)?;
    words(edges, loss_words)
}

/// The tests of the lit total.
pub fn lit_total(vertices: usize, lent: &[u64]) -> Test {
    vertex_count(vertices)?;
    buffer_lengths(&[(lent.len(), words_of(vertices))])?;
    words(vertices, lent)
}

/// The tests of listing lit vertices, which is lent a list of this length to fill.
pub fn listing(vertices: usize, lent: &[u64], list: usize) -> Test {
    vertex_count(vertices)?;
    buffer_lengths(&[(lent.len(), words_of(vertices)), (list, vertices)])?;
    words(vertices, lent)
}

/// The tests of decoding a packed sheet, which is lent buffers of these lengths to fill; all but number
/// 10. The plain sheet, where it passes them.
pub fn packed_decoding(
    lent: &PackedSheet,
    support: usize,
    correction: usize,
) -> Result<Sheet, Refusal> {
    let PackedSheet { board, syndrome, loss } = lent;
    let count = board.edges();
    let lengths = [
        (board.marks.len(), count),
        (board.open.len(), board.vertices),
        (syndrome.len(), words_of(board.vertices)),
        (loss.len(), words_of(count)),
        (support, count),
        (correction, count),
    ];
    counts(board, &lengths)?;
    edges(board)?;
    words(board.vertices, syndrome)?;
    words(count, loss)?;
    let syndrome = unpacked(syndrome, board.vertices);
    let plain = Sheet { board: board.clone(), syndrome, loss: unpacked(loss, count) };
    open_sides(&plain)?;
    Ok(plain)
}
