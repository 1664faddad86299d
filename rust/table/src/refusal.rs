//! Why a call refuses.

use core::error::Error;
use core::fmt;

use crate::{EDGES, GAME_EDGES, LOSS_WORDS, TEXT, VERTICES};

/// The rule that is broken, with the place where it is broken.
///
/// Of all the rules that a call's buffers break, the one that the call tests first is given, at its
/// smallest place. That is the one with the smallest number, but for these: 16 and 17 are tested
/// before 10, 12 and 14, and 19 before all of these; a call that is lent a side tests it before all
/// else, by number 11 or, for a planar board, 18; the builder of stacks tests 15 next. By 19 the words
/// of the syndrome are tested before those of the loss. Number 5 is not in use. A call that refuses has
/// written nothing. What is displayed is a sentence with the place.
///
/// # Examples
///
/// ```
/// use table::{Refusal, torus};
///
/// let refusal = torus(33, &mut [], &mut []).unwrap_err();
/// assert_eq!(refusal, Refusal::TorusSide(33));
/// assert_eq!((refusal.number(), refusal.place()), (11, 33));
/// assert_eq!(refusal.to_string(), "side 33 is outside 1 to 32");
/// ```
#[derive(Clone, Copy, Debug, PartialEq, Eq, Hash)]
#[must_use]
#[non_exhaustive]
pub enum Refusal {
    /// Number 1: the vertex count is 0 or above [`VERTICES`](crate::VERTICES).
    VertexCount,
    /// Number 2: the count of a given board's ends is odd, or above twice [`EDGES`](crate::EDGES); in
    /// packing and unpacking, the edge count is above [`EDGES`](crate::EDGES).
    EndCount,
    /// Number 3: another buffer has the wrong length.
    BufferLength,
    /// Number 4: this edge has an end at or above the vertex count.
    EndRange(usize),
    /// Number 6: this edge has a mark above 3.
    MarkRange(usize),
    /// Number 7: this vertex has a syndrome byte above 1, or, in a stack, a reading byte above 1.
    SyndromeByte(usize),
    /// Number 8: this edge has a loss byte above 1.
    LossByte(usize),
    /// Number 9: this edge has a handed-in byte above 1.
    HandedByte(usize),
    /// Number 10: no set of edges has the syndrome, since some connected part of the board is odd: it
    /// holds an odd number of syndrome vertices, and no open vertex. This is the smallest vertex of
    /// all such parts.
    NoCorrection(usize),
    /// Number 11: no torus has this side.
    TorusSide(u32),
    /// Number 12: the text to be read or written has more than [`TEXT`](crate::TEXT) bytes.
    TextLength,
    /// Number 13: this line, counted from 1, is the first malformed one.
    MalformedLine(usize),
    /// Number 14: the buffer to be written is shorter than the text.
    TextBuffer,
    /// Number 15: the rounds of a stack are 0, or its vertices above [`VERTICES`](crate::VERTICES).
    RoundCount,
    /// Number 16: this vertex has an open byte above 1.
    OpenByte(usize),
    /// Number 17: this vertex is open and in the syndrome.
    LitOpen(usize),
    /// Number 18: no planar board is built with this side.
    PlanarSide(u32),
    /// Number 19: this word, of the syndrome's or of the loss's, has a bit past the last item.
    PastLast(usize),
    /// Number 20: the board of a game has more than [`GAME_EDGES`](crate::GAME_EDGES) edges.
    GameEdges,
    /// Number 21: this edge has a position byte above 2.
    PositionByte(usize),
    /// Number 22: in the position Winder has neither as many edges as Blocker nor one more.
    MoveCount,
    /// Number 23: the board of a trap has more than [`TRAP_EDGES`](crate::TRAP_EDGES) edges.
    TrapEdges,
}

impl Refusal {
    /// The refusal's number, as the static library and the decode program give it.
    #[must_use]
    pub const fn number(self) -> u8 {
        match self {
            Refusal::VertexCount => 1,
            Refusal::EndCount => 2,
            Refusal::BufferLength => 3,
            Refusal::EndRange(_) => 4,
            Refusal::MarkRange(_) => 6,
            Refusal::SyndromeByte(_) => 7,
            Refusal::LossByte(_) => 8,
            Refusal::HandedByte(_) => 9,
            Refusal::NoCorrection(_) => 10,
            Refusal::TorusSide(_) => 11,
            Refusal::TextLength => 12,
            Refusal::MalformedLine(_) => 13,
            Refusal::TextBuffer => 14,
            Refusal::RoundCount => 15,
            Refusal::OpenByte(_) => 16,
            Refusal::LitOpen(_) => 17,
            Refusal::PlanarSide(_) => 18,
            Refusal::PastLast(_) => 19,
            Refusal::GameEdges => 20,
            Refusal::PositionByte(_) => 21,
            Refusal::MoveCount => 22,
            Refusal::TrapEdges => 23,
        }
    }

    /// The vertex, edge, side, line or word where the rule is broken; 0 where the rule has no place.
    #[must_use]
    pub const fn place(self) -> u64 {
        match self {
            Refusal::VertexCount
            | Refusal::EndCount
            | Refusal::BufferLength
            | Refusal::TextLength
            | Refusal::TextBuffer
            | Refusal::RoundCount
            | Refusal::GameEdges
            | Refusal::MoveCount
            | Refusal::TrapEdges => 0,
            Refusal::EndRange(place)
            | Refusal::MarkRange(place)
            | Refusal::SyndromeByte(place)
            | Refusal::LossByte(place)
            | Refusal::HandedByte(place)
            | Refusal::NoCorrection(place)
            | Refusal::MalformedLine(place)
            | Refusal::OpenByte(place)
            | Refusal::LitOpen(place)
            | Refusal::PastLast(place)
            | Refusal::PositionByte(place) => place as u64,
            Refusal::TorusSide(side) | Refusal::PlanarSide(side) => side as u64,
        }
    }

    /// The refusal with this number and place, where there is one. An edge, a vertex, a line or a word
    /// is below the limits; a text has at most one line more than bytes. The position bytes of a board
    /// with too many edges for a game are not looked at.
    pub(crate) fn new(number: u8, place: u64) -> Option<Refusal> {
        let at = usize::try_from(place).ok()?;
        let edge = (at < EDGES).then_some(at);
        let game_edge = (at < GAME_EDGES).then_some(at);
        let vertex = (at < VERTICES).then_some(at);
        let word = (at < LOSS_WORDS).then_some(at);
        let refusal = match number {
            1 => Refusal::VertexCount,
            2 => Refusal::EndCount,
            3 => Refusal::BufferLength,
            4 => Refusal::EndRange(edge?),
            6 => Refusal::MarkRange(edge?),
            7 => Refusal::SyndromeByte(vertex?),
            8 => Refusal::LossByte(edge?),
            9 => Refusal::HandedByte(edge?),
            10 => Refusal::NoCorrection(vertex?),
            11 => Refusal::TorusSide(u32::try_from(place).ok()?),
            12 => Refusal::TextLength,
            13 if (1..=TEXT + 1).contains(&at) => Refusal::MalformedLine(at),
            14 => Refusal::TextBuffer,
            15 => Refusal::RoundCount,
            16 => Refusal::OpenByte(vertex?),
            17 => Refusal::LitOpen(vertex?),
            18 => Refusal::PlanarSide(u32::try_from(place).ok()?),
            19 => Refusal::PastLast(word?),
            20 => Refusal::GameEdges,
            21 => Refusal::PositionByte(game_edge?),
            22 => Refusal::MoveCount,
            23 => Refusal::TrapEdges,
            _ => return None,
        };
        (refusal.place() == place).then_some(refusal)
    }
}

impl fmt::Display for Refusal {
    fn fmt(&self, to: &mut fmt::Formatter<'_>) -> fmt::Result {
        match self {
            Refusal::VertexCount => write!(to, "the vertex count is 0 or above 1,024"),
            Refusal::EndCount => {
                write!(to, "the count of ends is odd or above 8,192, or that of edges above 4,096")
            }
            Refusal::BufferLength => write!(to, "a lent buffer has the wrong length"),
            Refusal::EndRange(edge) => {
                write!(to, "edge {edge} has an end at or above the vertex count")
            }
            Refusal::MarkRange(edge) => write!(to, "edge {edge} has a mark above 3"),
            Refusal::SyndromeByte(vertex) => {
                write!(to, "vertex {vertex} has a syndrome byte above 1")
            }
            Refusal::LossByte(edge) => write!(to, "edge {edge} has a loss byte above 1"),
            Refusal::HandedByte(edge) => write!(to, "edge {edge} has a handed-in byte above 1"),
            Refusal::NoCorrection(vertex) => {
                write!(to, "no correction: vertex {vertex} is the smallest of all odd parts")
            }
            Refusal::TorusSide(side) => write!(to, "side {side} is outside 1 to 32"),
            Refusal::TextLength => write!(to, "the text has more than 65,536 bytes"),
            Refusal::MalformedLine(line) => write!(to, "line {line} is malformed"),
            Refusal::TextBuffer => write!(to, "the buffer is shorter than the text"),
            Refusal::RoundCount => {
                write!(to, "the round count is 0 or makes more than 1,024 vertices")
            }
            Refusal::OpenByte(vertex) => write!(to, "vertex {vertex} has an open byte above 1"),
            Refusal::LitOpen(vertex) => write!(to, "vertex {vertex} is open and lit"),
            Refusal::PlanarSide(side) => {
                write!(to, "side {side} of a planar board is outside 2 to 31")
            }
            Refusal::PastLast(word) => write!(to, "word {word} has a bit past the last item"),
            Refusal::GameEdges => write!(to, "the board of a game has more than 10 edges"),
            Refusal::PositionByte(edge) => write!(to, "edge {edge} has a position byte above 2"),
            Refusal::MoveCount => {
                write!(to, "Winder has neither as many edges as Blocker nor one more")
            }
            Refusal::TrapEdges => write!(to, "the board of a trap has more than 16 edges"),
        }
    }
}

impl Error for Refusal {}

#[cfg(test)]
mod tests {
    use super::Refusal;

    /// Each number with its smallest and its largest place.
    const PLACES: [(u8, u64, u64); 22] = [
        (1, 0, 0),
        (2, 0, 0),
        (3, 0, 0),
        (4, 0, 4095),
        (6, 0, 4095),
        (7, 0, 1023),
        (8, 0, 4095),
        (9, 0, 4095),
        (10, 0, 1023),
        (11, 0, u32::MAX as u64),
        (12, 0, 0),
        (13, 1, 65_537),
        (14, 0, 0),
        (15, 0, 0),
        (16, 0, 1023),
        (17, 0, 1023),
        (18, 0, u32::MAX as u64),
        (19, 0, 63),
        (20, 0, 0),
        (21, 0, 9),
        (22, 0, 0),
        (23, 0, 0),
    ];

    #[test]
    fn number_and_place_come_back() {
        for (number, smallest, largest) in PLACES {
            for place in [smallest, largest] {
                let refusal = Refusal::new(number, place);
                let given = refusal.map(|refusal| (refusal.number(), refusal.place()));
                assert_eq!(given, Some((number, place)));
            }
            assert_eq!(Refusal::new(number, largest + 1), None, "{number}");
            if smallest > 0 {
                assert_eq!(Refusal::new(number, smallest - 1), None, "{number}");
            }
        }
    }

    #[test]
    fn other_numbers_are_no_refusal() {
        for number in (24..=u8::MAX).chain([0, 5]) {
            for place in [0, 1, 4095] {
                assert_eq!(Refusal::new(number, place), None, "{number}");
            }
        }
    }
}
