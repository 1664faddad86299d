//! Demand 3, held against a decoder by going through every set of edges of a small board.
//!
//! For each syndrome of the board: the decoder answers 10 exactly when no set of edges has it.
//! Otherwise its correction has it, and for every set E that has it, of which s edges are not lost,
//! and t lost edges in all: growths are at most 2s, and where every winding loop has more than
//! t + 2s edges, E and the correction together do not wind.
//!
//! What growing in rounds promises of every set E is held against it in the same way ([`rounds`]).
//!
//! Boards may have open vertices; syndromes and loops are then meant as document 02, K5, widens them.

pub mod boards;
pub mod exhaustive;
pub mod rounds;
pub mod sets;
pub mod wrong;

pub use boards::{boards, every_board, every_open_board, open_boards};
pub use exhaustive::{Tally, hold};
pub use rounds::{RoundsTally, hold_rounds};
pub use sets::{Part, Violation};
