//! Decoding of one error kind on a graph with lost edges, by a proved Union-Find decoder.
//!
//! The calls are those of the static library that `rt lib` writes in `crates/table` from the proved
//! Rattle code; `docs/RULES.md` tells what they answer. The library tests everything that it is
//! lent, lengths included, and refuses what breaks a rule: each call answers with a [`Result`], and
//! one that gives a [`Refusal`] has written nothing. Here the borrow checker adds the one thing that
//! the library can't test: a buffer that is written overlaps no other.
//!
//! A call keeps nothing between calls, allocates nothing, and may be made on any number of threads
//! at once. It runs on the caller's stack, of which `include/surface_table.h` says how much it
//! needs. A number that the proved library never returns from a call (a refusal of another call, a
//! value or a place out of its range) is a panic: another library was linked.
//!
//! The ring with vertices 0 and 3 in the syndrome:
//!
//! ```
//! use table::{Board, Key, Sheet, decode};
//!
//! # fn main() -> Result<(), table::Refusal> {
//! let ends = &[0, 1, 1, 2, 2, 3, 3, 0];
//! let board = Board { vertices: 4, ends, marks: &[0, 0, 0, 1], open: &[0; 4] };
//! let sheet = Sheet { board, syndrome: &[1, 0, 0, 1], loss: &[0; 4] };
//! let (mut support, mut correction) = ([0; 4], [0; 4]);
//! let key = decode(sheet, &mut support, &mut correction)?;
//! assert_eq!(key, Key { growths: 2, edges: 1 });
//! assert_eq!(support, [2, 0, 0, 2]);
//! assert_eq!(correction, [0, 0, 0, 1]);
//! # Ok(())
//! # }
//! ```

#![no_std]

mod board;
mod calls;
mod exported;
mod refusal;
mod returned;

pub use board::{Board, PackedSheet, Sheet};
pub use board::{EDGES, GAME_EDGES, LOSS_WORDS, SYNDROME_WORDS, TEXT, TRAP_EDGES, VERTICES};
pub use calls::{Counts, Game, Key, Player, RoundsKey, Verdict, WordCounts};
pub use calls::{decode, decode_packed, decode_rounds, distance, faces, game, trap, verdict};
pub use calls::{list_lit, lit_total, pack, planar, read, stack, torus, unpack, write};
pub use refusal::Refusal;
