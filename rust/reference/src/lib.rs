//! A plain decoder, written from document 01's steps and sharing nothing with the proved one.
//!
//! Nothing here is clever or fast: each section of document 01 is one module, in its words, and so are
//! growing in rounds ([`rounds`]), open sides ([`open_sides`], [`planar`]), repeated readings
//! ([`stack`]), faces as evidence ([`faces`]), packed sheets ([`packed`]), the game of Winder and
//! Blocker ([`game`]) and traps ([`trap`]), which document 02 adds. Beside them stand a second way to
//! find the number of a malformed line ([`line_numbers`]), a seeded generator of random numbers, and
//! the boards that decoders are tried on.
//!
//! A set of vertices or edges is a slice with a byte for each, 0 or 1, as the calls are lent it.

pub mod board;
pub mod components;
pub mod damage;
pub mod decoding;
pub mod distance;
pub mod faces;
pub mod game;
pub mod generators;
pub mod growth;
pub mod line_numbers;
pub mod open_sides;
pub mod packed;
pub mod peeling;
pub mod planar;
pub mod program;
pub mod random;
pub mod refusal;
pub mod rounds;
pub mod stack;
pub mod text;
pub mod torus;
pub mod trap;
pub mod verdict;

pub use board::{Board, Sheet};
pub use decoding::{Key, decode};
pub use packed::PackedSheet;
pub use random::Random;
pub use refusal::Refusal;
pub use rounds::{RoundsKey, decode_rounds};
