//! The proved library, held against what document 01 says, on inputs that nobody drew.
//!
//! Each function of [`agrees`] makes one call of the library on guarded buffers and compares all of
//! it with the plain decoder: the answer, what every lent buffer then holds, and the guards.
//! Those of [`packed`] do so for packed sheets, those of [`game`] for the game, and those of [`trap`] for
//! traps. [`library`] makes the calls that are held against something else than the plain decoder,
//! [`few_edges`] has boards for the game and for traps, [`loops`] draws sets that are closed, [`faces`]
//! holds the verdict with faces to the verdict, and [`refused`] asks several calls for one refusal.

pub mod agrees;
pub mod faces;
pub mod few_edges;
pub mod game;
pub mod guarded;
mod lent;
pub mod library;
pub mod loops;
pub mod packed;
pub mod refused;
pub mod trap;
