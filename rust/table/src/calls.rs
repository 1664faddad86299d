//! The calls, one file each: a function of the static library on slices, and what its number says.

mod decode;
mod decode_packed;
mod decode_rounds;
mod distance;
mod faces;
mod game;
mod list_lit;
mod lit_total;
mod pack;
mod planar;
mod read;
mod stack;
mod torus;
mod trap;
mod unpack;
mod verdict;
mod words;
mod write;

pub use decode::{Key, decode};
pub use decode_packed::decode_packed;
pub use decode_rounds::{RoundsKey, decode_rounds};
pub use distance::distance;
pub use faces::faces;
pub use game::{Game, Player, game};
pub use list_lit::list_lit;
pub use lit_total::lit_total;
pub use pack::{WordCounts, pack};
pub use planar::planar;
pub use read::{Counts, read};
pub use stack::stack;
pub use torus::torus;
pub use trap::trap;
pub use unpack::unpack;
pub use verdict::{Verdict, verdict};
pub use write::write;
