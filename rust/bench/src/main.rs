//! Prints the library's times beside those of programs with the same steps that keep no boundary
//! sizes: one plain, one tuned with care, and one that counts from the other side; its times of
//! decoding in rounds; and what a growth, each of the other calls, a packed sheet, a game and a trap
//! costs.
//!
//! All are built for release and run on one machine, on the same seeded sheets and into the same
//! buffers, which are not cleared in between. Keys are compared on all sheets before a time is taken.
//! Each time is the best of five.

mod boards;
mod calls;
mod decoders;
mod game;
mod growths;
mod machine;
mod packed;
mod timing;
mod tori;
mod trap;

use decoders::Decoders;

fn main() {
    println!("machine: {}", machine::kind());
    let mut decoders = Decoders::default();
    tori::table(&mut decoders);
    println!();
    boards::table(&mut decoders);
    println!();
    growths::table(&mut decoders);
    println!();
    calls::table();
    println!();
    packed::table();
    println!();
    game::table();
    println!();
    trap::table();
}
