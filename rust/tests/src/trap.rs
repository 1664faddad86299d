//! Traps: one call, compared with the plain one in all that can be seen of it, and held to the library's
//! own verdict; and the boards and losses to set them on.

use reference::Random;
use reference::board::{Board, size};
use reference::generators::{cycle, opened};
use reference::trap::{is_trap, trap_into};
use table::Refusal;

use crate::agrees::is_refusal;
use crate::few_edges::drawn_board;
use crate::guarded::Guarded;
use crate::lent::{BYTE_GUARD, LentBoard, noise};
use crate::library::is_wound;

/// The trap that is written into a buffer of this length, or none. Which of the smallest it is, is left
/// open.
pub fn trap_with(board: &Board, loss: &[u8], set: usize) -> Result<Option<Vec<u8>>, Refusal> {
    let mut lent = LentBoard::new(board);
    let mut loss_bytes = Guarded::new(loss, BYTE_GUARD);
    let before = noise(set);
    let mut set_bytes = Guarded::new(&before, BYTE_GUARD);
    let answer = table::trap(lent.lent(), loss_bytes.lent(), set_bytes.lent());
    lent.returned();
    loss_bytes.returned_unchanged(loss);
    let after = set_bytes.returned();
    let case = || format!("lost {loss:?} on {board:?}");
    match (answer, trap_into(board, loss, set)) {
        (Ok(Some(fewest)), Ok(Some(plain))) => {
            assert_eq!(fewest, plain, "{}", case());
            assert!(after.iter().all(|&byte| byte <= 1), "{after:?}: {}", case());
            assert_eq!(size(&after), fewest, "{after:?}: {}", case());
            assert!(is_trap(board, loss, &after), "{after:?}: {}", case());
            assert!(is_wound(board, loss, &after), "another verdict on {after:?}: {}", case());
            Ok(Some(after))
        }
        (Ok(None), Ok(None)) => {
            assert_eq!(after, vec![0; set], "{}", case());
            Ok(None)
        }
        (Err(refusal), Err(plain)) => {
            assert!(is_refusal(refusal, plain), "{refusal:?}, not {plain:?}: {}", case());
            assert_eq!(after, before, "a refusal wrote: {}", case());
            Err(refusal)
        }
        (answer, plain) => panic!("{answer:?}, not {plain:?}: {}", case()),
    }
}

/// The trap that is written into a buffer of the right length, or none.
pub fn trap(board: &Board, loss: &[u8]) -> Result<Option<Vec<u8>>, Refusal> {
    trap_with(board, loss, board.edges())
}

/// A board of so many edges, three at least, and lost ones among them: none, some, half or all. Most
/// boards are cycles with chords, of which few edges have marks, so that their traps are large.
pub fn drawn(random: &mut Random, edges: usize) -> (Board, Vec<u8>) {
    let board = if random.chance(400) {
        drawn_board(random, edges)
    } else {
        let around = random.from_to(edges.div_ceil(2).max(3), edges);
        let cycle = cycle(random, around, edges - around);
        if random.chance(250) { opened(random, cycle) } else { cycle }
    };
    let rate = [0, 0, 150, 500, 1000][random.below(5)];
    (board, random.set(edges, rate))
}
