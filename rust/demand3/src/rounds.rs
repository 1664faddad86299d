//! What growing in rounds promises, over all syndromes and all sets of edges of one board.
//!
//! It promises less than demand 3 does: 10 exactly when no set has the syndrome; otherwise the
//! correction has it and lies inside the full edges, and rounds are at most 2s. Nothing is promised
//! of winding.
//!
//! Two things are counted that nobody promises, and neither is ever seen on a board without open
//! vertices: rounds above s, and a set that winds with the correction though every winding loop has
//! more than t + 2s edges. Why is told in docs/PROOF.md, "Growing in rounds". With open vertices rounds
//! go up to 2s, as one odd cluster may be alone, and gives an edge of the set one half-edge in a round;
//! the other is not seen there either.

use reference::board::{Board, Sheet};
use reference::{Refusal, RoundsKey};

use crate::sets::{Broken, Part, Sets, Violation, bits, hold_each};

/// What was gone through, and how often each part of the statement had something to say.
#[derive(Clone, Copy, Debug, Default, PartialEq, Eq)]
pub struct RoundsTally {
    /// Boards, each with its lost edges.
    pub boards: usize,
    /// Syndromes, all of each board.
    pub syndromes: usize,
    /// Syndromes that no set has.
    pub unmet: usize,
    /// Sets of edges, all of each board.
    pub sets: usize,
    /// Sets whose rounds are exactly s, s not being 0.
    pub s_reached: usize,
    /// Of these, sets with a loop edge that is lost.
    pub s_reached_lost_loop: usize,
    /// Sets whose rounds are above s: not ruled out by the promise, but none is where no vertex is
    /// open.
    pub above_s: usize,
    /// Sets whose rounds are exactly 2s, s not being 0.
    pub twice_s: usize,
    /// Sets with s above 0 on a board where some loop winds and every such loop has more than
    /// t + 2s edges.
    pub covered: usize,
    /// Of the covered sets, those that wind with the correction: not ruled out, but none does.
    pub covered_wound: usize,
    /// Sets that wind with the correction though every winding loop has more than t + 2s - 1 edges.
    pub one_short: usize,
    /// Of the covered sets, those that end at an open vertex.
    pub covered_open: usize,
}

impl RoundsTally {
    /// Whether each part of the statement had something to say, of sets with loop edges too.
    pub fn has_seen_all(&self) -> bool {
        let seen = [self.unmet, self.s_reached, self.s_reached_lost_loop];
        seen.iter().chain([&self.covered, &self.one_short]).all(|&count| count > 0)
    }

    /// Whether it also had something to say of sets that run off the board, and its bound was seen to
    /// be tight.
    pub fn has_seen_open(&self) -> bool {
        self.has_seen_all() && self.covered_open > 0 && self.twice_s > 0
    }
}

/// Holds the promise against a decoder in rounds on a board with these lost edges.
pub fn hold_rounds(
    board: &Board,
    loss: &[u8],
    decoder: impl Fn(&Sheet) -> Result<RoundsKey, Refusal>,
    tally: &mut RoundsTally,
) -> Result<(), Box<Violation<RoundsKey>>> {
    tally.boards += 1;
    hold_each(board, loss, decoder, |all, syndrome, answer| {
        let correction = answer.as_ref().map(|key| bits(&key.correction));
        let having = all.having(syndrome, correction.map_err(|&refusal| refusal))?;
        tally.syndromes += 1;
        tally.unmet += usize::from(having.is_empty());
        tally.sets += having.len();
        let Ok(key) = answer else { return Ok(()) };
        if !is_full(key) {
            return Err((Part::NotFull, None));
        }
        having.iter().try_for_each(|&set| hold_set(all, key, set, tally))
    })
}

/// Whether every edge of the correction has both half-edges.
fn is_full(key: &RoundsKey) -> bool {
    key.correction
        .iter()
        .zip(&key.support)
        .all(|(&corrected, &support)| corrected == 0 || support == 2)
}

/// The bound, for one set that has the syndrome.
fn hold_set(all: &Sets, key: &RoundsKey, set: u32, tally: &mut RoundsTally) -> Result<(), Broken> {
    let (s, reach) = (all.kept(set), all.reach(set));
    if key.rounds > 2 * s {
        return Err((Part::TooManyRounds, Some(set)));
    }
    let winds = all.winds(set, bits(&key.correction));
    let s_reached = s > 0 && key.rounds == s;
    let covered = s > 0 && all.distance.is_some() && all.loops_above(reach);
    tally.s_reached += usize::from(s_reached);
    tally.s_reached_lost_loop += usize::from(s_reached && set & all.loops & all.lost != 0);
    tally.above_s += usize::from(key.rounds > s);
    tally.twice_s += usize::from(s > 0 && key.rounds == 2 * s);
    tally.covered += usize::from(covered);
    tally.covered_wound += usize::from(covered && winds);
    tally.covered_open += usize::from(covered && all.ends_open(set));
    tally.one_short += usize::from(winds && reach > 0 && all.loops_above(reach - 1));
    Ok(())
}
