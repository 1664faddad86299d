//! The statement of demand 3, over all syndromes and all sets of edges of one board.

use reference::board::{Board, Sheet};
use reference::{Key, Refusal};

use crate::sets::{Broken, Part, Sets, Violation, bits, hold_each};

/// What was gone through, and how often each part of the statement had something to say.
#[derive(Clone, Copy, Debug, Default, PartialEq, Eq)]
pub struct Tally {
    /// Boards, each with its lost edges.
    pub boards: usize,
    /// Syndromes, all of each board.
    pub syndromes: usize,
    /// Syndromes that no set has.
    pub unmet: usize,
    /// Sets of edges, all of each board.
    pub sets: usize,
    /// Sets whose growths are exactly 2s, s not being 0.
    pub growths_reached: usize,
    /// Sets with s above 0 on a board where some loop winds and every such loop has more than
    /// t + 2s edges.
    pub covered: usize,
    /// Of the covered sets, those with a loop edge that is lost: it counts in t.
    pub covered_lost_loop: usize,
    /// Of the covered sets, those with a loop edge that is not lost: it counts in s.
    pub covered_kept_loop: usize,
    /// Sets that wind with the correction though every winding loop has more than t + 2s - 1 edges.
    pub one_short: usize,
    /// Of these, sets on a board that has lost nothing: t is 0.
    pub one_short_unlost: usize,
    /// Of the sets that are one short, those with a loop edge.
    pub one_short_loop: usize,
    /// Of the covered sets, those that end at an open vertex.
    pub covered_open: usize,
    /// Of these, sets with which the correction is closed over open vertices alone: the two end at
    /// different ones.
    pub covered_over_open: usize,
    /// Of the sets that are one short, those that are closed with the correction over open vertices
    /// alone.
    pub one_short_open: usize,
}

impl Tally {
    /// Whether each part of the statement had something to say, of sets with loop edges too, and its
    /// bound was seen to be tight.
    pub fn has_seen_all(&self) -> bool {
        let seen = [self.unmet, self.growths_reached, self.covered, self.one_short_unlost];
        let loops = [self.covered_lost_loop, self.covered_kept_loop, self.one_short_loop];
        seen.iter().chain(&loops).all(|&count| count > 0)
    }

    /// Whether it also had something to say of sets that run off the board, and of loops from one open
    /// vertex to another.
    pub fn has_seen_open(&self) -> bool {
        let open = [self.covered_open, self.covered_over_open, self.one_short_open];
        self.has_seen_all() && open.iter().all(|&count| count > 0)
    }
}

/// Holds demand 3 against a decoder on a board with these lost edges.
pub fn hold(
    board: &Board,
    loss: &[u8],
    decoder: impl Fn(&Sheet) -> Result<Key, Refusal>,
    tally: &mut Tally,
) -> Result<(), Box<Violation<Key>>> {
    tally.boards += 1;
    hold_each(board, loss, decoder, |all, syndrome, answer| {
        let found = answer.as_ref().map(|key| (key.growths, bits(&key.correction)));
        let found = found.map_err(|&refusal| refusal);
        let having = all.having(syndrome, found.map(|(_, correction)| correction))?;
        tally.syndromes += 1;
        tally.unmet += usize::from(having.is_empty());
        tally.sets += having.len();
        let Ok((growths, correction)) = found else { return Ok(()) };
        having.iter().try_for_each(|&set| hold_set(all, growths, correction, set, tally))
    })
}

/// The two bounds, for one set that has the syndrome.
fn hold_set(
    all: &Sets,
    growths: usize,
    correction: u32,
    set: u32,
    tally: &mut Tally,
) -> Result<(), Broken> {
    let (s, reach) = (all.kept(set), all.reach(set));
    let winds = all.winds(set, correction);
    if growths > 2 * s {
        return Err((Part::TooManyGrowths, Some(set)));
    }
    if all.loops_above(reach) && winds {
        return Err((Part::Winds, Some(set)));
    }
    let covered = s > 0 && all.distance.is_some() && all.loops_above(reach);
    let one_short = winds && reach > 0 && all.loops_above(reach - 1);
    let loops = set & all.loops;
    let over_open = all.ends_open(set ^ correction);
    tally.growths_reached += usize::from(s > 0 && growths == 2 * s);
    tally.covered += usize::from(covered);
    tally.covered_lost_loop += usize::from(covered && loops & all.lost != 0);
    tally.covered_kept_loop += usize::from(covered && loops & !all.lost != 0);
    tally.one_short += usize::from(one_short);
    tally.one_short_unlost += usize::from(one_short && all.lost == 0);
    tally.one_short_loop += usize::from(one_short && loops != 0);
    tally.covered_open += usize::from(covered && all.ends_open(set));
    tally.covered_over_open += usize::from(covered && over_open);
    tally.one_short_open += usize::from(one_short && over_open);
    Ok(())
}
