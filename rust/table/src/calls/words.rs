//! What the calls of packed sheets may answer for the counts that they are lent.

use crate::board::WORD;
use crate::{EDGES, Refusal, VERTICES};

/// Number 1 or 2 where no board has so many vertices or edges: a call of packed sheets refuses by it
/// exactly then.
pub(super) fn counted(vertices: usize, edges: usize) -> Result<(), Refusal> {
    if !(1..=VERTICES).contains(&vertices) {
        return Err(Refusal::VertexCount);
    }
    if edges > EDGES {
        return Err(Refusal::EndCount);
    }
    Ok(())
}

/// Whether this word of so many items can have a bit past the last of them: it is their last word, and
/// they don't fill it.
pub(super) fn has_rest(word: usize, items: usize) -> bool {
    word == items / WORD && !items.is_multiple_of(WORD)
}

#[cfg(test)]
mod tests {
    use super::{counted, has_rest};
    use crate::Refusal;

    #[test]
    fn counts_at_their_limits() {
        for (vertices, edges) in [(1, 0), (1024, 4096)] {
            assert_eq!(counted(vertices, edges), Ok(()));
        }
        for vertices in [0, 1025, usize::MAX] {
            assert_eq!(counted(vertices, usize::MAX), Err(Refusal::VertexCount));
        }
        for edges in [4097, usize::MAX] {
            assert_eq!(counted(1, edges), Err(Refusal::EndCount));
        }
    }

    #[test]
    fn last_words() {
        let words = |items: usize| (0..70).filter(move |&word| has_rest(word, items));
        for items in [0, 64, 128, 1024, 4096] {
            assert_eq!(words(items).next(), None, "{items}");
        }
        for (items, last) in
            [(1, 0), (63, 0), (65, 1), (127, 1), (1023, 15), (4033, 63), (4095, 63)]
        {
            assert!(words(items).eq([last]), "{items}");
        }
    }
}
