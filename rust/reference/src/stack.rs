//! Document 02, K1, "Repeated measurement rounds": a torus that is read several times with faulty
//! readings, as one board.

use crate::board::{Board, Sheet, together};
use crate::refusal::{self, Refusal};
use crate::torus::torus;

/// The stack of these readings, with nothing lost, or a refusal; the buffers lent for ends, marks and
/// syndrome have these lengths.
pub fn stack_into(
    side: u32,
    rounds: u32,
    readings: &[u8],
    lengths: (usize, usize, usize),
) -> Result<Sheet, Refusal> {
    refusal::stack(side, rounds, readings, lengths)?;
    let (side, rounds) = (side as usize, rounds as usize);
    let board = stack(side, rounds);
    let loss = vec![0; board.edges()];
    Ok(Sheet { board, syndrome: syndrome(side, readings), loss })
}

/// The stacked board of a side and of rounds in range: a torus for each round, and after the edges of
/// all of them those that join each vertex to itself in the next layer.
pub fn stack(side: usize, rounds: usize) -> Board {
    let layer = torus(side);
    let in_layer = |round: usize, vertex: usize| (round * layer.vertices + vertex) as u16;
    let mut edges = Vec::new();
    for round in 0..rounds {
        for (edge, &mark) in layer.marks.iter().enumerate() {
            let [a, b] = layer.ends_of(edge);
            edges.push((in_layer(round, a), in_layer(round, b), mark));
        }
    }
    for round in 0..rounds - 1 {
        for vertex in 0..layer.vertices {
            edges.push((in_layer(round, vertex), in_layer(round + 1, vertex), 0));
        }
    }
    Board::new(rounds * layer.vertices, &edges)
}

/// The stack's syndrome: a layer's reading, exclusive or the previous one; layer 0 keeps its own.
pub fn syndrome(side: usize, readings: &[u8]) -> Vec<u8> {
    let readings: Vec<&[u8]> = readings.chunks(side * side).collect();
    let mut layers = vec![readings[0].to_vec()];
    layers.extend(readings.windows(2).map(|pair| together(pair[0], pair[1])));
    layers.concat()
}

/// What happens to a torus of a side, from round to round.
#[derive(Clone, Debug, PartialEq, Eq)]
pub struct History {
    pub side: usize,
    /// The edges that flip before each reading, from the reading before on.
    pub flips: Vec<Vec<u8>>,
    /// The vertices that each reading has wrong, of all readings but the last, which has none.
    pub wrong: Vec<Vec<u8>>,
}

impl History {
    /// How often the torus is read.
    pub fn rounds(&self) -> usize {
        self.flips.len()
    }

    /// What is read, round after round: the torus's syndrome of all flips so far, changed at the wrong
    /// readings.
    pub fn readings(&self) -> Vec<u8> {
        let torus = torus(self.side);
        let none_wrong = vec![0; torus.vertices];
        let mut so_far = vec![0; torus.edges()];
        let mut readings = Vec::new();
        for (round, flips) in self.flips.iter().enumerate() {
            so_far = together(&so_far, flips);
            let wrong = self.wrong.get(round).unwrap_or(&none_wrong);
            readings.extend(together(&torus.syndrome(&so_far), wrong));
        }
        readings
    }

    /// The stacked edges that it stands for: each flip in its round's layer, and each wrong reading the
    /// edge from its layer to the next. These are numbered layer by layer, after all edges in layers.
    pub fn events(&self) -> Vec<u8> {
        [self.flips.concat(), self.wrong.concat()].concat()
    }

    /// The history whose events are this set of stacked edges.
    pub fn of_events(side: usize, rounds: usize, set: &[u8]) -> History {
        let (vertices, edges) = (side * side, 2 * side * side);
        let (inside_layers, between_layers) = set.split_at(rounds * edges);
        let by_round = |set: &[u8], count: usize| set.chunks(count).map(<[u8]>::to_vec).collect();
        History {
            side,
            flips: by_round(inside_layers, edges),
            wrong: by_round(between_layers, vertices),
        }
    }
}
