//! Document 02, K3: edges whose two ends are one vertex, in every call.

use demand3::{Tally, hold};
use reference::board::{Board, Sheet, members, together};
use reference::generators::{Kind, crowd_with_loops, cycle, sheet};
use reference::torus::torus;
use reference::{Key, Random, RoundsKey, text};
use table::{Refusal, Verdict};
use table_tests::{agrees, library};

/// An edge by its two ends and its mark.
type Edge = (u16, u16, u8);

/// The loop edges of a board.
fn loops(board: &Board) -> impl Iterator<Item = usize> + '_ {
    (0..board.edges()).filter(|&edge| board.is_loop(edge))
}

/// 1 where an edge has a mark, else 0.
fn is_marked(board: &Board, edge: usize) -> usize {
    usize::from(board.marks[edge] != 0)
}

/// How many loop edges of decoded sheets were seen in each state, unmarked ones and marked ones.
#[derive(Debug, Default)]
struct States {
    lost: [usize; 2],
    /// Not lost, and full at the end of growth.
    grown: [usize; 2],
    /// Without a half-edge at the end of growth.
    empty: [usize; 2],
}

impl States {
    /// A loop edge is full or has no half-edge, and is not in the correction.
    fn count(&mut self, sheet: &Sheet, support: &[u8], correction: &[u8]) {
        for edge in loops(&sheet.board) {
            let state = match (sheet.loss[edge], support[edge]) {
                (1, 2) => &mut self.lost,
                (0, 2) => &mut self.grown,
                (0, 0) => &mut self.empty,
                (_, support) => panic!("loop edge {edge} has support {support}: {sheet:?}"),
            };
            state[is_marked(&sheet.board, edge)] += 1;
            assert_eq!(correction[edge], 0, "loop edge {edge}: {sheet:?}");
        }
    }

    /// Whether each was seen often.
    fn seen(&self) -> bool {
        [self.lost, self.grown, self.empty].as_flattened().iter().all(|&count| count > 500)
    }
}

/// How often each answer was given.
#[derive(Debug, Default)]
struct Answers {
    no_correction: usize,
    /// Of sets that differ from the correction by loop edges alone.
    same: usize,
    wound: usize,
    /// Of any sets with a loop edge.
    off: usize,
    distance_1: usize,
    longer: usize,
    no_distance: usize,
}

/// Verdicts on the correction with some loop edges, which are closed, and on any set at all.
fn judge(random: &mut Random, sheet: &Sheet, correction: &[u8], answers: &mut Answers) {
    let board = &sheet.board;
    let some = random.set(board.edges(), 400);
    let closed: Vec<u8> =
        (0..board.edges()).map(|edge| some[edge] & u8::from(board.is_loop(edge))).collect();
    let expected = match board.crossings(&closed) {
        0 => Verdict::Same,
        marks => Verdict::Wound(marks),
    };
    assert_eq!(agrees::verdict(sheet, &together(correction, &closed)), Ok(expected), "{sheet:?}");
    if closed.contains(&1) {
        *(if expected == Verdict::Same { &mut answers.same } else { &mut answers.wound }) += 1;
    }
    let off = matches!(agrees::verdict(sheet, &some), Ok(Verdict::Off(_)));
    answers.off += usize::from(off && closed.contains(&1));
}

/// The distance is 1 exactly where a loop edge has a mark: no other single edge is closed.
fn measure(board: &Board, answers: &mut Answers) {
    let found = agrees::distance(board).expect("a board that keeps the rules");
    let marked = loops(board).any(|edge| is_marked(board, edge) == 1);
    assert_eq!(found == Some(1), marked, "{board:?}");
    match found {
        Some(1) => answers.distance_1 += 1,
        Some(_) => answers.longer += 1,
        None => answers.no_distance += 1,
    }
}

#[test]
fn every_call_with_many_loop_edges() {
    let mut random = Random::new(121);
    let (mut states, mut in_rounds) = (States::default(), States::default());
    let mut answers = Answers::default();
    for round in 0..12_000 {
        let board = match round % 40 {
            0 => crowd_with_loops(&mut random, 50, 300),
            _ => Kind::Loops.board(&mut random),
        };
        let sheet = sheet(&mut random, board);
        match (agrees::decode(&sheet), agrees::decode_rounds(&sheet)) {
            (Ok(key), Ok(rounds)) => {
                states.count(&sheet, &key.support, &key.correction);
                in_rounds.count(&sheet, &rounds.support, &rounds.correction);
                judge(&mut random, &sheet, &key.correction, &mut answers);
            }
            (decoded, rounds) => {
                let refusal = decoded.expect_err("a refusal");
                answers.no_correction += 1;
                assert_eq!(rounds, Err(refusal));
                assert_eq!(agrees::verdict(&sheet, &sheet.loss), Err(refusal));
            }
        }
        measure(&sheet.board, &mut answers);
        let text = agrees::write(&sheet).expect("a short text");
        assert_eq!(agrees::read(&text).as_ref(), Ok(&sheet));
    }
    println!("{states:?}, in rounds {in_rounds:?}, {answers:?}");
    assert!(states.seen() && in_rounds.seen(), "{states:?}, in rounds {in_rounds:?}");
    let Answers { no_correction, same, wound, off, distance_1, longer, no_distance } = answers;
    let all = [no_correction, same, wound, off, distance_1, longer, no_distance];
    assert!(all.iter().all(|&count| count > 500), "{answers:?}");
}

/// Small boards with a loop edge, and the torus of side 1, whatever is lost.
#[test]
fn demand3_on_every_set() {
    let mut random = Random::new(122);
    let mut boards: Vec<_> = SETS.iter().map(|loss| (torus(1), loss.to_vec())).collect();
    while boards.len() < 2000 {
        let board = match random.below(2) {
            0 => Kind::Loops.board(&mut random),
            _ => {
                let (vertices, chords) = (random.from_to(4, 7), random.from_to(1, 3));
                cycle(&mut random, vertices, chords)
            }
        };
        if loops(&board).next().is_some() && board.edges() <= 10 {
            let rate = [0, 0, 100, 300, 1000][random.below(5)];
            let loss = random.set(board.edges(), rate);
            boards.push((board, loss));
        }
    }
    let mut tally = Tally::default();
    for (board, loss) in &boards {
        if let Err(violation) = hold(board, loss, library::decode, &mut tally) {
            panic!("{violation:?}");
        }
    }
    println!("{tally:?}");
    assert!(tally.has_seen_all(), "{tally:?}");
}

/// The sets of two edges.
const SETS: [[u8; 2]; 4] = [[0, 0], [1, 0], [0, 1], [1, 1]];

/// Every syndrome, loss and handed-in set. No set has a syndrome, and edge 0 crosses A, edge 1 B.
#[test]
fn torus_of_side_1() {
    let board = Board::new(1, &[(0, 0, 1), (0, 0, 2)]);
    assert_eq!(agrees::torus_with(1, 4, 2).as_ref(), Ok(&board));
    assert_eq!(agrees::distance(&board), Ok(Some(1)));
    for loss in SETS {
        let dark = Sheet { board: board.clone(), syndrome: vec![0], loss: loss.to_vec() };
        let support = loss.map(|lost| 2 * lost).to_vec();
        let rounds = RoundsKey { rounds: 0, support: support.clone(), correction: vec![0, 0] };
        assert_eq!(agrees::decode_rounds(&dark), Ok(rounds));
        let key = Key { growths: 0, support, correction: vec![0, 0] };
        assert_eq!(agrees::decode(&dark), Ok(key));
        let lit = Sheet { syndrome: vec![1], ..dark.clone() };
        assert_eq!(agrees::decode(&lit), Err(Refusal::NoCorrection(0)));
        assert_eq!(agrees::decode_rounds(&lit), Err(Refusal::NoCorrection(0)));
        let verdicts = [Verdict::Same, Verdict::Wound(1), Verdict::Wound(2), Verdict::Wound(3)];
        for (handed, verdict) in SETS.iter().zip(verdicts) {
            assert_eq!(agrees::verdict(&dark, handed), Ok(verdict), "{handed:?}");
            assert_eq!(agrees::verdict(&lit, handed), Err(Refusal::NoCorrection(0)));
        }
        let lines: String = members(&loss).map(|edge| format!("X\t{edge}\n")).collect();
        for (sheet, lit) in [(dark, ""), (lit, "S\t0\n")] {
            let text = format!("V\t1\nE\t0\t0\t1\nE\t0\t0\t2\n{lit}{lines}").into_bytes();
            assert_eq!(agrees::write(&sheet).as_ref(), Ok(&text));
            assert_eq!(agrees::read(&text), Ok(sheet));
        }
    }
}

#[test]
fn sides_and_lengths_around_side_1() {
    for side in [0, 33] {
        let edges = 2 * (side * side) as usize;
        for (ends, marks) in [(0, 0), (4, 2), (16, 8), (2 * edges, edges)] {
            assert_eq!(agrees::torus_with(side, ends, marks), Err(Refusal::TorusSide(side)));
        }
    }
    for ends in 0..=16 {
        for marks in 0..=8 {
            let built = agrees::torus_with(1, ends, marks);
            let right = (ends, marks) == (4, 2);
            assert_eq!(built, if right { Ok(torus(1)) } else { Err(Refusal::BufferLength) });
        }
    }
}

/// Every syndrome, loss and handed-in set of a board on which nothing is joined.
#[test]
fn only_loop_edges() {
    let board = Board::new(4, &[(0, 0, 0), (2, 2, 1), (2, 2, 0)]);
    assert_eq!(agrees::distance(&board), Ok(Some(1)));
    assert_eq!(agrees::distance(&Board { marks: vec![0; 3], ..board.clone() }), Ok(None));
    let sets = |count: usize| {
        (0..1 << count).map(move |bits| (0..count).map(|i| (bits >> i & 1) as u8).collect())
    };
    for loss in sets(3) {
        let loss: Vec<u8> = loss;
        let support: Vec<u8> = loss.iter().map(|lost| 2 * lost).collect();
        let rounds = RoundsKey { rounds: 0, support: support.clone(), correction: vec![0; 3] };
        let key = Key { growths: 0, support, correction: vec![0; 3] };
        for syndrome in sets(4) {
            let sheet = Sheet { board: board.clone(), syndrome, loss: loss.clone() };
            let odd = members(&sheet.syndrome).next().map(Refusal::NoCorrection);
            let decoded = odd.map_or(Ok(key.clone()), Err);
            assert_eq!(agrees::decode(&sheet), decoded, "{sheet:?}");
            assert_eq!(agrees::decode_rounds(&sheet), odd.map_or(Ok(rounds.clone()), Err));
            for handed in sets(3) {
                let handed: Vec<u8> = handed;
                let closed = if handed[1] == 1 { Verdict::Wound(1) } else { Verdict::Same };
                assert_eq!(agrees::verdict(&sheet, &handed), odd.map_or(Ok(closed), Err));
            }
        }
    }
}

/// The growths, the supports and the correction of a sheet.
fn key(edges: &[Edge], lit: &[usize], lost: &[usize]) -> (usize, Vec<u8>, Vec<u8>) {
    let vertices = edges.iter().map(|&(a, b, _)| a.max(b)).max().expect("an edge") + 1;
    let sheet = Sheet::new(Board::new(vertices.into(), edges), lit, lost);
    let Key { growths, support, correction } = agrees::decode(&sheet).expect("a correction");
    (growths, support, correction)
}

#[test]
fn keys_by_hand() {
    // {0} grows twice, which fills its loop edge; that at 1 gains nothing. The forest has neither.
    let pair = [(0, 0, 1), (0, 1, 0), (1, 1, 2)];
    assert_eq!(key(&pair, &[0, 1], &[]), (2, vec![2, 2, 0], vec![0, 1, 0]));
    assert_eq!(key(&pair, &[0, 1], &[0, 1, 2]), (0, vec![2; 3], vec![0, 1, 0]));
    assert_eq!(key(&pair, &[], &[2]), (0, vec![0, 0, 2], vec![0; 3]));
    // {0, 1} has a boundary of two, one of them for the loop edge, so {2} grows.
    let counted = [(0, 1, 0), (1, 1, 0), (0, 2, 0)];
    assert_eq!(key(&counted, &[0, 2], &[0]), (2, vec![2, 0, 2], vec![0, 0, 1]));
    // With the loop edge lost the boundary is one, so {0, 1} grows, and edge 3 gains nothing.
    let full = [(0, 1, 0), (1, 1, 0), (0, 2, 0), (2, 3, 0)];
    assert_eq!(key(&full, &[0, 2], &[0, 1]), (2, vec![2, 2, 2, 0], vec![0, 0, 1, 0]));
    // Full after the first growth, the loop edge counts no longer: {1} and then {0, 1} grows.
    let filled = [(1, 1, 3), (1, 0, 0), (0, 2, 0), (2, 3, 0)];
    assert_eq!(key(&filled, &[1, 2], &[]), (4, vec![2, 2, 2, 0], vec![0, 1, 1, 0]));
}

/// A board of three vertices with these edges: what each call answers that is lent it.
fn refused(edges: &[Edge]) -> Option<Refusal> {
    let sheet = Sheet::new(Board::new(3, edges), &[], &[]);
    let refusal = agrees::decode(&sheet).err();
    assert_eq!(agrees::decode_rounds(&sheet).err(), refusal);
    assert_eq!(agrees::verdict(&sheet, &sheet.loss).err(), refusal);
    assert_eq!(agrees::distance(&sheet.board).err(), refusal);
    assert_eq!(agrees::write(&sheet).err(), refusal);
    refusal
}

/// Each with the refusal of the board, and the number of its text's first malformed line.
#[test]
fn broken_rules_beside_loop_edges() {
    let cases: [(&[Edge], Refusal, usize); 9] = [
        (&[(3, 3, 0)], Refusal::EndRange(0), 2),
        (&[(65_535, 65_535, 4)], Refusal::EndRange(0), 2),
        (&[(0, 0, 0), (3, 3, 0), (2, 2, 0)], Refusal::EndRange(1), 3),
        (&[(0, 0, 4), (1, 1, 0), (3, 3, 0)], Refusal::EndRange(2), 2),
        (&[(2, 2, 3), (0, 3, 0), (3, 3, 0)], Refusal::EndRange(1), 3),
        (&[(1, 1, 0), (3, 2, 0), (2, 2, 4)], Refusal::EndRange(1), 3),
        (&[(0, 0, 0), (1, 1, 4), (2, 2, 255)], Refusal::MarkRange(1), 3),
        (&[(0, 0, 3), (1, 2, 4), (2, 2, 4)], Refusal::MarkRange(1), 3),
        (&[(0, 1, 0), (1, 1, 3), (2, 2, 4)], Refusal::MarkRange(2), 4),
    ];
    for (edges, refusal, line) in cases {
        assert_eq!(refused(edges), Some(refusal), "{edges:?}");
        let text = text::write(&Sheet::new(Board::new(3, edges), &[], &[]));
        assert_eq!(agrees::read(&text), Err(Refusal::MalformedLine(line)), "{edges:?}");
    }
    assert_eq!(refused(&[(0, 0, 3), (2, 2, 0), (2, 2, 0), (1, 1, 1)]), None);
}

#[test]
fn broken_bytes_of_a_loop_edge() {
    let mut sheet = Sheet::new(Board::new(2, &[(0, 1, 0), (1, 1, 1)]), &[], &[]);
    assert_eq!(agrees::verdict(&sheet, &[0, 2]), Err(Refusal::HandedByte(1)));
    sheet.loss[1] = 2;
    assert_eq!(agrees::decode(&sheet), Err(Refusal::LossByte(1)));
    assert_eq!(agrees::decode_rounds(&sheet), Err(Refusal::LossByte(1)));
    assert_eq!(agrees::verdict(&sheet, &[0, 2]), Err(Refusal::LossByte(1)));
    assert_eq!(agrees::write(&sheet), Err(Refusal::LossByte(1)));
}

/// A line reads exactly where both ends are below the count, whether they are equal or not.
#[test]
fn texts_with_all_ends() {
    let mut read = 0;
    for a in 0..12 {
        for b in 0..12 {
            let text = format!("V\t11\nE\t{a}\t{b}\t2\nE\t{b}\t{b}\t0\nS\t0\nX\t1\n").into_bytes();
            let answer = agrees::read(&text);
            if a < 11 && b < 11 {
                let sheet = Sheet::new(Board::new(11, &[(a, b, 2), (b, b, 0)]), &[0], &[1]);
                assert_eq!(agrees::write(&sheet).as_ref(), Ok(&text));
                assert_eq!(answer, Ok(sheet));
                read += 1;
            } else {
                assert_eq!(answer, Err(Refusal::MalformedLine(2)));
            }
        }
    }
    assert_eq!(read, 121);
}
