//! Document 02, K5: boards with open vertices, in every call.

use reference::board::{Board, Sheet, members, size, together};
use reference::components::components;
use reference::generators::{
    Kind, any_syndrome, late_smallest, open_board, opened, path, ring, sheet,
};
use reference::{Key, Random, RoundsKey};
use table::{Refusal, Verdict};
use table_tests::loops::closed_set;
use table_tests::{agrees, library};

/// Steps, correction and supports of a sheet, by growths and in rounds.
type Keys = [(usize, Vec<usize>, Vec<u8>); 2];

fn keys(board: &Board, lit: &[usize], lost: &[usize]) -> Keys {
    let sheet = Sheet::new(board.clone(), lit, lost);
    let Key { growths, support, correction } = library::decode(&sheet).expect("a correction");
    let weighted = (growths, members(&correction).collect(), support);
    let RoundsKey { rounds, support, correction } =
        library::decode_rounds(&sheet).expect("a correction in rounds");
    [weighted, (rounds, members(&correction).collect(), support)]
}

/// The same steps, correction and supports in both ways of growing.
fn both(steps: usize, correction: &[usize], support: &[u8]) -> Keys {
    let key = (steps, correction.to_vec(), support.to_vec());
    [key.clone(), key]
}

/// Each tells a wrong step apart; `reference`'s tests say how.
#[test]
fn keys_by_hand() {
    // {2} grows until it has the open vertex, and no longer.
    let end = path(4).with_open(&[0]);
    assert_eq!(keys(&end, &[2], &[]), both(4, &[0, 1], &[2, 2, 2]));
    let near = path(4).with_open(&[1]);
    assert_eq!(keys(&near, &[2], &[]), both(2, &[1], &[0, 2, 2]));
    // A cluster that holds an open vertex never grows, whatever is lit in it.
    assert_eq!(keys(&end, &[1], &[0]), both(0, &[0], &[2, 0, 0]));
    assert_eq!(keys(&end, &[1, 3], &[0]), both(4, &[1, 2], &[2, 2, 2]));
    // Its smallest open vertex is added where an odd number is lit, and none where an even number is.
    let several = path(5).with_open(&[1, 4]);
    assert_eq!(keys(&several, &[3], &[0, 1, 2, 3]), both(0, &[1, 2], &[2; 4]));
    assert_eq!(keys(&several, &[0], &[0, 1, 2, 3]), both(0, &[0], &[2; 4]));
    assert_eq!(keys(&several, &[2, 3], &[0, 1, 2, 3]), both(0, &[2], &[2; 4]));
    assert_eq!(keys(&several, &[0, 2, 3], &[0, 1, 2, 3]), both(0, &[0, 2], &[2; 4]));
    // Each cluster has its own.
    let two = path(6).with_open(&[0, 2, 5]);
    assert_eq!(keys(&two, &[1, 4], &[0, 1, 3, 4]), both(0, &[0, 4], &[2, 2, 0, 2, 2]));
    // The smaller open vertex, and not the smaller edge.
    let turned = Board::new(3, &[(2, 1, 0), (1, 0, 0)]).with_open(&[0, 2]);
    assert_eq!(keys(&turned, &[1], &[]), both(2, &[1], &[2, 2]));
    // One odd cluster alone takes two rounds for each edge, as many as it has growths.
    let long = path(6).with_open(&[5]);
    assert_eq!(keys(&long, &[0], &[]), both(10, &[0, 1, 2, 3, 4], &[2; 5]));
    // {3} has the open vertex after two rounds, and waits for {0} then.
    let waits = path(5).with_open(&[4]);
    let [weighted, rounds] = keys(&waits, &[0, 3], &[]);
    assert_eq!(weighted, (6, vec![0, 1, 2], vec![2, 2, 2, 0]));
    assert_eq!(rounds, (4, vec![0, 1, 2], vec![2; 4]));
}

/// How often each was seen.
#[derive(Debug, Default)]
struct Seen {
    grown: usize,
    still: usize,
    refused: usize,
    /// Refused on a board that has open vertices.
    refused_open: usize,
    /// The correction ends at an open vertex.
    open_ended: usize,
    /// It ends at two or more, so in as many clusters.
    open_ends: usize,
    /// It ends in a cluster that holds a larger open vertex too.
    several_open: usize,
    /// Another key in rounds.
    rounds_differ: usize,
    every_vertex: usize,
    off: usize,
    /// Off, though the two sets end differently at a smaller open vertex.
    off_past_open: usize,
    same: usize,
    wound: usize,
    /// Wound by a set that is closed in the wider sense alone.
    wound_over_open: usize,
    distance: usize,
    /// The distance is another than on the board with all vertices closed.
    distance_differs: usize,
    no_distance: usize,
}

impl Seen {
    /// Whether each was seen often.
    fn all(&self) -> bool {
        let keys = [self.grown, self.still, self.refused, self.refused_open, self.rounds_differ];
        let ends = [self.open_ended, self.open_ends, self.several_open, self.every_vertex];
        let verdicts = [self.off, self.off_past_open, self.same, self.wound, self.wound_over_open];
        let distances = [self.distance, self.distance_differs, self.no_distance];
        let all = [&keys[..], &ends, &verdicts, &distances].concat();
        all.iter().all(|&count| count > 100)
    }

    /// Where the correction ends at open vertices: one in a cluster, its smallest.
    fn count_key(&mut self, sheet: &Sheet, growths: usize, support: &[u8], correction: &[u8]) {
        let board = &sheet.board;
        *(if growths > 0 { &mut self.grown } else { &mut self.still }) += 1;
        assert_eq!(board.syndrome(correction), sheet.syndrome, "{sheet:?}");
        let cluster = components(board, |edge| support[edge] == 2);
        let ends = together(&board.odd_ends(correction), &sheet.syndrome);
        for end in members(&ends) {
            let mut open = members(&board.open).filter(|&vertex| cluster[vertex] == cluster[end]);
            assert_eq!(open.next(), Some(end), "{sheet:?}");
            self.several_open += usize::from(open.next().is_some());
        }
        self.open_ended += usize::from(size(&ends) > 0);
        self.open_ends += usize::from(size(&ends) > 1);
    }

    /// Verdicts on a set, on that set with a closed one, and on any set at all.
    fn judge(&mut self, random: &mut Random, sheet: &Sheet, near: &[u8]) {
        let board = &sheet.board;
        let closed = closed_set(random, board);
        let any = random.set(near.len(), 200);
        for handed in [near.to_vec(), together(near, &closed), any] {
            let ends = together(&board.odd_ends(&handed), &sheet.syndrome);
            match agrees::verdict(sheet, &handed) {
                Ok(Verdict::Off(vertex)) => {
                    assert_eq!(board.open[vertex], 0, "{sheet:?}");
                    self.off += 1;
                    self.off_past_open += usize::from(members(&ends).any(|end| end < vertex));
                }
                Ok(Verdict::Same) => self.same += 1,
                Ok(Verdict::Wound(_)) => {
                    self.wound += 1;
                    let between = board.odd_ends(&together(&handed, near));
                    self.wound_over_open += usize::from(size(&between) > 0);
                }
                Err(_) => {}
            }
        }
    }

    fn measure(&mut self, board: &Board) {
        let found = agrees::distance(board).expect("a board that keeps the rules");
        *(if found.is_some() { &mut self.distance } else { &mut self.no_distance }) += 1;
        let closed = Board { open: vec![0; board.vertices], ..board.clone() };
        self.distance_differs += usize::from(agrees::distance(&closed) != Ok(found));
    }
}

#[test]
fn every_call_agrees() {
    let mut random = Random::new(171);
    let mut seen = Seen::default();
    for _ in 0..12_000 {
        let board = open_board(&mut random);
        let sheet = sheet(&mut random, board);
        let near = match (agrees::decode(&sheet), agrees::decode_rounds(&sheet)) {
            (Ok(key), Ok(rounds)) => {
                seen.count_key(&sheet, key.growths, &key.support, &key.correction);
                seen.rounds_differ += usize::from(key.support != rounds.support);
                key.correction
            }
            (decoded, in_rounds) => {
                assert_eq!(decoded.err(), in_rounds.err(), "{sheet:?}");
                seen.refused += 1;
                seen.refused_open += usize::from(sheet.board.open.contains(&1));
                vec![0; sheet.board.edges()]
            }
        };
        seen.every_vertex += usize::from(!sheet.board.open.contains(&0));
        seen.judge(&mut random, &sheet, &near);
        seen.measure(&sheet.board);
        let text = agrees::write(&sheet).expect("a short text");
        assert_eq!(agrees::read(&text).as_ref(), Ok(&sheet));
    }
    println!("{seen:?}");
    assert!(seen.all(), "{seen:?}");
}

/// Few growths, many lost edges and many open vertices: clusters of the start with several of them.
#[test]
fn clusters_with_several_open_vertices() {
    let mut random = Random::new(172);
    let mut seen = Seen::default();
    for round in 0..4000 {
        let kind = [Kind::Medium, Kind::Dense, Kind::Path, Kind::Cycle][round % 4];
        let drawn = kind.board(&mut random);
        let board = opened(&mut random, drawn);
        let (lost, flipped) = (random.from_to(300, 900), random.from_to(50, 500));
        let loss = random.set(board.edges(), lost);
        let syndrome = board.syndrome(&random.set(board.edges(), flipped));
        let sheet = Sheet { board, syndrome, loss };
        let key = agrees::decode(&sheet).expect("the flips have the syndrome");
        seen.count_key(&sheet, key.growths, &key.support, &key.correction);
        let rounds = agrees::decode_rounds(&sheet).expect("the flips have the syndrome");
        seen.count_key(&sheet, rounds.rounds, &rounds.support, &rounds.correction);
    }
    println!("{seen:?}");
    assert!(seen.several_open > 1000 && seen.open_ends > 300, "{seen:?}");
}

/// The smallest vertex of all parts with an odd number of lit vertices and no open one.
fn smallest_odd(sheet: &Sheet) -> Option<usize> {
    let part = &components(&sheet.board, |_| true);
    (0..part.len()).find(|&vertex| {
        let inside: Vec<usize> = (0..part.len()).filter(|&v| part[v] == part[vertex]).collect();
        let lit = inside.iter().filter(|&&v| sheet.syndrome[v] == 1).count();
        lit % 2 == 1 && inside.iter().all(|&v| sheet.board.open[v] == 0)
    })
}

/// Several parts, with any syndrome at all: 10 passes over the odd ones that hold an open vertex.
#[test]
fn parts_with_and_without_an_open_vertex() {
    let mut random = Random::new(173);
    let (mut shown, mut passed_over, mut met) = (0, 0, 0);
    for round in 0..10_000 {
        let late = round % 2 == 0;
        let board = if late { late_smallest(&mut random) } else { Kind::Parts.board(&mut random) };
        let open = random.set(board.vertices, 150);
        let sheet = any_syndrome(&mut random, Board { open, ..board });
        let smallest = smallest_odd(&sheet);
        let refusal = agrees::decode(&sheet).err();
        assert_eq!(refusal, smallest.map(Refusal::NoCorrection), "{sheet:?}");
        assert_eq!(agrees::decode_rounds(&sheet).err(), refusal, "{sheet:?}");
        assert_eq!(agrees::verdict(&sheet, &sheet.loss).err(), refusal, "{sheet:?}");
        let mut closed = sheet.clone();
        closed.board.open.fill(0);
        match (smallest, smallest_odd(&closed)) {
            (Some(vertex), first) => {
                shown += 1;
                passed_over += usize::from(first < Some(vertex));
            }
            (None, first) => met += usize::from(first.is_some()),
        }
    }
    println!(
        "{shown} refused, {passed_over} past an odd part with an open vertex, {met} met by it"
    );
    assert!([shown, passed_over, met].iter().all(|&count| count > 500));
}

/// Every set of vertices of a ring open, every syndrome beside it, every loss and every handed-in set.
#[test]
fn every_sheet_of_the_ring() {
    let sets: Vec<Vec<u8>> =
        (0..16).map(|bits| (0..4).map(|at| bits >> at & 1).collect()).collect();
    let mut sheets = 0;
    for open in &sets {
        let board = Board { open: open.clone(), ..ring() };
        let measured = agrees::distance(&board).expect("a board that keeps the rules");
        // The marked edge, from 3 to 0, is a loop by itself where both of its ends are open.
        assert_eq!(measured == Some(1), open[3] == 1 && open[0] == 1);
        for syndrome in &sets {
            let lit_open = (0..4).find(|&v| open[v] == 1 && syndrome[v] == 1).map(Refusal::LitOpen);
            for loss in &sets {
                let (board, syndrome, loss) = (board.clone(), syndrome.clone(), loss.clone());
                let sheet = Sheet { board, syndrome, loss };
                let refusal = agrees::decode(&sheet).err();
                assert_eq!(agrees::decode_rounds(&sheet).err(), refusal);
                assert_eq!(agrees::write(&sheet).err(), lit_open);
                let odd = size(&sheet.syndrome) % 2 == 1 && !open.contains(&1);
                let expected = lit_open.or(odd.then_some(Refusal::NoCorrection(0)));
                assert_eq!(refusal, expected, "{sheet:?}");
                for handed in &sets {
                    assert_eq!(agrees::verdict(&sheet, handed).err(), refusal);
                }
                sheets += 1;
            }
        }
    }
    assert_eq!(sheets, 16 * 16 * 16);
}

/// An open vertex that no edge touches changes no answer, nor does opening a vertex of a board on
/// which nothing is lit and nothing handed in.
#[test]
fn open_vertices_that_change_nothing() {
    let mut random = Random::new(174);
    for round in 0..2000 {
        let board = Kind::ALL[round % Kind::ALL.len()].board(&mut random);
        let drawn = sheet(&mut random, board);
        let mut wider = drawn.clone();
        wider.board.vertices += 1;
        wider.board.open.push(1);
        wider.syndrome.push(0);
        assert_eq!(agrees::decode(&wider), agrees::decode(&drawn));
        assert_eq!(agrees::decode_rounds(&wider), agrees::decode_rounds(&drawn));
        assert_eq!(agrees::verdict(&wider, &drawn.loss), agrees::verdict(&drawn, &drawn.loss));
        assert_eq!(agrees::distance(&wider.board), agrees::distance(&drawn.board));
        let mut dark = Sheet { syndrome: vec![0; drawn.board.vertices], ..drawn };
        let key = agrees::decode(&dark);
        dark.board = opened(&mut random, dark.board);
        assert_eq!(agrees::decode(&dark), key);
        assert_eq!(agrees::verdict(&dark, &vec![0; dark.board.edges()]), Ok(Verdict::Same));
    }
}

/// Open vertices at the limits: 1,024 of them, the last one alone, and with 4,096 edges.
#[test]
fn at_the_limits() {
    let all: Vec<usize> = (0..1024).collect();
    let alone = Sheet::new(Board::new(1024, &[]).with_open(&all), &[], &[]);
    assert_eq!(agrees::decode(&alone).map(|key| key.growths), Ok(0));
    assert_eq!(agrees::distance(&alone.board), Ok(None));
    let text = agrees::write(&alone).expect("a text within the limit");
    assert_eq!(agrees::read(&text).as_ref(), Ok(&alone));

    let far = Sheet::new(path(1024).with_open(&[1023]), &[0], &[]);
    let key = agrees::decode(&far).expect("a correction");
    assert_eq!((key.growths, key.edges()), (2 * 1023, 1023));
    let rounds = agrees::decode_rounds(&far).expect("a correction in rounds");
    assert_eq!((rounds.rounds, rounds.edges()), (2 * 1023, 1023));
    let mut both_ends = path(1024).with_open(&[0, 1023]);
    assert_eq!(agrees::distance(&both_ends), Ok(None));
    both_ends.marks[511] = 2;
    assert_eq!(agrees::distance(&both_ends), Ok(Some(1023)));

    let last = Board::new(1024, &vec![(1022, 1023, 3); 4096]).with_open(&[1023]);
    let lit = Sheet::new(last.clone(), &[1022], &[]);
    assert_eq!(agrees::decode(&lit).map(|key| (key.growths, key.edges())), Ok((2, 1)));
    let elsewhere = Sheet::new(last, &[1021, 1022], &[]);
    assert_eq!(agrees::decode(&elsewhere), Err(Refusal::NoCorrection(1021)));
}
