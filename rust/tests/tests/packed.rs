//! Document 02, K7: packing and unpacking undo each other, the lit vertices are counted and listed, and
//! packed sheets have the keys of plain ones.

use reference::board::{Board, Sheet, members, set_of};
use reference::generators::{Kind, crowd, crowd_with_loops, open_board, opened, path, ring, sheet};
use reference::packed::PackedSheet;
use reference::planar::planar;
use reference::torus::torus;
use reference::{Key, Random};
use table::Refusal;
use table_tests::packed::{Listing, Packing, Unpacking, decode_packed, lit_total};
use table_tests::{agrees, library};

/// Counts on both sides of a full word, at the limits and one below them.
const VERTICES: [usize; 8] = [1, 63, 64, 65, 127, 128, 1023, 1024];
const EDGES: [usize; 7] = [0, 1, 63, 64, 65, 4095, 4096];

/// Packs a syndrome and losses. The words are unpacked to the same bytes, and the lit vertices are
/// counted and listed.
fn hold(syndrome: &[u8], loss: &[u8]) -> (Vec<u64>, Vec<u64>) {
    let words = Packing::new(syndrome, loss).call().expect("words");
    let bytes = Unpacking::new(syndrome.len(), loss.len(), &words).call().expect("bytes");
    assert_eq!(bytes, (syndrome.to_vec(), loss.to_vec()));
    let lit: Vec<u16> = members(syndrome).map(|vertex| vertex as u16).collect();
    assert_eq!(lit_total(syndrome.len(), &words.0), Ok(lit.len()));
    assert_eq!(Listing::new(syndrome.len(), &words.0).call(), Ok(lit));
    words
}

/// Words of so many items, no bit past the last of them.
fn any_words(random: &mut Random, items: usize) -> Vec<u64> {
    let bit = |item: usize| if item < items { 1_u64 << (item % 64) } else { 0 };
    let valid = |word: usize| (64 * word..64 * (word + 1)).map(bit).sum::<u64>();
    (0..items.div_ceil(64)).map(|word| random.bits() & valid(word)).collect()
}

#[test]
fn words_by_hand() {
    let lit = set_of(130, &[0, 1, 63, 64, 127, 129]);
    let words = vec![0x8000_0000_0000_0003, 0x8000_0000_0000_0001, 0x2];
    assert_eq!(hold(&lit, &[]), (words, vec![]));
    let lost = set_of(70, &[2, 62, 69]);
    assert_eq!(hold(&[1], &lost), (vec![1], vec![0x4000_0000_0000_0004, 0x20]));
    assert_eq!(hold(&[0], &[1; 64]), (vec![0], vec![u64::MAX]));
    assert_eq!(hold(&[1; 65], &[0]), (vec![u64::MAX, 1], vec![0]));
    assert_eq!(hold(&[1; 1024], &[1; 4096]), (vec![u64::MAX; 16], vec![u64::MAX; 64]));
}

/// No bits, all bits, and some, in every pair of the counts; then words that nobody packed.
#[test]
fn every_pair_of_counts() {
    let mut random = Random::new(401);
    for vertices in VERTICES {
        for edges in EDGES {
            for (lit, lost) in [(0, 0), (1000, 1000), (0, 1000), (1000, 0), (500, 500), (30, 970)] {
                hold(&random.set(vertices, lit), &random.set(edges, lost));
            }
            for _ in 0..3 {
                let words = (any_words(&mut random, vertices), any_words(&mut random, edges));
                let bytes = Unpacking::new(vertices, edges, &words).call().expect("bytes");
                assert_eq!(hold(&bytes.0, &bytes.1), words);
            }
        }
    }
}

/// Every count of vertices, and one of each four counts of edges.
#[test]
fn every_count() {
    let mut random = Random::new(402);
    for vertices in 1..=1024 {
        let edges = 4 * vertices - random.below(4);
        hold(&random.set(vertices, 500), &random.set(edges, 500));
    }
}

/// Item i alone is bit i % 64 of word i / 64; all others alone are the other bits.
#[test]
fn every_item_alone() {
    for edge in 0..4096 {
        let vertex = edge % 1024;
        let (syndrome, loss) = hold(&set_of(1024, &[vertex]), &set_of(4096, &[edge]));
        let mut one = vec![0; 64];
        one[edge / 64] = 1 << (edge % 64);
        assert_eq!(loss, one, "edge {edge}");
        let mut one = vec![0; 16];
        one[vertex / 64] = 1 << (vertex % 64);
        assert_eq!(syndrome, one, "vertex {vertex}");
    }
    for vertex in 0..1024 {
        let mut all_but_one = vec![1; 1024];
        all_but_one[vertex] = 0;
        let (syndrome, _) = hold(&all_but_one, &[]);
        assert_eq!(syndrome[vertex / 64], !(1 << (vertex % 64)), "vertex {vertex}");
    }
}

/// The sheet, packed by the library.
fn packed_sheet(sheet: &Sheet) -> PackedSheet {
    let (syndrome, loss) = hold(&sheet.syndrome, &sheet.loss);
    let packed = PackedSheet { board: sheet.board.clone(), syndrome, loss };
    assert_eq!(packed, PackedSheet::new(sheet));
    packed
}

/// The key of a sheet, or its refusal: the same packed and plain, as the plain decoder has it and
/// between the library's two calls.
fn key(sheet: &Sheet) -> Result<Key, Refusal> {
    let packed = packed_sheet(sheet);
    let key = decode_packed(&packed);
    assert_eq!(key, agrees::decode(sheet), "{sheet:?}");
    assert_eq!(library::decode_packed(&packed), library::decode(sheet), "{sheet:?}");
    key
}

#[test]
fn keys_by_hand() {
    let m1 = key(&Sheet::new(ring(), &[0, 3], &[])).expect("m1");
    assert_eq!((m1.growths, m1.correction), (2, vec![0, 0, 0, 1]));
    let m2 = key(&Sheet::new(ring(), &[0, 3], &[0, 1, 2])).expect("m2");
    assert_eq!((m2.growths, m2.correction), (0, vec![1, 1, 1, 0]));
    assert_eq!(key(&Sheet::new(path(4), &[0, 1, 2], &[])), Err(Refusal::NoCorrection(0)), "m5");
    let m9 = key(&Sheet::new(Board::new(1, &[]), &[], &[])).expect("m9");
    assert_eq!((m9.growths, m9.edges()), (0, 0));
    // Both ends of a path of 66 vertices, the second of which lies in the second word.
    let ends = key(&Sheet::new(path(66), &[0, 65], &[])).expect("a correction");
    assert_eq!((ends.growths, ends.edges()), (130, 65));
    let runs_off = key(&Sheet::new(path(66).with_open(&[0]), &[65], &[64])).expect("a correction");
    assert_eq!((runs_off.growths, runs_off.edges()), (128, 65));
}

/// Boards of every kind, half of them with open vertices, now and then with any syndrome at all or with
/// an open byte above 1 or an open vertex lit.
#[test]
fn keys_of_random_sheets() {
    let mut random = Random::new(403);
    let (mut grown, mut still, mut seen) = (0, 0, [0; 20]);
    for round in 0..6000 {
        let board = match round % 2 {
            0 => Kind::ALL[round / 2 % Kind::ALL.len()].board(&mut random),
            _ => open_board(&mut random),
        };
        let mut sheet = sheet(&mut random, board);
        let vertex = random.below(sheet.board.vertices);
        match random.below(20) {
            0 => sheet.board.open[vertex] = random.from_to(2, 255) as u8,
            1 => (sheet.board.open[vertex], sheet.syndrome[vertex]) = (1, 1),
            _ => {}
        }
        match key(&sheet) {
            Ok(key) => *(if key.growths > 0 { &mut grown } else { &mut still }) += 1,
            Err(refusal) => seen[usize::from(refusal.number())] += 1,
        }
    }
    println!("{grown} grown, {still} not, refusals by number: {seen:?}");
    assert!(grown > 1000 && still > 1000, "{grown} grown, {still} not");
    assert!([10, 16, 17].iter().all(|&number| seen[number] > 200), "{seen:?}");
    assert_eq!(grown + still + seen[10] + seen[16] + seen[17], 6000, "{seen:?}");
}

/// Sheets of many words, with few and many losses, with and without open vertices.
#[test]
fn keys_of_large_sheets() {
    let mut random = Random::new(404);
    let boards = [
        torus(8),
        torus(11),
        torus(32),
        planar(8),
        planar(31),
        path(1024),
        path(1023),
        crowd(&mut random, 1024, 4096),
        crowd_with_loops(&mut random, 1023, 4095),
        crowd(&mut random, 65, 129),
        // on both sides of the counts above which the arrays of a call are larger
        crowd(&mut random, 64, 256),
        crowd(&mut random, 65, 256),
        crowd(&mut random, 64, 257),
    ];
    for board in boards {
        for (rate, lost) in [(0, 0), (20, 0), (50, 100), (300, 500), (20, 1000)] {
            let open = opened(&mut random, board.clone());
            for board in [board.clone(), open] {
                let syndrome = board.syndrome(&random.set(board.edges(), rate));
                let loss = random.set(board.edges(), lost);
                let key = key(&Sheet { board, syndrome, loss }).expect("the set has the syndrome");
                assert!(rate > 0 || key.edges() == 0);
            }
        }
    }
}

/// Each edge of a torus alone lost, its two ends alone lit: at every bit of every word.
#[test]
fn keys_by_place() {
    let board = torus(16);
    for edge in 0..board.edges() {
        let [a, b] = board.ends_of(edge);
        let key = key(&Sheet::new(board.clone(), &[a, b], &[edge])).expect("a correction");
        assert_eq!(members(&key.correction).collect::<Vec<_>>(), [edge]);
        assert_eq!((key.growths, key.support[edge]), (0, 2));
    }
}
