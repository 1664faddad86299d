//! Document 02, K7: which refusal the calls of packed sheets give where several rules are broken.

use reference::Random;
use reference::board::set_of;
use reference::generators::{Kind, opened, sheet};
use reference::packed::PackedSheet;
use table_tests::packed::{
    Listing, Packing, Unpacking, blank_path, decode_packed, decode_packed_with, lit_total,
};
use table_tests::refused::refused;

/// The first of the tests that are broken, where each bit of `broken` stands for one of them.
fn first(tests: &[(u8, u64)], broken: usize) -> (u8, u64) {
    tests[broken.trailing_zeros() as usize]
}

/// Every choice of the tests of packing and unpacking broken together: the first of them refuses. Of the
/// buffers each is once too short and once too long.
#[test]
fn packing_in_order() {
    for broken in 1_usize..1 << 5 {
        let is_broken = |test: usize| broken >> test & 1 == 1;
        for wrong in 0..if is_broken(2) { 8 } else { 1 } {
            let length = |buffer: usize, right: usize| match is_broken(2) && wrong / 2 == buffer {
                true => right - 1 + 2 * (wrong % 2),
                false => right,
            };
            let vertices = if is_broken(0) { 1025 } else { 130 };
            let edges = if is_broken(1) { 4097 } else { 70 };
            let lit = if is_broken(3) { set_of(131, &[0]) } else { vec![0; 131] };
            let lost = if is_broken(4) { set_of(71, &[2]) } else { vec![0; 71] };
            let twice = |set: &[u8]| set.iter().map(|byte| 2 * byte).collect::<Vec<u8>>();
            let pack = Packing {
                vertices,
                edges,
                syndrome: twice(&lit[..length(0, 130)]),
                loss: twice(&lost[..length(1, 70)]),
                syndrome_words: length(2, 3),
                loss_words: length(3, 2),
            };
            let tests = [(1, 0), (2, 0), (3, 0), (7, 0), (8, 2)];
            assert_eq!(refused(pack.call()), first(&tests, broken), "{pack:?}");
            let past = |broken: bool| if broken { 1 << 63 } else { 0 };
            let unpack = Unpacking {
                vertices,
                edges,
                syndrome_words: [0, 0, past(is_broken(3)), 0][..length(0, 3)].to_vec(),
                loss_words: [0, past(is_broken(4)), 0][..length(1, 2)].to_vec(),
                syndrome: length(2, 130),
                loss: length(3, 70),
            };
            let tests = [(1, 0), (2, 0), (3, 0), (19, 2), (19, 1)];
            assert_eq!(refused(unpack.call()), first(&tests, broken), "{unpack:?}");
        }
    }
}

/// The same of listing, and of the lit total.
#[test]
fn listing_in_order() {
    for broken in 1_usize..1 << 3 {
        let vertices = if broken & 1 == 1 { 1025 } else { 130 };
        let rest = if broken & 4 == 4 { 1 << 2 } else { 0 };
        let refusal = first(&[(1, 0), (3, 0), (19, 2)], broken);
        let lengths: &[_] = match broken & 2 {
            0 => &[(3, 130)],
            _ => &[(2, 130), (4, 130), (3, 129), (3, 131)],
        };
        for &(words, list) in lengths {
            let words = [0, 0, rest, 0][..words].to_vec();
            let list = Listing { vertices, words: words.clone(), list };
            assert_eq!(refused(list.call()), refusal, "{list:?}");
            if words.len() != 3 || broken & 2 == 0 {
                assert_eq!(refused(lit_total(vertices, &words)), refusal, "{words:?}");
            }
        }
    }
}

/// The tests of decoding a packed sheet, in order, each with what it refuses with below. Of 19 the word
/// of the syndrome is the larger one.
const TESTS: [(u8, u64); 10] =
    [(1, 0), (2, 0), (3, 0), (4, 69), (6, 68), (19, 2), (19, 1), (16, 129), (17, 5), (10, 0)];

/// A packed sheet on which each test is broken that a bit stands for, and the lengths to fill. Of its
/// six other buffers one has a wrong length where number 3 is broken: each in turn, too short or too long.
fn broken_sheet(broken: usize, wrong: usize) -> (PackedSheet, [usize; 2]) {
    let mut sheet = blank_path(130, 70);
    let breaks: [fn(&mut PackedSheet); 10] = [
        |sheet| sheet.board.vertices = 1025,
        |sheet| sheet.board.ends.push(0),
        |_| {},
        |sheet| sheet.board.ends[139] = 1025,
        |sheet| sheet.board.marks[68] = 4,
        |sheet| sheet.syndrome[2] |= 1 << 2,
        |sheet| sheet.loss[1] |= 1 << 63,
        |sheet| sheet.board.open[129] = 2,
        |sheet| (sheet.board.open[5], sheet.syndrome[0]) = (1, 1 << 5),
        |sheet| sheet.syndrome[0] ^= 1 << 7,
    ];
    for (test, change) in breaks.iter().enumerate() {
        if broken >> test & 1 == 1 {
            change(&mut sheet);
        }
    }
    let mut filled = [70; 2];
    if broken >> 2 & 1 == 1 {
        let other = |right: usize| right - 1 + 2 * (wrong % 2);
        match wrong / 2 {
            0 => sheet.board.marks.resize(other(70), 0),
            1 => sheet.board.open.resize(other(130), 0),
            2 => sheet.syndrome.resize(other(3), 0),
            3 => sheet.loss.resize(other(2), 0),
            buffer => filled[buffer - 4] = other(70),
        }
    }
    (sheet, filled)
}

/// Every choice of the ten tests of decoding broken together: the first of them refuses.
#[test]
fn decoding_in_order() {
    for broken in 1_usize..1 << TESTS.len() {
        for wrong in 0..if broken >> 2 & 1 == 1 { 12 } else { 1 } {
            let (sheet, [support, correction]) = broken_sheet(broken, wrong);
            let answer = decode_packed_with(&sheet, support, correction);
            assert_eq!(refused(answer), first(&TESTS, broken), "{sheet:?}");
        }
    }
}

/// Breaks one rule of a packed sheet at random, or none where it changes a bit of an item.
fn break_a_rule(random: &mut Random, sheet: &mut PackedSheet) {
    let PackedSheet { board, syndrome, loss } = sheet;
    let any_bit = |random: &mut Random, words: &mut [u64]| {
        if !words.is_empty() {
            words[random.below(words.len())] ^= 1 << random.below(64);
        }
    };
    let vertex = random.below(board.open.len().max(1));
    let edge = random.below(board.marks.len().max(1));
    match random.below(15) {
        0 => board.vertices = [0, 1025, vertex, board.vertices + 1][random.below(4)],
        1 => board.ends.push(0),
        2 => syndrome.push(0),
        3 => loss.push(1),
        4 => board.marks.resize(edge, 5),
        5 | 6 => board.ends.iter_mut().take(2 * edge + 1).for_each(|end| *end += 60),
        7 | 8 => board.open.iter_mut().take(vertex + 1).for_each(|byte| *byte += 1),
        9..=11 => any_bit(random, syndrome),
        _ => any_bit(random, loss),
    }
}

#[test]
fn several_rules_broken() {
    let mut random = Random::new(411);
    let mut seen = [0; 20];
    for round in 0..12_000 {
        let mut board = Kind::ALL[round % Kind::ALL.len()].board(&mut random);
        if random.chance(300) {
            board = opened(&mut random, board);
        }
        if random.chance(300) {
            board.marks.iter_mut().for_each(|mark| *mark += 1);
        }
        let mut sheet = PackedSheet::new(&sheet(&mut random, board));
        for _ in 0..random.from_to(1, 3) {
            break_a_rule(&mut random, &mut sheet);
        }
        match decode_packed(&sheet) {
            Ok(_) => seen[0] += 1,
            Err(refusal) => seen[usize::from(refusal.number())] += 1,
        }
    }
    println!("refusals by number: {seen:?}");
    let numbers = [0, 1, 2, 3, 4, 6, 10, 16, 17, 19];
    assert!(numbers.iter().all(|&number| seen[number] > 100), "{seen:?}");
    assert_eq!(numbers.map(|number| seen[number]).iter().sum::<usize>(), 12_000);
}
