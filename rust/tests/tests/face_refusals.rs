//! Document 02, K9: what the verdict with faces refuses, at the limits and in the order of its tests.

use reference::Random;
use reference::board::{set_of, size};
use table::Refusal;
use table_tests::agrees;
use table_tests::faces::{Lent, judge};
use table_tests::refused::refused;

/// The refusal where buffers of these lengths are lent, all 0: syndrome, loss, handed-in set, faces.
fn lent(side: u32, [syndrome, loss, handed, faces]: [usize; 4]) -> (u8, u64) {
    let (syndrome, loss, handed) = (vec![0; syndrome], vec![0; loss], vec![0; handed]);
    refused(agrees::faces_with(side, &syndrome, &loss, &handed, faces))
}

/// 11 at its limits, before any length; among the sides are some that are in range once cut to 8 or 16
/// bits, or whose square is once cut to 32.
#[test]
fn number_11() {
    let wrapped = [256, 257, 288, 1 << 16, (1 << 16) + 1, (1 << 16) + 32, 1 << 31, (1 << 31) + 1];
    for side in [&[0, 33, 34, 64, 1024, u32::MAX - 1, u32::MAX], &wrapped[..]].concat() {
        let refusal = (11, side.into());
        assert_eq!(lent(side, [0; 4]), refusal);
        assert_eq!(lent(side, [1, 2, 2, 1]), refusal, "the lengths of side 1");
        assert_eq!(lent(side, [1024, 2048, 2048, 1024]), refusal, "those of side 32");
        assert_eq!(lent(side, [1089, 2178, 2178, 1089]), refusal, "those that side 33 would have");
        // The builder of that torus refuses alike.
        assert_eq!(refused(agrees::torus_with(side, 4, 2)), refusal);
    }
    for side in [1, 32] {
        assert!(judge(side, &Lent::blank(side)).is_ok(), "a side at its limit");
    }
}

/// 3 for each buffer that is one too short or one too long, and for lengths of other sides.
#[test]
fn number_3() {
    for side in 1..=32_usize {
        let right = |side: usize| [side * side, 2 * side * side, 2 * side * side, side * side];
        let mut wrong = vec![right(side - 1), right(side + 1), [0; 4], [1024, 4096, 4096, 1024]];
        for buffer in 0..4 {
            for length in [right(side)[buffer] - 1, right(side)[buffer] + 1, 3 * side * side, 0] {
                let mut lengths = right(side);
                lengths[buffer] = length;
                wrong.push(lengths);
            }
        }
        let [vertices, edges, ..] = right(side);
        wrong.extend([[edges, vertices, edges, vertices], [edges, edges, edges, vertices]]);
        wrong.extend([[vertices, edges, vertices, edges], [vertices, vertices, edges, edges]]);
        wrong.extend([[vertices, edges, edges, edges], [vertices, edges + 1, edges - 1, vertices]]);
        for lengths in wrong {
            assert_eq!(lent(side as u32, lengths), (3, 0), "side {side}: {lengths:?}");
        }
    }
}

/// The verdict refuses the buffers that both are lent alike, where they are too short or too long.
#[test]
fn number_3_as_the_verdict() {
    for side in 1..=32 {
        for (_, buffer) in READ {
            let mut lent = Lent::blank(side);
            let last = buffer(&mut lent).pop().expect("a byte at least");
            assert_eq!(refused(judge(side, &lent)), (3, 0), "side {side}: {lent:?}");
            buffer(&mut lent).extend([last; 2]);
            assert_eq!(refused(judge(side, &lent)), (3, 0), "side {side}: {lent:?}");
        }
    }
}

/// One of the buffers that are read.
type Buffer = fn(&mut Lent) -> &mut Vec<u8>;

/// These buffers, each with the number of a byte above 1.
const READ: [(u8, Buffer); 3] =
    [(7, |lent| &mut lent.syndrome), (8, |lent| &mut lent.loss), (9, |lent| &mut lent.handed)];

/// 7, 8 and 9 at the first, the last and middle places, and at the smallest of several.
#[test]
fn numbers_7_to_9() {
    for side in [1, 2, 3, 7, 31, 32] {
        for (number, buffer) in READ {
            let mut right = Lent::blank(side);
            // Ones are in range.
            right.loss.fill(1);
            let count = buffer(&mut right).len();
            for byte in [2, 3, 128, 255] {
                for place in [0, count / 3, count / 2, count - 1] {
                    let mut lent = right.clone();
                    buffer(&mut lent)[place] = byte;
                    assert_eq!(refused(judge(side, &lent)), (number, place as u64));
                    buffer(&mut lent)[count - 1] = 2;
                    assert_eq!(refused(judge(side, &lent)), (number, place as u64), "the smallest");
                }
                let mut lent = right.clone();
                buffer(&mut lent).fill(byte);
                assert_eq!(refused(judge(side, &lent)), (number, 0));
            }
        }
    }
}

/// 10 exactly where an odd number of vertices is lit, wherever they lie, and before off.
#[test]
fn number_10() {
    let mut random = Random::new(216);
    let (mut odd, mut even) = (0, 0);
    for side in 1..=32 {
        for vertex in [0, side, side * side - 1] {
            let vertex = vertex % (side * side);
            let lit = set_of(side * side, &[vertex]);
            let answer = judge(side, &Lent { syndrome: lit, ..Lent::blank(side) });
            assert_eq!(answer, Err(Refusal::NoCorrection(0)), "side {side}, vertex {vertex}");
        }
        for rate in [100, 500, 1000] {
            let syndrome = random.set(side * side, rate);
            let handed = random.set(2 * side * side, 200);
            let lit = size(&syndrome);
            let answer = judge(side, &Lent { syndrome, handed, ..Lent::blank(side) });
            assert_eq!(answer.err(), (lit % 2 == 1).then_some(Refusal::NoCorrection(0)));
            *(if lit % 2 == 1 { &mut odd } else { &mut even }) += 1;
        }
    }
    assert!(odd > 20 && even > 20, "{odd} odd, {even} even");
}

/// The tests of the call, in order, each with what it refuses with below.
const TESTS: [(u8, u64); 6] = [(11, 33), (3, 0), (7, 6), (8, 4), (9, 1), (10, 0)];

/// Every choice of the six tests broken together: the first of them refuses. Of the buffers each is
/// once too short and once too long.
#[test]
fn numbers_in_their_order() {
    for broken in 1_usize..1 << TESTS.len() {
        let is_broken = |number: u8| {
            let test = TESTS.iter().position(|test| test.0 == number).expect("a test of the call");
            broken >> test & 1 == 1
        };
        for wrong in 0..if is_broken(3) { 8 } else { 1 } {
            let side = if is_broken(11) { 33 } else { 3 };
            let mut lent = Lent::blank(3);
            if is_broken(10) {
                lent.syndrome[5] = 1;
            }
            if is_broken(7) {
                lent.syndrome[6] = 2;
            }
            if is_broken(8) {
                lent.loss[4] = 3;
            }
            if is_broken(9) {
                lent.handed[1] = 255;
            }
            let mut faces = 9;
            if is_broken(3) {
                let longer = wrong % 2;
                match wrong / 2 {
                    0 => lent.syndrome.resize(8 + 2 * longer, 0),
                    1 => lent.loss.resize(17 + 2 * longer, 0),
                    2 => lent.handed.resize(17 + 2 * longer, 0),
                    _ => faces = 8 + 2 * longer,
                }
            }
            let Lent { syndrome, loss, handed } = &lent;
            let answer = agrees::faces_with(side, syndrome, loss, handed, faces);
            let first = TESTS[broken.trailing_zeros() as usize];
            assert_eq!(refused(answer), first, "side {side}, {faces} faces, {lent:?}");
        }
    }
}

/// Changes the length of a buffer now and then.
fn resize(random: &mut Random, buffer: &mut Vec<u8>) {
    match random.below(20) {
        0 => buffer.push(2),
        1 => drop(buffer.pop()),
        _ => {}
    }
}

/// Puts bytes above 1 into a buffer now and then.
fn put(random: &mut Random, buffer: &mut [u8]) {
    if random.chance(150) {
        for _ in 0..random.from_to(1, 3) {
            buffer[random.below(buffer.len())] = [2, 3, 255][random.below(3)];
        }
    }
}

/// Sides, lengths and bytes of which each is broken now and then.
#[test]
fn several_rules_broken() {
    let mut random = Random::new(217);
    let mut seen = [0; 12];
    for _ in 0..6000 {
        let side = random.from_to(1, 6);
        let vertices = side * side;
        let mut syndrome = random.set(vertices, 300);
        let [mut loss, mut handed] = [0; 2].map(|_| random.set(2 * vertices, 300));
        for buffer in [&mut syndrome, &mut loss, &mut handed] {
            put(&mut random, buffer);
            resize(&mut random, buffer);
        }
        let mut faces = vec![0; vertices];
        resize(&mut random, &mut faces);
        let side = match random.below(10) {
            0 => [0, 33, 65_537, u32::MAX][random.below(4)],
            _ => side as u32,
        };
        match agrees::faces_with(side, &syndrome, &loss, &handed, faces.len()) {
            Ok(_) => seen[0] += 1,
            Err(refusal) => seen[usize::from(refusal.number())] += 1,
        }
    }
    println!("refusals by number: {seen:?}");
    let numbers = [0, 3, 7, 8, 9, 10, 11];
    assert!(numbers.iter().all(|&number| seen[number] > 200), "{seen:?}");
    assert_eq!(numbers.map(|number| seen[number]).iter().sum::<usize>(), 6000);
}
