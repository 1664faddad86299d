//! Document 02, K7: what the calls of packed sheets refuse, each number at its limits. Every comparison
//! holds that a refusal writes nothing.

use reference::board::Board;
use reference::packed::{PackedSheet, packed, words_of};
use table_tests::packed::{
    Listing, Packing, Unpacking, blank_path, decode_packed, decode_packed_with, lit_total,
};
use table_tests::refused::{blank, refused};

/// Counts that are out of range, some of which are in range once cut to 16 or 32 bits, and some that
/// come to few words where 63 is added and the sum wraps.
const WRAPPED: [usize; 8] = [
    1 << 16,
    (1 << 16) + 1,
    1 << 32,
    (1 << 32) + 64,
    usize::MAX - 63,
    usize::MAX - 62,
    usize::MAX - 61,
    usize::MAX,
];

/// Number 1 in all five calls, whatever the lengths: those of the smallest and of the largest counts, and
/// those of the count itself where it isn't large.
#[test]
fn number_1() {
    for vertices in [&[0, 1025, 1026, 2048, 4096][..], &WRAPPED].concat() {
        let mut right = vec![1, 1024];
        right.extend((vertices < 5000).then_some(vertices));
        for right in right {
            let pack = Packing { vertices, ..Packing::blank(right, 3) };
            assert_eq!(refused(pack.call()), (1, 0), "{vertices}");
            let unpack = Unpacking { vertices, ..Unpacking::blank(right, 3) };
            assert_eq!(refused(unpack.call()), (1, 0), "{vertices}");
            let list = Listing { vertices, ..Listing::blank(right) };
            assert_eq!(refused(list.call()), (1, 0), "{vertices}");
            assert_eq!(refused(lit_total(vertices, &list.words)), (1, 0), "{vertices}");
            let mut sheet = blank_path(right, 0);
            sheet.board.vertices = vertices;
            assert_eq!(refused(decode_packed(&sheet)), (1, 0), "{vertices}");
        }
    }
}

/// Number 2: in packing and unpacking of the edge count, in decoding of the ends.
#[test]
fn number_2() {
    for edges in [&[4097, 4098, 8192][..], &WRAPPED].concat() {
        let mut right = vec![0, 1, 4096];
        right.extend((edges < 10_000).then_some(edges));
        for right in right {
            let pack = Packing { edges, ..Packing::blank(3, right) };
            assert_eq!(refused(pack.call()), (2, 0), "{edges}");
            let unpack = Unpacking { edges, ..Unpacking::blank(3, right) };
            assert_eq!(refused(unpack.call()), (2, 0), "{edges}");
        }
    }
    let parallel = |edges: usize| PackedSheet::new(&blank(Board::new(2, &vec![(0, 1, 0); edges])));
    for ends in [1, 3, 8191, 8193, 8194, 20_000] {
        let mut sheet = parallel(ends / 2);
        sheet.board.ends.resize(ends, 1);
        assert_eq!(refused(decode_packed(&sheet)), (2, 0), "{ends}");
    }
    decode_packed(&parallel(4096)).expect("as many edges as there may be");
}

/// Counts at their limits are taken.
#[test]
fn counts_in_range() {
    for (vertices, edges) in [(1, 0), (1, 4096), (1024, 0), (1024, 4096)] {
        Packing::blank(vertices, edges).call().expect("words");
        Unpacking::blank(vertices, edges).call().expect("bytes");
    }
    for vertices in [1, 1024] {
        Listing::blank(vertices).call().expect("a list");
        assert_eq!(lit_total(vertices, &vec![0; words_of(vertices)]), Ok(0));
        decode_packed(&blank_path(vertices, vertices - 1)).expect("a key");
    }
}

/// Lengths that are not this one: one less, one more, none, and those that other buffers have.
fn wrong(right: usize) -> Vec<usize> {
    let all = [right.saturating_sub(1), right + 1, 0, 1, 16, 64, 1024, 4096, 64 * right];
    all.into_iter().filter(|&length| length != right).collect()
}

/// Number 3 for each buffer of each call that is lent no board.
#[test]
fn number_3() {
    for vertices in [1, 63, 64, 65, 127, 128, 1023, 1024] {
        for edges in [0, 1, 63, 64, 65, 4095, 4096] {
            let pack = Packing::blank(vertices, edges);
            let unpack = Unpacking::blank(vertices, edges);
            for length in wrong(vertices) {
                let syndrome = vec![0; length];
                assert_eq!(refused(Packing { syndrome, ..pack.clone() }.call()), (3, 0));
                let syndrome = length;
                assert_eq!(refused(Unpacking { syndrome, ..unpack.clone() }.call()), (3, 0));
            }
            for length in wrong(edges) {
                assert_eq!(
                    refused(Packing { loss: vec![0; length], ..pack.clone() }.call()),
                    (3, 0)
                );
                assert_eq!(refused(Unpacking { loss: length, ..unpack.clone() }.call()), (3, 0));
            }
            for length in wrong(words_of(vertices)) {
                let syndrome_words = length;
                assert_eq!(refused(Packing { syndrome_words, ..pack.clone() }.call()), (3, 0));
                let syndrome_words = vec![0; length];
                assert_eq!(refused(Unpacking { syndrome_words, ..unpack.clone() }.call()), (3, 0));
            }
            for length in wrong(words_of(edges)) {
                let loss_words = length;
                assert_eq!(refused(Packing { loss_words, ..pack.clone() }.call()), (3, 0));
                let loss_words = vec![0; length];
                assert_eq!(refused(Unpacking { loss_words, ..unpack.clone() }.call()), (3, 0));
            }
        }
    }
}

/// Number 3 for the words and the list of a syndrome alone.
#[test]
fn number_3_of_the_lit() {
    for vertices in 1..=1024 {
        for list in wrong(vertices) {
            assert_eq!(refused(Listing { list, ..Listing::blank(vertices) }.call()), (3, 0));
        }
        for length in wrong(words_of(vertices)) {
            let words = vec![0; length];
            assert_eq!(refused(lit_total(vertices, &words)), (3, 0), "{vertices}");
            assert_eq!(refused(Listing { words, ..Listing::blank(vertices) }.call()), (3, 0));
        }
    }
}

/// Number 3 for each buffer of a packed sheet, and for those to fill.
#[test]
fn number_3_of_a_packed_sheet() {
    for (vertices, edges) in
        [(1, 0), (2, 1), (64, 63), (65, 64), (66, 65), (129, 128), (1024, 1023)]
    {
        let right = blank_path(vertices, edges);
        decode_packed(&right).expect("a key");
        let refusal = |change: &dyn Fn(&mut PackedSheet)| {
            let mut sheet = right.clone();
            change(&mut sheet);
            refused(decode_packed_with(&sheet, edges, edges))
        };
        for length in wrong(vertices) {
            assert_eq!(refusal(&|sheet| sheet.board.open.resize(length, 0)), (3, 0));
        }
        for length in wrong(edges) {
            assert_eq!(refusal(&|sheet| sheet.board.marks.resize(length, 0)), (3, 0));
            assert_eq!(refused(decode_packed_with(&right, length, edges)), (3, 0));
            assert_eq!(refused(decode_packed_with(&right, edges, length)), (3, 0));
        }
        for length in wrong(words_of(vertices)) {
            assert_eq!(refusal(&|sheet| sheet.syndrome.resize(length, 0)), (3, 0));
        }
        for length in wrong(words_of(edges)) {
            assert_eq!(refusal(&|sheet| sheet.loss.resize(length, 0)), (3, 0));
        }
    }
}

/// Numbers 7 and 8 in packing, at the smallest of several places.
#[test]
fn numbers_7_and_8() {
    for (vertices, edges) in [(1, 1), (64, 65), (130, 70), (1024, 4096)] {
        for byte in [2, 3, 128, 129, 254, 255] {
            for part in [0, 1, 2, 3] {
                let (vertex, edge) = ((vertices - 1) * part / 3, (edges - 1) * part / 3);
                let mut pack = Packing::new(&vec![1; vertices], &vec![1; edges]);
                pack.loss[edge] = byte;
                assert_eq!(refused(pack.call()), (8, edge as u64));
                pack.loss[edges - 1] = byte;
                assert_eq!(refused(pack.call()), (8, edge as u64), "the smallest");
                pack.syndrome[vertex] = byte;
                assert_eq!(refused(pack.call()), (7, vertex as u64), "7 before 8");
                pack.syndrome[vertices - 1] = byte;
                assert_eq!(refused(pack.call()), (7, vertex as u64), "the smallest");
            }
        }
    }
}

/// The bits of the last word of so many items that are past the last of them.
fn past(items: usize) -> impl Iterator<Item = usize> {
    items..64 * words_of(items)
}

/// The words of a set of so many items, all or none of them, with this bit set too.
fn words_with(items: usize, all: bool, bit: usize) -> Vec<u64> {
    let mut words = packed(&vec![u8::from(all); items]);
    words[bit / 64] |= 1 << (bit % 64);
    words
}

/// Number 19 for every bit past the last vertex, of every vertex count.
#[test]
fn number_19_of_the_lit() {
    let mut bits = 0;
    for vertices in 1..=1024 {
        for bit in past(vertices) {
            let words = words_with(vertices, bit % 2 == 0, bit);
            let last = (19, vertices as u64 / 64);
            assert_eq!(refused(lit_total(vertices, &words)), last, "{vertices}, bit {bit}");
            assert_eq!(refused(Listing::new(vertices, &words).call()), last, "bit {bit}");
            bits += 1;
        }
    }
    assert_eq!(bits, 16 * (63 * 64 / 2));
}

/// Number 19 in unpacking for every bit past the last vertex or edge. The place is the word in its own
/// sheet, and the syndrome comes first, whichever place is smaller.
#[test]
fn number_19_in_unpacking() {
    for (vertices, edges) in [(1, 1), (63, 65), (65, 63), (130, 70), (1000, 4033), (1023, 4095)] {
        let places = [(19, vertices as u64 / 64), (19, edges as u64 / 64)];
        for all in [false, true] {
            let loss = words_with(edges, all, edges);
            for bit in past(vertices) {
                let syndrome_words = words_with(vertices, all, bit);
                let unpack = Unpacking { syndrome_words, ..Unpacking::blank(vertices, edges) };
                assert_eq!(refused(unpack.call()), places[0], "bit {bit}");
                let both = Unpacking { loss_words: loss.clone(), ..unpack };
                assert_eq!(refused(both.call()), places[0], "the syndrome first");
            }
            for bit in past(edges) {
                let loss_words = words_with(edges, all, bit);
                let unpack = Unpacking { loss_words, ..Unpacking::blank(vertices, edges) };
                assert_eq!(refused(unpack.call()), places[1], "bit {bit}");
            }
        }
    }
}

/// The same in decoding.
#[test]
fn number_19_in_decoding() {
    for (vertices, edges) in [(2, 1), (65, 63), (66, 65), (130, 70), (1000, 999), (1023, 1)] {
        let right = blank_path(vertices, edges);
        let places = [(19, vertices as u64 / 64), (19, edges as u64 / 64)];
        let loss = words_with(edges, false, edges);
        for bit in past(vertices) {
            let sheet = PackedSheet { syndrome: words_with(vertices, false, bit), ..right.clone() };
            assert_eq!(refused(decode_packed(&sheet)), places[0], "bit {bit}");
            let both = PackedSheet { loss: loss.clone(), ..sheet };
            assert_eq!(refused(decode_packed(&both)), places[0], "the syndrome first");
        }
        for bit in past(edges) {
            let sheet = PackedSheet { loss: words_with(edges, true, bit), ..right.clone() };
            assert_eq!(refused(decode_packed(&sheet)), places[1], "bit {bit}");
        }
    }
}
