//! Document 02, K7: words by hand, and what the calls of packed sheets refuse.

use reference::board::{Board, Sheet, members, set_of};
use reference::generators::{ring, sheet};
use reference::packed::{
    PackedSheet, decode_packed_into, list_lit_into, lit_total, pack_into, unpack_into, words_of,
};
use reference::{Key, Random, Refusal, decode};

fn refused<T: std::fmt::Debug>(answer: Result<T, Refusal>) -> (u8, u64) {
    let Refusal { number, place } = answer.expect_err("a refusal");
    (number, place)
}

#[test]
fn words_by_hand() {
    for (items, words) in
        [(0, 0), (1, 1), (63, 1), (64, 1), (65, 2), (128, 2), (129, 3), (1024, 16), (4096, 64)]
    {
        assert_eq!(words_of(items), words, "{items}");
    }
    let lit = set_of(130, &[0, 1, 63, 64, 127, 129]);
    let lost = set_of(64, &[4, 63]);
    let words = (vec![0x8000_0000_0000_0003, 0x8000_0000_0000_0001, 2], vec![1 << 63 | 16]);
    assert_eq!(pack_into((130, 64), &lit, &lost, (3, 1)), Ok(words.clone()));
    let bytes = unpack_into((130, 64), &words.0, &words.1, (130, 64));
    assert_eq!(bytes, Ok((lit.clone(), lost)));
    assert_eq!(lit_total(130, &words.0), Ok(6));
    assert_eq!(list_lit_into(130, &words.0, 130), Ok(vec![0, 1, 63, 64, 127, 129]));
    assert_eq!(pack_into((1, 0), &[1], &[], (1, 0)), Ok((vec![1], vec![])));
    assert_eq!(unpack_into((1, 0), &[1], &[], (1, 0)), Ok((vec![1], vec![])));
}

/// Packing and unpacking undo each other, and the list has the lit vertices.
#[test]
fn random_items() {
    let mut random = Random::new(64);
    for _ in 0..300 {
        let counts @ (vertices, edges) = (random.from_to(1, 300), random.from_to(0, 300));
        let (lit, lost) = (random.set(vertices, 300), random.set(edges, 300));
        let lengths = (words_of(vertices), words_of(edges));
        let (words, loss) = pack_into(counts, &lit, &lost, lengths).expect("words");
        for (item, &byte) in lit.iter().enumerate() {
            assert_eq!((words[item / 64] >> (item % 64)) % 2, byte.into(), "vertex {item}");
        }
        let bytes = unpack_into(counts, &words, &loss, counts).expect("bytes");
        assert_eq!(bytes, (lit.clone(), lost));
        let list: Vec<u16> = members(&lit).map(|vertex| vertex as u16).collect();
        assert_eq!(lit_total(vertices, &words), Ok(list.len()));
        assert_eq!(list_lit_into(vertices, &words, vertices), Ok(list));
    }
}

#[test]
fn keys_by_hand() {
    let sheet = Sheet::new(ring(), &[0, 3], &[]);
    let packed = PackedSheet::new(&sheet);
    assert_eq!((&packed.syndrome, &packed.loss), (&vec![9], &vec![0]));
    let key = Key { growths: 2, support: vec![2, 0, 0, 2], correction: vec![0, 0, 0, 1] };
    assert_eq!(decode_packed_into(&packed, 4, 4), Ok(key));
    let lost = PackedSheet { loss: vec![7], ..packed };
    let key = Key { growths: 0, support: vec![2, 2, 2, 0], correction: vec![1, 1, 1, 0] };
    assert_eq!(decode_packed_into(&lost, 4, 4), Ok(key));
}

#[test]
fn keys_of_plain_sheets() {
    let mut random = Random::new(65);
    for _ in 0..500 {
        let board = reference::generators::open_board(&mut random);
        let sheet = sheet(&mut random, board);
        let edges = sheet.board.edges();
        let packed = PackedSheet::new(&sheet);
        assert_eq!(decode_packed_into(&packed, edges, edges), decode(&sheet), "{sheet:?}");
    }
}

/// 1, 2, 3, then 7 and 8, or 19, of the syndrome before the losses.
#[test]
fn refusals_of_counts_and_words() {
    let (lit, lost) = (vec![2; 65], vec![2; 130]);
    assert_eq!(refused(pack_into((0, 4097), &lit, &lost, (2, 2))), (1, 0));
    assert_eq!(refused(pack_into((1025, 130), &lit, &lost, (2, 3))), (1, 0));
    assert_eq!(refused(pack_into((65, 4097), &lit, &lost, (2, 3))), (2, 0));
    assert_eq!(refused(pack_into((65, 130), &lit, &lost, (2, 2))), (3, 0));
    assert_eq!(refused(pack_into((65, 130), &lit, &lost, (1, 3))), (3, 0));
    assert_eq!(refused(pack_into((65, 130), &lit, &lost, (2, 3))), (7, 0));
    assert_eq!(refused(pack_into((65, 130), &[1; 65], &lost, (2, 3))), (8, 0));
    let words = [u64::MAX; 3];
    let unpack = |counts, syndrome: &[u64], bytes| unpack_into(counts, syndrome, &words, bytes);
    assert_eq!(refused(unpack((usize::MAX, 4097), &words, (65, 130))), (1, 0));
    assert_eq!(refused(unpack((65, usize::MAX), &words, (65, 130))), (2, 0));
    assert_eq!(refused(unpack((65, 130), &words, (65, 130))), (3, 0));
    assert_eq!(refused(unpack((65, 130), &words[..2], (65, 131))), (3, 0));
    assert_eq!(refused(unpack((65, 130), &words[..2], (65, 130))), (19, 1));
    assert_eq!(refused(unpack((65, 130), &[u64::MAX, 1], (65, 130))), (19, 2));
    assert_eq!(refused(lit_total(0, &words)), (1, 0));
    assert_eq!(refused(lit_total(128, &words)), (3, 0));
    assert_eq!(refused(lit_total(129, &words)), (19, 2));
    assert_eq!(lit_total(192, &words), Ok(192));
    assert_eq!(refused(list_lit_into(1025, &words, 192)), (1, 0));
    assert_eq!(refused(list_lit_into(191, &words, 192)), (3, 0));
    assert_eq!(refused(list_lit_into(191, &words, 191)), (19, 2));
}

/// 19 after 4 and 6, and before 16, 17 and 10.
#[test]
fn refusals_of_a_packed_sheet() {
    let board = Board { open: vec![1, 2, 0], ..Board::new(3, &[(0, 3, 4)]) };
    let mut sheet = PackedSheet { board, syndrome: vec![0b1101], loss: vec![0b10] };
    let refusal = |sheet: &PackedSheet| refused(decode_packed_into(sheet, 1, 1));
    assert_eq!(refused(decode_packed_into(&sheet, 1, 2)), (3, 0));
    assert_eq!(refusal(&sheet), (4, 0));
    sheet.board.ends[1] = 1;
    assert_eq!(refusal(&sheet), (6, 0));
    sheet.board.marks[0] = 3;
    assert_eq!(refusal(&sheet), (19, 0));
    sheet.syndrome[0] = 0b101;
    assert_eq!(refusal(&sheet), (19, 0), "the losses");
    sheet.loss[0] = 0b1;
    assert_eq!(refusal(&sheet), (16, 1));
    sheet.board.open[1] = 1;
    assert_eq!(refusal(&sheet), (17, 0));
    sheet.board.open[0] = 0;
    assert_eq!(refusal(&sheet), (10, 2));
    sheet.syndrome[0] = 0b1;
    assert!(decode_packed_into(&sheet, 1, 1).is_ok());
    sheet.syndrome.push(0);
    assert_eq!(refusal(&sheet), (3, 0));
}
