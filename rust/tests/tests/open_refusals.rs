//! Document 02, K5: numbers 16 and 17 at every vertex, at their limits, and in their order beside other
//! broken rules. Number 18 is the planar builder's.

use reference::board::{Board, Sheet};
use reference::generators::{path, sheet_of_bytes};
use table_tests::agrees;
use table_tests::refused::{blank, board_refused, judged, none_refuses, refused, sheet_refused};

/// 16 in all calls that are lent a board, at every vertex and at the smallest of several.
#[test]
fn number_16() {
    for place in 0..6 {
        for byte in [2, 3, 255] {
            let mut sheet = blank(path(6));
            sheet.board.open[place] = 1;
            none_refuses(&sheet);
            sheet.board.open[place] = byte;
            assert_eq!(board_refused(&sheet), (16, place as u64));
            sheet.board.open[5] = 2;
            assert_eq!(board_refused(&sheet), (16, place as u64), "the smallest place");
        }
    }
    let mut limit = blank(Board::new(1024, &[]));
    limit.board.open[1023] = 2;
    assert_eq!(board_refused(&limit), (16, 1023));
}

/// 17 in all calls that are lent a board with its syndrome, at every vertex and at the smallest of
/// several.
#[test]
fn number_17() {
    for place in 0..6 {
        let mut sheet = blank(path(6));
        sheet.syndrome[place] = 1;
        assert_eq!(refused(agrees::decode(&sheet)), (10, 0), "lit, and nothing open");
        sheet.board.open[(place + 1) % 6] = 1;
        none_refuses(&sheet);
        sheet.board.open[place] = 1;
        assert_eq!(sheet_refused(&sheet), (17, place as u64));
        agrees::distance(&sheet.board).expect("no syndrome is lent");
        sheet.syndrome.fill(1);
        sheet.board.open[5] = 1;
        let first = if place == 5 { 0 } else { place };
        assert_eq!(sheet_refused(&sheet), (17, first as u64), "the smallest place");
    }
    let mut limit = blank(Board::new(1024, &[]));
    (limit.syndrome[1023], limit.board.open[1023]) = (1, 1);
    assert_eq!(sheet_refused(&limit), (17, 1023));
}

/// The open bytes are tested after 7, 8 and 9, and 16 before 17 wherever each is; both before 10.
#[test]
fn numbers_16_and_17_in_their_order() {
    let mut sheet = Sheet::new(path(4).with_open(&[0]), &[0, 3], &[]);
    (sheet.board.open[3], sheet.syndrome[2], sheet.loss[2]) = (2, 2, 2);
    assert_eq!(sheet_refused(&sheet), (7, 2));
    assert_eq!(judged(&sheet, &[0, 2, 0]), (7, 2));
    sheet.syndrome[2] = 1;
    assert_eq!(sheet_refused(&sheet), (8, 2));
    assert_eq!(judged(&sheet, &[0, 2, 0]), (8, 2));
    sheet.loss[2] = 0;
    assert_eq!(judged(&sheet, &[0, 2, 0]), (9, 1), "9 comes before 16");
    assert_eq!(board_refused(&sheet), (16, 3), "16 comes before 17, though at a larger vertex");
    assert_eq!(refused(agrees::write_with(&sheet, 0)), (16, 3), "16 comes before 14");
    sheet.board.open[3] = 0;
    assert_eq!(judged(&sheet, &[0, 2, 0]), (9, 1), "9 comes before 17");
    assert_eq!(sheet_refused(&sheet), (17, 0));
    assert_eq!(refused(agrees::write_with(&sheet, 0)), (17, 0), "17 comes before 14");
    let odd = Board::new(5, &[(0, 1, 0), (2, 3, 0)]).with_open(&[4]);
    let mut odd = Sheet::new(odd, &[1, 4], &[]);
    assert_eq!(sheet_refused(&odd), (17, 4), "17 comes before 10, though at a larger vertex");
    odd.board.open[4] = 2;
    assert_eq!(sheet_refused(&odd), (16, 4), "16 comes before 10");
    odd.board.open[4] = 0;
    assert_eq!(refused(agrees::decode(&odd)), (10, 0));
}

/// Before 12 too: the text would be too long, and the board has a fault.
#[test]
fn open_bytes_before_the_length_of_the_text() {
    let mut larger = sheet_of_bytes(65_537);
    assert_eq!(refused(agrees::write(&larger)), (12, 0));
    (larger.board.open[7], larger.syndrome[7]) = (1, 1);
    assert_eq!(refused(agrees::write(&larger)), (17, 7));
    larger.board.open[9] = 2;
    assert_eq!(refused(agrees::write(&larger)), (16, 9));
}
