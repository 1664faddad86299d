//! Document 01, "Text": which line is the first malformed one, and that reading undoes writing.

use reference::board::{EDGE_LIMIT, Sheet};
use reference::generators::{Kind, crowd, open_board, sheet};
use reference::refusal::Refusal;
use reference::text::{TEXT_LIMIT, read, write, write_into};
use reference::{Random, generators, line_numbers};

fn refused(text: &str) -> (u8, u64) {
    let Refusal { number, place } = read(text.as_bytes()).expect_err(text);
    (number, place)
}

#[test]
fn first_malformed_line() {
    let texts = [
        ("", 1),
        ("\n", 1),
        ("V\t4", 1),
        ("V\t0\n", 1),
        ("V\t1025\n", 1),
        ("V\t04\n", 1),
        ("V\t+4\n", 1),
        ("V\t4\t\n", 1),
        ("V 4\n", 1),
        ("V\t4\r\n", 1),
        ("V\t\n", 1),
        ("V\n", 1),
        ("v\t4\n", 1),
        ("E\t0\t1\t0\n", 1),
        ("V\t4\nV\t4\n", 2),
        ("V\t4\n\n", 2),
        ("V\t4\nE\t0\t4\t0\n", 2),
        ("V\t4\nE\t4\t4\t0\n", 2),
        ("V\t4\nE\t0\t0\t4\n", 2),
        ("V\t4\nE\t0\t0\n", 2),
        ("V\t4\nE\t0\t1\t4\n", 2),
        ("V\t4\nE\t0\t1\n", 2),
        ("V\t4\nE\t0\t1\t0\t0\n", 2),
        ("V\t4\nO\t4\n", 2),
        ("V\t4\nO\n", 2),
        ("V\t4\nO\t0\t1\n", 2),
        ("V\t4\nO\t1\nO\t1\n", 3),
        ("V\t4\nO\t1\nO\t0\n", 3),
        ("V\t4\nO\t1\nE\t0\t1\t0\n", 3),
        ("V\t4\nS\t1\nO\t2\n", 3),
        ("V\t4\nE\t0\t1\t0\nX\t0\nO\t2\n", 4),
        ("V\t4\nO\t1\nS\t1\n", 3),
        ("V\t4\nO\t1\nO\t3\nS\t0\nS\t3\n", 5),
        ("O\t0\nV\t4\n", 1),
        ("V\t4\nS\t4\n", 2),
        ("V\t4\nS\t1\nS\t1\n", 3),
        ("V\t4\nS\t1\nS\t0\n", 3),
        ("V\t4\nS\t1\nE\t0\t1\t0\n", 3),
        ("V\t4\nX\t0\n", 2),
        ("V\t4\nE\t0\t1\t0\nX\t0\nX\t0\n", 4),
        ("V\t4\nE\t0\t1\t0\nX\t0\nS\t0\n", 4),
        ("V\t4\nE\t0\t1\t0\nX\t0", 3),
        ("V\t4\nE\t0\t1\t0\nX\t65536\n", 3),
    ];
    for (text, line) in texts {
        assert_eq!(refused(text), (13, line), "{text:?}");
        let found = line_numbers::first_malformed_line(text.as_bytes());
        assert_eq!(found, Some(line as usize), "{text:?}");
    }
}

#[test]
fn well_formed() {
    let texts = [
        "V\t1\n",
        "V\t1024\n",
        "V\t2\nE\t0\t1\t3\nE\t0\t1\t3\nS\t0\nS\t1\nX\t0\nX\t1\n",
        "V\t1\nE\t0\t0\t1\nE\t0\t0\t2\n",
        "V\t4\nE\t3\t3\t0\nE\t1\t0\t3\nE\t3\t3\t0\nS\t3\nX\t0\nX\t2\n",
        "V\t1\nO\t0\n",
        "V\t4\nO\t0\nO\t1\nO\t2\nO\t3\n",
        "V\t4\nE\t0\t1\t0\nO\t1\nO\t3\nS\t0\nS\t2\nX\t0\n",
    ];
    for text in texts {
        let sheet = read(text.as_bytes()).expect(text);
        assert_eq!(write(&sheet), text.as_bytes());
        assert_eq!(line_numbers::first_malformed_line(text.as_bytes()), None);
    }
}

#[test]
fn edge_limit() {
    for line in ["E\t0\t1\t0\n", "E\t1\t1\t0\n"] {
        let lines = |count| "V\t2\n".to_string() + &line.repeat(count);
        assert!(read(lines(EDGE_LIMIT).as_bytes()).is_ok());
        assert_eq!(refused(&lines(EDGE_LIMIT + 1)), (13, EDGE_LIMIT as u64 + 2));
    }
}

#[test]
fn text_limit() {
    assert_eq!(refused(&"\n".repeat(TEXT_LIMIT)), (13, 1));
    assert_eq!(refused(&"\n".repeat(TEXT_LIMIT + 1)), (12, 0));
    let board = crowd(&mut Random::new(1), 1024, EDGE_LIMIT);
    let all_lost = Sheet::new(board, &[], &(0..EDGE_LIMIT).collect::<Vec<_>>());
    assert!(write(&all_lost).len() > TEXT_LIMIT);
    let refusal = Refusal { number: 12, place: 0 };
    assert_eq!(write_into(&all_lost, 0), Err(refusal));
}

#[test]
fn buffer_limit() {
    let sheet = Sheet::new(generators::path(3), &[0, 2], &[1]);
    let text = write(&sheet);
    let refusal = Refusal { number: 14, place: 0 };
    assert_eq!(write_into(&sheet, text.len() - 1), Err(refusal));
    assert_eq!(write_into(&sheet, text.len()), Ok(text));
}

#[test]
fn reading_undoes_writing() {
    let mut random = Random::new(2);
    for round in 0..2000 {
        let board = Kind::ALL[round % Kind::ALL.len()].board(&mut random);
        let sheet = sheet(&mut random, board);
        assert_eq!(read(&write(&sheet)), Ok(sheet));
    }
    for _ in 0..2000 {
        let board = open_board(&mut random);
        let sheet = generators::sheet(&mut random, board);
        assert_eq!(read(&write(&sheet)), Ok(sheet));
    }
}
