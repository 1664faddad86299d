//! The place of number 13: the number of the first malformed line, wherever it stands and whatever
//! is wrong with it.
//!
//! `agrees::read` holds each place against both plain ways to find it. Here most are written down.

use std::ops::RangeInclusive;

use reference::board::{Board, EDGE_LIMIT, Sheet, VERTEX_LIMIT};
use reference::generators::{Kind, crowd, opened, sheet};
use reference::text::TEXT_LIMIT;
use reference::{Random, damage};
use table::Refusal;
use table_tests::agrees;

/// The lines of a text with every kind of line, one of them of a loop edge.
const LINES: [&str; 14] = [
    "V\t12",
    "E\t0\t11\t0",
    "E\t10\t2\t3",
    "E\t2\t10\t3",
    "E\t7\t7\t1",
    "E\t9\t0\t2",
    "O\t3",
    "O\t9",
    "S\t0",
    "S\t7",
    "S\t10",
    "X\t1",
    "X\t2",
    "X\t4",
];

/// Another line in the place of one.
type Change = fn(&str) -> String;

/// What makes a line of any kind malformed.
const BREAKS: [(&str, Change); 18] = [
    ("another letter", |line| line.replacen(['V', 'E', 'O', 'S', 'X'], "C", 1)),
    ("a small letter", str::to_lowercase),
    ("no letter", |line| line[1..].to_string()),
    ("the letter alone", |line| line[..1].to_string()),
    ("a missing tab", |line| line.replacen('\t', "", 1)),
    ("a blank for a tab", |line| line.replacen('\t', " ", 1)),
    ("two tabs for one", |line| line.replacen('\t', "\t\t", 1)),
    ("a leading zero", |line| line.replacen('\t', "\t0", 1)),
    ("a sign", |line| line.replacen('\t', "\t+", 1)),
    ("a field too many", |line| format!("{line}\t0")),
    ("a field missing", |line| line[..line.rfind('\t').unwrap()].to_string()),
    ("an empty field", |line| line[..=line.rfind('\t').unwrap()].to_string()),
    ("a tab at the end", |line| format!("{line}\t")),
    ("a number above its range", |line| format!("{line}99999")),
    ("a blank at the end", |line| format!("{line} ")),
    ("a carriage return", |line| format!("{line}\r")),
    ("an empty line", |_| String::new()),
    ("an empty line before it", |line| format!("\n{line}")),
];

/// Lines that read by themselves: the number of the line that one replaces, and that of the first
/// malformed line then, which is this one or the next.
const MISPLACED: [(usize, &str, usize); 51] = [
    (1, "E\t0\t1\t0", 1),
    (1, "O\t0", 1),
    (1, "S\t0", 1),
    (1, "X\t0", 1),
    (1, "V\t0", 1),
    (1, "V\t1025", 1),
    (1, "V\t11", 2),
    (2, "V\t12", 2),
    (5, "V\t12", 5),
    (7, "V\t12", 7),
    (10, "V\t12", 10),
    (14, "V\t12", 14),
    (4, "E\t12\t12\t3", 4),
    (4, "E\t2\t2\t4", 4),
    (4, "E\t12\t10\t3", 4),
    (4, "E\t2\t12\t3", 4),
    (4, "E\t2\t10\t4", 4),
    (2, "O\t0", 3),
    (6, "O\t2", 14),
    (6, "O\t3", 7),
    (7, "O\t9", 8),
    (7, "O\t0", 9),
    (7, "O\t12", 7),
    (8, "O\t3", 8),
    (8, "O\t2", 8),
    (8, "O\t12", 8),
    (8, "O\t7", 10),
    (8, "O\t10", 11),
    (8, "E\t0\t1\t0", 8),
    (8, "X\t0", 9),
    (9, "O\t10", 11),
    (10, "O\t11", 10),
    (12, "O\t11", 12),
    (2, "S\t0", 3),
    (4, "S\t0", 5),
    (4, "X\t1", 5),
    (7, "S\t3", 8),
    (9, "S\t3", 9),
    (10, "S\t9", 10),
    (10, "S\t0", 10),
    (10, "S\t12", 10),
    (11, "S\t6", 11),
    (10, "S\t10", 11),
    (10, "S\t11", 11),
    (10, "X\t0", 11),
    (11, "X\t1", 12),
    (13, "X\t1", 13),
    (13, "X\t0", 13),
    (13, "X\t5", 13),
    (13, "X\t4", 14),
    (14, "S\t11", 14),
];

/// Reads the text and gives the number of its first malformed line.
fn malformed_line(text: &[u8]) -> usize {
    match agrees::read(text) {
        Err(Refusal::MalformedLine(line)) => line,
        answer => panic!("{answer:?}: {:?}", String::from_utf8_lossy(text)),
    }
}

/// The text of these lines.
fn text_of(lines: &[impl AsRef<str>]) -> Vec<u8> {
    lines.iter().flat_map(|line| [line.as_ref(), "\n"]).collect::<String>().into_bytes()
}

/// The text with the line of this number replaced.
fn replaced(lines: &[&str], number: usize, by: &str) -> Vec<u8> {
    let mut lines = lines.to_vec();
    lines[number - 1] = by;
    text_of(&lines)
}

/// A text as the library writes it, with so many lines of each kind after the first and with the
/// shortest lines that there are.
fn written(edges: usize, lit: usize, lost: usize) -> Vec<u8> {
    let board = Board::new(lit.max(2), &vec![(0, 1, 0); edges]);
    let [lit, lost] = [lit, lost].map(|count| (0..count).collect::<Vec<_>>());
    agrees::write(&Sheet::new(board, &lit, &lost)).expect("a text within the limit")
}

#[test]
fn empty_text_and_empty_lines() {
    for newlines in [0, 1, 2, 3, 100, TEXT_LIMIT] {
        assert_eq!(malformed_line(&b"\n".repeat(newlines)), 1);
    }
    for good in 1..=LINES.len() {
        for newlines in [1, 2, 3, 100] {
            let text = [text_of(&LINES[..good]), b"\n".repeat(newlines)].concat();
            assert_eq!(malformed_line(&text), good + 1);
        }
    }
}

/// What follows a malformed line changes nothing: the good lines, nothing, or malformed ones.
#[test]
fn each_break_at_each_line() {
    for number in 1..=LINES.len() {
        for (what, broken) in BREAKS {
            let text = replaced(&LINES, number, &broken(LINES[number - 1]));
            assert_eq!(malformed_line(&text), number, "{what}");
            let mut lines = LINES.map(str::to_string);
            for line in &mut lines[number - 1..] {
                *line = broken(line);
            }
            assert_eq!(malformed_line(&text_of(&lines)), number, "{what}, more follow");
            assert_eq!(malformed_line(&text_of(&lines[..number])), number, "{what}, none follow");
        }
    }
}

#[test]
fn last_line_without_its_newline() {
    for number in 1..=LINES.len() {
        let before = text_of(&LINES[..number - 1]);
        let line = LINES[number - 1].as_bytes();
        for length in 1..=line.len() {
            assert_eq!(malformed_line(&[&before, &line[..length]].concat()), number);
        }
        let whole = [&before, line, b"\n"].concat();
        agrees::read(&whole).expect("a text up to the end of a line");
    }
}

#[test]
fn ranges_and_order() {
    for (number, line, malformed) in MISPLACED {
        assert_eq!(malformed_line(&replaced(&LINES, number, line)), malformed, "{line:?}");
    }
}

#[test]
fn far_lines() {
    let text = String::from_utf8(written(EDGE_LIMIT, 40, 60)).expect("letters and digits");
    let lines: Vec<&str> = text.lines().collect();
    let last = 1 + EDGE_LIMIT + 40 + 60;
    assert_eq!(lines.len(), last);
    for number in [1, 2, 255, 256, 257, 2049, 4096, 4097, 4098, 4137, 4138, last - 1, last] {
        for (what, broken) in BREAKS {
            let text = replaced(&lines, number, &broken(lines[number - 1]));
            assert_eq!(malformed_line(&text), number, "{what}");
        }
        let cut = text_of(&lines[..number]);
        assert_eq!(malformed_line(&cut[..cut.len() - 1]), number);
    }
}

#[test]
fn one_edge_too_many() {
    let full = written(EDGE_LIMIT, 0, 0);
    let lines = |count| b"E\t1\t0\t3\n".repeat(count);
    for further in [1, 2, 1000, 4095] {
        assert_eq!(malformed_line(&[full.clone(), lines(further)].concat()), EDGE_LIMIT + 2);
    }
    for rest in ["S\t0\n", "S\t1\nX\t4095\n", "E", "\n"] {
        let text = [full.clone(), lines(1), rest.into()].concat();
        assert_eq!(malformed_line(&text), EDGE_LIMIT + 2, "{rest:?}");
    }
    for (rest, line) in [("S\t0\nE\t1\t0\t3\n", 3), ("X\t4095\nE\t1\t0\t3\n", 3), ("X\t4096\n", 2)]
    {
        let text = [&full, rest.as_bytes()].concat();
        assert_eq!(malformed_line(&text), EDGE_LIMIT + line, "{rest:?}");
    }
}

#[test]
fn long_lines() {
    for good in [0, 1, 6, 8, 11, 14] {
        let before = text_of(&LINES[..good]);
        for byte in *b"0 7\tE\r" {
            let line = vec![byte; TEXT_LIMIT - before.len() - 1];
            for end in [b"\n", b"\t"] {
                assert_eq!(malformed_line(&[&before, &line[..], end].concat()), good + 1);
            }
        }
    }
}

/// The counts of edges, lit vertices and lost edges of the most lines that are a text together and
/// leave room for one byte more. The shortest edge has 8 bytes, and numbers that rise are the
/// shortest where none is left out. An open vertex is not lit, and its line is as long, so that open
/// vertices give no more lines.
fn most_lines() -> [usize; 3] {
    let digits = |number: usize| number.to_string().len();
    let mut rising = vec![0];
    for number in 0..EDGE_LIMIT {
        rising.push(rising[number] + 3 + digits(number));
    }
    let mut most = [0; 3];
    for lit in 0..=VERTEX_LIMIT {
        let first = 3 + digits(lit.max(2));
        for edges in 0..=EDGE_LIMIT {
            let room = TEXT_LIMIT - 1 - (first + 8 * edges + rising[lit]);
            let lost = rising[..=edges].partition_point(|&bytes| bytes <= room) - 1;
            if edges + lit + lost > most.iter().sum() {
                most = [edges, lit, lost];
            }
        }
    }
    most
}

#[test]
fn largest_line_number() {
    let [edges, lit, lost] = most_lines();
    let good = written(edges, lit, lost);
    let last = 1 + edges + lit + lost + 1;
    println!("line {last} after {edges} edges, {lit} lit vertices and {lost} lost edges");
    assert_eq!(last, 9103);
    let room = TEXT_LIMIT - good.len();
    for length in 1..=room {
        for end in [b"\n", b"V"] {
            let line = [&b"X".repeat(length - 1)[..], end].concat();
            assert_eq!(malformed_line(&[&good, &line[..]].concat()), last);
        }
    }
    let longer = [good, b"\n".repeat(room + 1)].concat();
    assert_eq!(agrees::read(&longer), Err(Refusal::TextLength));
}

#[test]
fn random_texts_damaged() {
    let mut random = Random::new(113);
    let (mut read, mut places) = (0, Vec::new());
    for round in 0..4000 {
        let board = match round % 20 {
            0 => crowd(&mut random, VERTEX_LIMIT, 2500),
            kind => Kind::ALL[kind % Kind::ALL.len()].board(&mut random),
        };
        let board = if round % 3 == 0 { opened(&mut random, board) } else { board };
        let sheet = sheet(&mut random, board);
        let text = agrees::write(&sheet).expect("a text within the limit");
        let damage = [damage::anywhere, damage::any_line][round / 20 % 2];
        match agrees::read(&damage(&mut random, &text)) {
            Ok(_) => read += 1,
            Err(refusal) => places.push(refusal.place()),
        }
    }
    let among =
        |lines: RangeInclusive<u64>| places.iter().filter(|&place| lines.contains(place)).count();
    let seen = [read, among(1..=1), among(10..=99), among(1000..=9999)];
    println!("read, malformed in line 1, in 10 to 99, in 1000 and beyond: {seen:?}");
    let enough = seen.iter().zip([300, 100, 300, 30]).all(|(&count, least)| count > least);
    assert!(enough, "{seen:?}");
}
