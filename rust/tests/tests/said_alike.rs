//! The C header, the page of rules and the Rust crate say the same: limits, numbers, and a sentence
//! for each number. The numbers are those of the Rattle source.

use table::{EDGES, GAME_EDGES, LOSS_WORDS, Refusal, SYNDROME_WORDS, TEXT, TRAP_EDGES, VERTICES};

const HEADER: &str = include_str!("../../../include/surface_table.h");
const RULES: &str = include_str!("../../../docs/RULES.md");
const SOURCE: &str = include_str!("../../../crates/model/src/refusal.rt");

/// Every refusal, in the order of the numbers, at place 7 where it has a place. None has number 5.
const REFUSALS: [Refusal; 22] = [
    Refusal::VertexCount,
    Refusal::EndCount,
    Refusal::BufferLength,
    Refusal::EndRange(7),
    Refusal::MarkRange(7),
    Refusal::SyndromeByte(7),
    Refusal::LossByte(7),
    Refusal::HandedByte(7),
    Refusal::NoCorrection(7),
    Refusal::TorusSide(7),
    Refusal::TextLength,
    Refusal::MalformedLine(7),
    Refusal::TextBuffer,
    Refusal::RoundCount,
    Refusal::OpenByte(7),
    Refusal::LitOpen(7),
    Refusal::PlanarSide(7),
    Refusal::PastLast(7),
    Refusal::GameEdges,
    Refusal::PositionByte(7),
    Refusal::MoveCount,
    Refusal::TrapEdges,
];

/// The number that is not in use.
const UNUSED: &str = "5";

/// What a place can be.
const KINDS: [&str; 5] = ["vertex", "edge", "side", "line", "word"];

/// What the header has between `start`, with which a line begins, and the next of `ends`.
fn between(start: &str, ends: &[char]) -> Option<&'static str> {
    HEADER.lines().find_map(|line| line.trim().strip_prefix(start)?.split(ends).next())
}

/// The header's sentence for a name, on the line of its case or on the next one.
fn sentence_in_header(name: &str) -> Option<&'static str> {
    let (_, after) = HEADER.split_once(&format!("case {name}:"))?;
    after.trim_start().strip_prefix("return \"")?.split('"').next()
}

/// The name of a refusal's case.
fn case_of(refusal: Refusal) -> String {
    format!("{refusal:?}").split('(').next().unwrap_or_default().to_string()
}

/// The header's name for a refusal: `EndRange` is `SURFACE_REFUSED_END_RANGE` there.
fn name_of(refusal: Refusal) -> String {
    let mut name = String::from("SURFACE_REFUSED");
    for letter in case_of(refusal).chars() {
        if letter.is_uppercase() {
            name.push('_');
        }
        name.push(letter.to_ascii_uppercase());
    }
    name
}

/// What a refusal says wherever it is: the place's number is left out.
fn sentence_of(refusal: Refusal) -> String {
    KINDS.iter().fold(refusal.to_string(), |sentence, kind| {
        sentence.replace(&format!("{kind} 7"), &format!("the {kind}"))
    })
}

/// What a refusal's place is, or 0.
fn place_of(refusal: Refusal) -> &'static str {
    let sentence = refusal.to_string();
    KINDS.into_iter().find(|kind| sentence.contains(&format!("{kind} 7"))).unwrap_or("0")
}

#[test]
fn numbers_but_5() {
    let numbers: Vec<u8> = REFUSALS.iter().map(|refusal| refusal.number()).collect();
    assert_eq!(numbers, (1..=23).filter(|&number| number != 5).collect::<Vec<u8>>());
}

#[test]
fn limits() {
    for (name, limit) in [
        ("VERTICES", VERTICES),
        ("EDGES", EDGES),
        ("GAME_EDGES", GAME_EDGES),
        ("TRAP_EDGES", TRAP_EDGES),
        ("TEXT", TEXT),
    ] {
        let header = between(&format!("#define SURFACE_{name} "), &[' ']);
        assert_eq!(header, Some(limit.to_string().as_str()), "{name}");
    }
    for (name, words, items, limit) in [
        ("SYNDROME_WORDS", SYNDROME_WORDS, "VERTICES", VERTICES),
        ("LOSS_WORDS", LOSS_WORDS, "EDGES", EDGES),
    ] {
        let header = between(&format!("#define SURFACE_{name} "), &[]);
        assert_eq!(header, Some(format!("(SURFACE_{items} / 64)").as_str()), "{name}");
        assert_eq!(words, limit / 64, "{name}");
    }
}

/// The cases with their numbers, as the source's function `number` lists them.
#[test]
fn numbers_of_the_source() {
    let (number, _) = SOURCE.split_once("pub fn place").expect("`place` after `number`");
    let listed: Vec<&str> =
        number.lines().filter_map(|line| line.trim().strip_prefix("Refusal::")).collect();
    let cases = REFUSALS.map(|refusal| match refusal.place() {
        0 => format!("{} => {},", case_of(refusal), refusal.number()),
        _ => format!("{}(_) => {},", case_of(refusal), refusal.number()),
    });
    assert_eq!(listed, cases);
}

#[test]
fn numbers_and_sentences_of_the_header() {
    for refusal in REFUSALS {
        let name = name_of(refusal);
        let number = between(&format!("{name} = "), &[',', ' ']);
        assert_eq!(number, Some(refusal.number().to_string().as_str()), "{name}");
        assert_eq!(sentence_in_header(&name), Some(sentence_of(refusal).as_str()), "{name}");
    }
    let names = HEADER.lines().filter(|line| line.trim().starts_with("SURFACE_REFUSED_"));
    assert_eq!(names.count(), REFUSALS.len(), "the header has a name that no refusal has");
    let cases = HEADER.lines().filter(|line| line.trim().starts_with("case "));
    assert_eq!(cases.count(), 1 + REFUSALS.len(), "the header has a case that no refusal has");
}

/// Neither the header nor the page of rules gives number 5 a name, a sentence or a row; both say that it
/// is not in use.
#[test]
fn number_that_is_not_in_use() {
    let (_, listed) = HEADER.split_once("enum surface_refusal_number {").expect("the numbers");
    let (listed, _) = listed.split_once("};").expect("the end of the numbers");
    assert!(listed.contains(" = 4,") && !HEADER.contains("EQUAL_ENDS"), "the header knows 5");
    assert!(!listed.contains(&format!(" = {UNUSED},")), "the header lists {UNUSED}");
    assert!(!listed.contains(&format!(" = {UNUSED} ")), "the header ends with {UNUSED}");
    assert!(!HEADER.contains(&format!("case {UNUSED}:")), "the header knows {UNUSED}");
    let row = format!("| {UNUSED} |");
    assert!(!RULES.lines().any(|line| line.starts_with(&row)), "docs/RULES.md has {row}");
    for page in [HEADER, RULES] {
        assert!(page.contains(&format!("Number {UNUSED} is not in use.")));
    }
}

/// The tests of each call, in order, as the page of rules must list them: 16 and 17 come after 8 and 9
/// and before 10, 12 and 14, 19 in the place of 7 and 8, 20 to 23 after all of the board's own, and a side
/// and rounds before the lengths.
const TESTS: [(&str, &str); 17] = [
    ("decode", "1 2 3 4 6 7 8 16 17 10"),
    ("decode_rounds", "1 2 3 4 6 7 8 16 17 10"),
    ("decode_packed", "1 2 3 4 6 19 16 17 10"),
    ("verdict", "1 2 3 4 6 7 8 9 16 17 10"),
    ("faces", "11 3 7 8 9 10"),
    ("distance", "1 2 3 4 6 16"),
    ("torus", "11 3"),
    ("planar", "18 3"),
    ("stack", "11 15 3 7"),
    ("read", "3 12 13"),
    ("write", "1 2 3 4 6 7 8 16 17 12 14"),
    ("pack", "1 2 3 7 8"),
    ("unpack", "1 2 3 19"),
    ("lit_total", "1 3 19"),
    ("list_lit", "1 3 19"),
    ("game", "1 2 3 4 6 16 20 21 22"),
    ("trap", "1 2 3 4 6 8 16 23"),
];

#[test]
fn tests_of_each_call() {
    for (call, numbers) in TESTS {
        let row = RULES.lines().find(|line| line.starts_with(&format!("| {call} |")));
        let listed = row.and_then(|row| row.split('|').nth(4)).expect("the tests of a call");
        assert_eq!(listed.trim(), numbers, "{call}");
        assert!(numbers.split(' ').all(|number| number != UNUSED), "{call}: {numbers}");
    }
}

#[test]
fn rows_of_the_rules() {
    for refusal in REFUSALS {
        let (number, place) = (refusal.number(), place_of(refusal));
        let row = format!("| {number} | {place} | {} |", sentence_of(refusal));
        assert!(RULES.lines().any(|line| line == row), "docs/RULES.md has no row {row}");
    }
    let first_cell = |line: &'static str| line.strip_prefix("| ")?.split(" |").next();
    let rows = RULES.lines().filter_map(first_cell).filter(|cell| cell.parse::<u8>().is_ok());
    assert_eq!(rows.count(), REFUSALS.len(), "docs/RULES.md has a row that no refusal has");
}
