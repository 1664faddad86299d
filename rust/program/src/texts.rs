//! The texts that the program is run on.

use reference::board::{Board, Sheet};
use reference::generators::{
    Kind, any_syndrome, crowd, crowd_with_loops, late_smallest, open_board, opened, path, ring,
    sheet, sheet_of_bytes, star,
};
use reference::planar::planar;
use reference::torus::torus;
use reference::{Random, damage, text};

/// Texts of one kind.
pub struct Texts {
    pub what: &'static str,
    pub list: Vec<Vec<u8>>,
    /// How many bytes are written to the program at once.
    pub piece: usize,
}

const WHOLE: usize = usize::MAX;

pub fn all() -> Vec<Texts> {
    let mut random = Random::new(201);
    let small = text::write(&small());
    vec![
        Texts { what: "marked sheets", list: marked_sheets(), piece: WHOLE },
        Texts { what: "marked sheets, byte by byte", list: marked_sheets(), piece: 1 },
        Texts { what: "line ends, blanks and counts", list: by_hand(), piece: WHOLE },
        Texts { what: "at the limits and one past them", list: limits(), piece: WHOLE },
        Texts { what: "at the limits, in pieces", list: limits(), piece: 4099 },
        Texts { what: "large boards", list: large(&mut random), piece: WHOLE },
        Texts { what: "random boards", list: random_boards(&mut random), piece: WHOLE },
        Texts { what: "odd parts", list: odd_parts(&mut random), piece: WHOLE },
        Texts { what: "loop edges", list: loop_edges(&mut random), piece: WHOLE },
        Texts { what: "open sides", list: open_sides(&mut random), piece: WHOLE },
        Texts { what: "each byte damaged", list: damage::each_byte(&small), piece: WHOLE },
        Texts { what: "each line damaged", list: damage::each_line(&small), piece: WHOLE },
        Texts { what: "damaged anywhere", list: damaged(&mut random), piece: WHOLE },
    ]
}

/// A small sheet with every kind of line and a loop edge, which has a correction.
fn small() -> Sheet {
    let board = Board::new(11, &[(0, 10, 0), (10, 2, 3), (2, 2, 1), (2, 10, 0)]);
    Sheet::new(board.with_open(&[2, 9]), &[0, 10], &[1, 3])
}

fn marked_sheets() -> Vec<Vec<u8>> {
    let pair = Board::new(2, &[(0, 1, 0), (0, 1, 1)]);
    let point = Board::new(1, &[]);
    let sheets = [
        Sheet::new(ring(), &[0, 3], &[]),
        Sheet::new(ring(), &[0, 3], &[0, 1, 2]),
        Sheet::new(ring(), &[0, 3], &[0, 1, 2, 3]),
        Sheet::new(path(4), &[0, 3], &[]),
        Sheet::new(path(4), &[0, 1, 2], &[]),
        Sheet::new(torus(3), &[0, 1], &[]),
        Sheet::new(torus(3), &[0, 4], &[]),
        Sheet::new(pair, &[0, 1], &[]),
        Sheet::new(point.clone(), &[], &[]),
        Sheet::new(point, &[0], &[]),
    ];
    sheets.iter().map(text::write).collect()
}

fn by_hand() -> Vec<Vec<u8>> {
    let texts = [
        "",
        "\n",
        "\n\n",
        "V",
        "V\t4",
        "V\t4\n",
        "V\t4\r\n",
        "V\t4\t\n",
        "V\t4\n\n",
        "V\t4\n ",
        "V 4\n",
        " V\t4\n",
        "V\t\t4\n",
        "V\t04\n",
        "V\t0\n",
        "V\t1\n",
        "V\t1024\n",
        "V\t1025\n",
        "V\t65540\n",
        "V\t4294967300\n",
        "V\t18446744073709551620\n",
        "V\t4\nE\t0\t1\t0\r\n",
        "V\t4\nE\t0\t1\t0\t\n",
        "V\t4\nE\t0\t1\t0",
        "V\t4\n\nE\t0\t1\t0\n",
        "V\t4\nE\t0\t1\t0\nS\t0\nS\t1\nX\t0\n\n",
        "V\t4\nE\t0\t1\t0\nS\t0\nS\t1\nX\t0\t\n",
        "V\t4\nE\t0\t1\t0\nS\t0\nS\t1\nX\t0",
        "V\t4\nE\t0\t1\t4\n",
        "V\t4\nE\t0\t4\t0\n",
        "V\t4\nE\t1\t1\t0\n",
        "V\t4\nE\t4\t4\t0\n",
        "V\t4\nE\t1\t1\t4\n",
        "V\t4\nE\t1\t1\n",
        "V\t4\nE\t0\t65536\t0\n",
        "V\t4\nE\t0\t1\t256\n",
        "V\t4\nE\t0\t1\t0\nX\t1\n",
        "V\t4\nE\t0\t1\t0\nX\t0\nS\t0\n",
        "V\t4\nS\t0\nE\t0\t1\t0\n",
        "V\t4\nS\t1\nS\t0\n",
        "V\t4\nS\t1\nS\t1\n",
        "V\t4\nV\t4\n",
        "V\t4\nO\t0\n",
        "V\t4\nO\t3\nS\t3\n",
        "V\t4\nO\t4\n",
        "V\t4\nO\t1\nO\t1\n",
        "V\t4\nO\t1\nO\t0\n",
        "V\t4\nO\t0\nO\t1\nO\t2\nO\t3\n",
        "V\t4\nO\t00\n",
        "V\t4\nO\t0\t1\n",
        "V\t4\nO\n",
        "V\t4\nO\t0",
        "V\t4\nE\t0\t1\t1\nO\t1\nS\t0\n",
        "V\t4\nO\t1\nE\t0\t1\t1\nS\t0\n",
        "V\t4\nE\t0\t1\t1\nS\t0\nO\t1\n",
        "V\t4\nE\t0\t1\t1\nX\t0\nO\t1\n",
        "V\t4\nE\t0\t1\t1\nO\t0\nO\t1\nS\t1\n",
        "O\t0\nV\t4\n",
    ];
    texts.iter().map(|text| text.as_bytes().to_vec()).collect()
}

fn limits() -> Vec<Vec<u8>> {
    let edges = |count| [b"V\t2\n".to_vec(), b"E\t0\t1\t1\n".repeat(count)].concat();
    vec![
        text::write(&sheet_of_bytes(65_535)),
        text::write(&sheet_of_bytes(65_536)),
        text::write(&sheet_of_bytes(65_537)),
        b"\n".repeat(65_536),
        b"\n".repeat(65_537),
        b"\n".repeat(1_000_000),
        [edges(4096), b"S\t0\nS\t1\nX\t4095\n".to_vec()].concat(),
        edges(4097),
        edges(7000),
    ]
}

fn large(random: &mut Random) -> Vec<Vec<u8>> {
    let mut sheets = vec![
        Sheet::new(path(1024), &[0, 1023], &[]),
        Sheet::new(path(1024), &[0, 512, 1023], &[]),
        Sheet::new(star(1024), &[1, 1023], &[]),
        Sheet::new(star(1024), &(0..1024).collect::<Vec<_>>(), &[]),
        Sheet::new(Board::new(1024, &[]), &[1023], &[]),
    ];
    let crowds = [crowd(random, 1024, 4000), crowd_with_loops(random, 1024, 4000)];
    for board in [1, 2, 8, 16, 32].map(torus).into_iter().chain(crowds) {
        let error = random.set(board.edges(), 100);
        let loss = random.set(board.edges(), 10);
        let syndrome = board.syndrome(&error);
        sheets.push(Sheet { board, syndrome, loss });
    }
    sheets.iter().map(text::write).collect()
}

fn random_boards(random: &mut Random) -> Vec<Vec<u8>> {
    let mut texts = Vec::new();
    for round in 0..1800 {
        let board = Kind::ALL[round % Kind::ALL.len()].board(random);
        texts.push(text::write(&sheet(random, board)));
    }
    texts
}

/// Several parts, any of them odd, some of them joined so that their smallest vertex comes last.
fn odd_parts(random: &mut Random) -> Vec<Vec<u8>> {
    let mut texts = Vec::new();
    for round in 0..600 {
        let board = if round % 2 == 0 { late_smallest(random) } else { Kind::Parts.board(random) };
        texts.push(text::write(&any_syndrome(random, board)));
    }
    texts
}

/// Loop edges beside others and by themselves, lit vertices and lost edges among them; all are texts.
fn loop_edges(random: &mut Random) -> Vec<Vec<u8>> {
    let mut sheets = vec![
        Sheet::new(torus(1), &[], &[]),
        Sheet::new(torus(1), &[], &[0, 1]),
        Sheet::new(torus(1), &[0], &[1]),
        Sheet::new(Board::new(3, &[(2, 2, 0), (1, 1, 0)]), &[], &[0]),
        Sheet::new(Board::new(3, &[(2, 2, 0), (1, 1, 3)]), &[1, 2], &[0]),
        Sheet::new(Board::new(1, &[(0, 0, 0); 4096]), &[], &[4095]),
        Sheet::new(Board::new(1, &[(0, 0, 2); 4096]), &[0], &[]),
    ];
    for _ in 0..600 {
        let board = Kind::Loops.board(random);
        sheets.push(sheet(random, board));
    }
    let texts: Vec<_> = sheets.iter().map(text::write).collect();
    assert!(texts.iter().zip(&sheets).all(|(text, sheet)| text::read(text).as_ref() == Ok(sheet)));
    texts
}

/// Planar boards, and random boards with few, many or only open vertices, some of which have an odd
/// part without one; all are texts.
fn open_sides(random: &mut Random) -> Vec<Vec<u8>> {
    let mut sheets = vec![
        Sheet::new(planar(3), &[6], &[]),
        Sheet::new(planar(3), &[1, 5, 10], &[4]),
        Sheet::new(path(4).with_open(&[0]), &[2], &[]),
        Sheet::new(path(4).with_open(&[0, 3]), &[], &[]),
        Sheet::new(Board::new(4, &[(0, 1, 1), (2, 3, 0)]).with_open(&[0, 1]), &[3], &[]),
        Sheet::new(Board::new(1024, &[]).with_open(&(0..1024).collect::<Vec<_>>()), &[], &[]),
    ];
    for board in [2, 5, 12, 31].map(planar) {
        let syndrome = board.syndrome(&random.set(board.edges(), 100));
        let loss = random.set(board.edges(), 20);
        sheets.push(Sheet { board, syndrome, loss });
    }
    for _ in 0..400 {
        let board = open_board(random);
        sheets.push(sheet(random, board));
    }
    for _ in 0..100 {
        let parts = late_smallest(random);
        let board = opened(random, parts);
        sheets.push(any_syndrome(random, board));
    }
    let texts: Vec<_> = sheets.iter().map(text::write).collect();
    assert!(texts.iter().zip(&sheets).all(|(text, sheet)| text::read(text).as_ref() == Ok(sheet)));
    texts
}

fn damaged(random: &mut Random) -> Vec<Vec<u8>> {
    let texts = [random_boards(random), open_sides(random)].concat();
    texts.iter().step_by(3).map(|text| damage::anywhere(random, text)).collect()
}
