//! Document 02, K2: number 10 shows the smallest vertex of all odd parts, in decoding, in rounds too,
//! and in the verdict alike.

use reference::Random;
use reference::board::{Board, Sheet, members};
use reference::components::components;
use reference::generators::{Kind, any_syndrome, late_smallest, path};
use table::Refusal;
use table_tests::agrees;

/// The vertex that number 10 shows; none where there is a correction.
fn shown(sheet: &Sheet) -> Option<usize> {
    let decoded = agrees::decode(sheet).err();
    assert_eq!(agrees::decode_rounds(sheet).err(), decoded, "in rounds: {sheet:?}");
    let judged = agrees::verdict(sheet, &vec![0; sheet.board.edges()]).err();
    assert_eq!(decoded, judged, "decoding and the verdict: {sheet:?}");
    match decoded? {
        Refusal::NoCorrection(vertex) => Some(vertex),
        refusal => panic!("{refusal}: {sheet:?}"),
    }
}

fn shown_on(board: &Board, lit: &[usize]) -> Option<usize> {
    shown(&Sheet::new(board.clone(), lit, &[]))
}

#[test]
fn several_parts() {
    let board = Board::new(5, &[(2, 1, 0), (4, 3, 0)]);
    assert_eq!(shown_on(&board, &[2, 4]), Some(1));
    assert_eq!(shown_on(&board, &[2]), Some(1));
    assert_eq!(shown_on(&board, &[1, 4]), Some(1));
    assert_eq!(shown_on(&board, &[4]), Some(3));
    assert_eq!(shown_on(&board, &[1, 2, 4]), Some(3));
    assert_eq!(shown_on(&board, &[0, 2, 4]), Some(0));
    assert_eq!(shown_on(&board, &[1, 2, 3, 4]), None);
}

#[test]
fn every_lit_vertex_of_a_path() {
    for vertex in 0..6 {
        assert_eq!(shown_on(&path(6), &[vertex]), Some(0), "vertex {vertex} lit");
    }
}

/// 0 is joined last, to the tree of the others.
#[test]
fn smallest_joined_last() {
    let board = Board::new(5, &[(4, 3, 0), (3, 2, 0), (2, 1, 0), (1, 0, 0)]);
    for lit in [[0, 1, 2], [2, 3, 4], [0, 2, 4]] {
        assert_eq!(shown_on(&board, &lit), Some(0), "{lit:?} lit");
    }
}

#[test]
fn at_the_limits() {
    let alone = Board::new(1024, &[]);
    assert_eq!(shown_on(&alone, &(0..1024).collect::<Vec<_>>()), Some(0));
    assert_eq!(shown_on(&alone, &[1022, 1023]), Some(1022));
    let last = Board::new(1024, &vec![(1023, 1022, 0); 4096]);
    assert_eq!(shown_on(&last, &[1023]), Some(1022));
    assert_eq!(shown_on(&last, &[1021, 1023]), Some(1021));
    let falling: Vec<_> = (1..1024).rev().map(|v| (v, v - 1, 0)).collect();
    assert_eq!(shown_on(&Board::new(1024, &falling), &[1023]), Some(0));
}

/// How many of the refused sheets are of each kind.
#[derive(Debug, Default)]
struct Seen {
    /// Two odd parts or more.
    several: usize,
    /// The vertex shown is not lit.
    unlit: usize,
    /// The part of vertex 0 is even.
    later: usize,
    /// The part shown has three vertices or more, its smallest joined last: not its root.
    not_root: usize,
}

#[test]
fn random_boards_with_odd_parts() {
    let mut random = Random::new(111);
    let mut seen = Seen::default();
    for round in 0..20_000 {
        let late = round % 2 == 0;
        let board = if late { late_smallest(&mut random) } else { Kind::Parts.board(&mut random) };
        let sheet = any_syndrome(&mut random, board);
        let part = components(&sheet.board, |_| true);
        let mut odd = vec![0; sheet.board.vertices];
        members(&sheet.syndrome).for_each(|vertex| odd[part[vertex]] ^= 1);
        let smallest = (0..part.len()).filter(|&vertex| odd[part[vertex]] == 1).min();
        assert_eq!(shown(&sheet), smallest, "{sheet:?}");
        let Some(vertex) = smallest else { continue };
        let vertices = part.iter().filter(|&&name| name == part[vertex]).count();
        seen.several += usize::from(members(&odd).count() > 1);
        seen.unlit += usize::from(sheet.syndrome[vertex] == 0);
        seen.later += usize::from(part[vertex] != part[0]);
        seen.not_root += usize::from(late && vertices > 2);
    }
    println!("sheets with odd parts: {seen:?}");
    let Seen { several, unlit, later, not_root } = seen;
    assert!([several, unlit, later, not_root].iter().all(|&count| count > 1000), "{seen:?}");
}
