//! Document 01, step 3, "among equals, the one holding the smallest vertex number": clusters with
//! equal boundary sizes, on both sides of every border at which a search in blocks could be wrong.

use std::collections::BTreeSet;

use reference::board::Sheet;
use reference::generators::{long_ring, path};
use reference::{Key, Random};
use table_tests::agrees;

/// The keys agree, in rounds too; the one by growths is returned.
fn key(sheet: &Sheet) -> Key {
    agrees::decode_rounds(sheet).expect("a correction in rounds");
    agrees::decode(sheet).expect("a correction")
}

/// What the supports of a ring would be if of two lit vertices the larger went first: the ring, of
/// which edge e joins e and e + 1, is the same when it is turned over so that the two change places.
fn turned_over(support: &[u8], lit: [usize; 2]) -> Vec<u8> {
    let edges = support.len();
    (0..edges).map(|edge| support[(lit[0] + lit[1] + 2 * edges - 1 - edge) % edges]).collect()
}

/// Two lit vertices of a ring of this size. They grow by turns until both have two neighbours, and
/// from then on the one with the smaller number grows alone, so the supports tell which it was.
fn first_of_two(vertices: usize, lit: [usize; 2]) {
    let Key { support, .. } = key(&Sheet::new(long_ring(vertices), &lit, &[]));
    assert_ne!(support, turned_over(&support, lit), "{lit:?} of {vertices}");
}

/// Whether the supports can tell: two vertices opposite each other make all edges full, and two with
/// one vertex between them meet there after two growths each.
fn tells(vertices: usize, [p, q]: [usize; 2]) -> bool {
    let way = (q - p).min(vertices - (q - p));
    way != 2 && 2 * way != vertices
}

/// Every two of the vertices next to a border of a block of 16, 32, 64 or 128, and of the first and
/// the last vertices.
fn at_borders(vertices: usize) -> Vec<[usize; 2]> {
    let borders = [0, 16, 32, 64, 96, 128, 192, 256, vertices];
    let near = borders.iter().flat_map(|&at| [at.wrapping_sub(1), at, at + 1]);
    let near: BTreeSet<_> = near.filter(|&vertex| vertex < vertices).collect();
    near.iter().flat_map(|&p| near.range(p + 1..).map(move |&q| [p, q])).collect()
}

/// On rings that end before, at and after a border.
#[test]
fn two_lit_vertices_of_a_ring() {
    for vertices in [63, 64, 65, 127, 128, 129, 200, 257] {
        for lit in at_borders(vertices).into_iter().filter(|&lit| tells(vertices, lit)) {
            first_of_two(vertices, lit);
        }
    }
}

/// The same on paths, and with a second lit vertex three edges after each, so that there are two pairs
/// of which none is nearer to its like than the other.
#[test]
fn lit_vertices_of_a_path() {
    let mut pairs = 0;
    for vertices in [64, 65, 128, 129] {
        for [p, q] in at_borders(vertices) {
            key(&Sheet::new(path(vertices), &[p, q], &[]));
            if q - p != 3 && q + 3 < vertices {
                key(&Sheet::new(path(vertices), &[p, p + 3, q, q + 3], &[]));
                pairs += 1;
            }
        }
    }
    assert!(pairs > 200, "{pairs}");
}

/// Two next to each other at each place of the largest ring: the smaller one grows twice, and the
/// edge beyond the larger one stays empty.
#[test]
fn neighbours_anywhere() {
    let ring = long_ring(1024);
    for p in 0..1023 {
        let Key { growths, support, .. } = key(&Sheet::new(ring.clone(), &[p, p + 1], &[]));
        assert_eq!(growths, 2, "{p}");
        let full: Vec<_> = (0..1024).filter(|&edge| support[edge] == 2).collect();
        let mut expected = [(p + 1023) % 1024, p];
        expected.sort_unstable();
        assert_eq!(full, expected, "{p}");
    }
}

/// Clusters of lost edges, of any length, each with one lit vertex anywhere in it: all have a
/// boundary of two, and the smallest vertex is rarely the lit one, nor the one that a tree has for
/// root. Often one lies across the end of the numbers.
#[test]
fn clusters_of_equal_boundaries() {
    let mut random = Random::new(311);
    let mut grown = 0;
    for round in 0..600 {
        let vertices = [64, 65, 128, 129, 130, 192][round % 6];
        let clusters = 2 * random.from_to(1, 4);
        let (mut lit, mut lost) = (Vec::new(), Vec::new());
        let width = vertices / clusters;
        let shift = random.below(vertices);
        for cluster in 0..clusters {
            let first = shift + cluster * width;
            let length = random.from_to(1, width - 3);
            lost.extend((first..first + length).map(|edge| edge % vertices));
            lit.push((first + random.from_to(0, length)) % vertices);
        }
        grown += key(&Sheet::new(long_ring(vertices), &lit, &lost)).growths;
    }
    println!("{grown} growths");
    assert!(grown > 3000, "{grown}");
}
