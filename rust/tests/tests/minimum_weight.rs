//! The library compared with the fewest edges on small tori and planar boards.

use minimum_weight::comparison::compare;
use reference::Random;
use reference::planar::planar;
use reference::torus::torus;
use table_tests::library;

#[test]
fn fewest_edges_on_small_tori() {
    let mut random = Random::new(104);
    for side in 2..=8 {
        let seen = compare(&mut random, &torus(side), side, 500, library::decode);
        println!("side {side}: {seen:?}");
        assert!(seen.within > 0 && seen.wound > 0, "side {side}: {seen:?}");
        assert!(side < 4 || seen.larger > 0, "side {side}: {seen:?}");
    }
}

#[test]
fn fewest_edges_on_small_planar_boards() {
    let mut random = Random::new(178);
    for side in 2..=8 {
        let seen = compare(&mut random, &planar(side), side, 500, library::decode);
        println!("side {side}: {seen:?}");
        assert!(seen.within > 0 && seen.wound > 0, "side {side}: {seen:?}");
        assert!(side < 4 || seen.larger > 0, "side {side}: {seen:?}");
    }
}

/// Every set is closed on the torus of side 1, so the correction is empty, and as every set of errors
/// has a mark, it winds.
#[test]
fn torus_of_side_1() {
    let seen = compare(&mut Random::new(13), &torus(1), 1, 100, library::decode);
    assert_eq!((seen.larger, seen.within, seen.wound), (0, 0, seen.sheets), "{seen:?}");
}
