//! Four neighbours and eight: which pixels belong together, and what a chain keeps by each of them.

use mlhe_reference::extrema::{keeps_shapes, parted_neighbours, regional_maxima, regional_minima};
use mlhe_reference::pictures::drawn;
use mlhe_reference::{enhance, level_by_level, list_bytes, list_passes, pass, run_list, run_passes, sufficient};
use mlhe_reference::{Counts, Pass, Rule, Settings};

const FREE: Rule = Rule::Plain { low: 0, high: 25_500 };

/// The dark pixels, plain, with any area.
const DARK: Pass = Pass { a: 0, b: 127, area: 1, rule: FREE, neighbours: 4 };

/// The plane that a pass leaves of w columns, and both counts.
fn passed(plane: &[u8], w: usize, one: &Pass) -> (Vec<u8>, (u64, u64)) {
    let (n, h) = (plane.len(), plane.len() / w);
    let mut last = plane.to_vec();
    let Counts { retoned, kept } = pass(&mut last, n, n, w, h, one).expect("accepted");
    assert_eq!(retoned + kept, sufficient(plane, w, h, one));
    assert!(keeps_shapes(plane, &last, w, h, 4));
    assert!(one.neighbours == 4 || keeps_shapes(plane, &last, w, h, 8));
    (last, (retoned, kept))
}

/// How many components a picture's section has, by four neighbours and by eight.
fn components(picture: &[&str], a: u8, b: u8) -> [u64; 2] {
    let (w, plane) = drawn(picture);
    [4, 8].map(|neighbours| sufficient(&plane, w, plane.len() / w, &Pass { a, b, neighbours, ..DARK }))
}

#[test]
fn j_with_eight() {
    let plane = [10, 200, 200, 20];
    assert_eq!(passed(&plane, 2, &DARK), (plane.to_vec(), (0, 2)));
    assert_eq!(passed(&plane, 2, &Pass { neighbours: 8, ..DARK }), (vec![64, 200, 200, 127], (1, 0)));
}

/// That a chain has to carry eight everywhere to keep what is said by eight: here one pass with four neighbours parts a
/// pair of equal pixels that touch at a corner. By four neighbours all is kept.
#[test]
fn four_neighbours_part_a_pair_at_a_corner() {
    let first = [0, 1, 1, 1, 0, 0];
    let four = Pass { a: 1, b: 3, area: 2, rule: Rule::Limited { k: 0 }, neighbours: 4 };
    let (last, counts) = passed(&first, 3, &four);
    assert_eq!((&last[..], counts), (&[0, 2, 2, 1, 0, 0][..], (1, 0)));
    assert_eq!([4, 8].map(|number| parted_neighbours(&first, &last, 3, 2, number)), [0, 1]);
    assert!(!keeps_shapes(&first, &last, 3, 2, 8));
    let (last, counts) = passed(&first, 3, &Pass { neighbours: 8, ..four });
    assert_eq!((&last[..], counts), (&[0, 2, 2, 2, 0, 0][..], (1, 0)));
}

/// A wire one pixel thin is as many components as it has pixels, or one.
#[test]
fn diagonal_wires() {
    let falling = ["1....", ".2...", "..3..", "...4.", "....5"];
    let rising = ["....1", "...2.", "..3..", ".4...", "5...."];
    for picture in [falling, rising] {
        assert_eq!(components(&picture, 0, 127), [5, 1]);
        // What it cuts in two is one again by the corners.
        assert_eq!(components(&picture, 128, 255), [2, 1]);
        let (w, plane) = drawn(&picture);
        assert_eq!(passed(&plane, w, &DARK), (plane.clone(), (0, 5)));
        let (last, counts) = passed(&plane, w, &Pass { neighbours: 8, area: 5, ..DARK });
        let dark: Vec<u8> = last.into_iter().filter(|&value| value < 200).collect();
        assert_eq!((dark, counts), (vec![25, 51, 76, 102, 127], (1, 0)));
        assert_eq!(passed(&plane, w, &Pass { neighbours: 8, area: 6, ..DARK }), (plane, (0, 0)));
    }
}

#[test]
fn wires_at_edges_and_corners() {
    for picture in [
        &["1.3.5", ".2.4.", "....."],
        &[".....", ".2.4.", "1.3.5"],
        &["1...2", ".3.4.", "..5.."],
        &["..1..", ".2.3.", "4...5"],
    ] {
        assert_eq!(components(picture, 0, 127), [5, 1], "{picture:?}");
    }
    assert_eq!(components(&["1..", ".2.", "3..", ".4.", "5.."], 0, 127), [5, 1]);
    assert_eq!(components(&["..1", ".2.", "..3", ".4.", "..5"], 0, 127), [5, 1]);
    for picture in [["1..", ".2.", "..."], ["..1", ".2.", "..."], ["...", ".2.", "1.."], ["...", ".2.", "..1"]] {
        assert_eq!(components(&picture, 0, 127), [2, 1], "{picture:?}");
    }
}

#[test]
fn wires_that_cross() {
    // At a pixel, at corners, and a dark one with a light one.
    assert_eq!(components(&["1...2", ".3.4.", "..5..", ".6.7.", "8...9"], 0, 127), [9, 1]);
    assert_eq!(components(&["1..2", ".34.", ".56.", "7..8"], 0, 127), [5, 1]);
    assert_eq!(components(&["1..1", ".1.1", "1.1.", "1..1"], 0, 127), [6, 1]);
    assert_eq!((components(&["1.", ".2"], 0, 127), components(&["1.", ".2"], 128, 255)), ([2, 1], [2, 1]));
    let checkers = ["1.2.", ".3.4", "5.6.", ".7.8"];
    assert_eq!((components(&checkers, 0, 127), components(&checkers, 128, 255)), ([8, 1], [8, 1]));
    // A ring that a light wire leaves by a corner, and one that it does not.
    assert_eq!(components(&["..1..", ".2,3.", "4,,,5", ".6,7.", "..8.."], 128, 255), [5, 1]);
    assert_eq!(components(&[".111.", "11,11", "11,11", ".111."], 128, 255), [5, 5]);
}

/// What ends one row and starts the next is apart, unless the plane has two columns; so are both ends of a row, and
/// what ends one row and starts the next but one.
#[test]
fn corners_do_not_go_round_a_row() {
    for picture in [
        &["..1", "2.."][..],
        &["...1", "2..."],
        &["1...", "...2"],
        &["..1", "...", "2.."],
        &[".1", "..", "2."],
        &["1.", "..", ".2"],
        &["1.2"],
        &["1.2", "..."],
        &["...", "1.2"],
    ] {
        assert_eq!(components(picture, 0, 127), [2, 2], "{picture:?}");
    }
    assert_eq!(components(&["1.2", "...", "3.4"], 0, 127), [4, 4]);
    assert_eq!(components(&["...1", "2...", "...3", "4..."], 0, 127), [4, 4]);
    assert_eq!(components(&[".1", "2."], 0, 127), [2, 1]);
    assert_eq!(components(&["1.", ".2"], 0, 127), [2, 1]);
}

/// Where a side is 1 there are no corners: every pass leaves the same by four neighbours and by eight.
#[test]
fn one_row_and_one_column() {
    let row = [10, 200, 20, 30, 200, 200, 40, 40, 50];
    for (w, a, b) in [(9, 0, 127), (1, 0, 127), (9, 128, 255), (1, 128, 255), (9, 0, 255), (1, 15, 45)] {
        for area in 1..=3 {
            let [four, eight] = [4, 8].map(|neighbours| passed(&row, w, &Pass { a, b, area, neighbours, ..DARK }));
            assert_eq!(four, eight);
        }
    }
    assert_eq!(passed(&row, 9, &Pass { neighbours: 8, ..DARK }).1, (2, 1));
    assert_eq!(passed(&[10], 1, &Pass { neighbours: 8, ..DARK }), (vec![10], (0, 1)));
}

/// By eight neighbours the dark wire is one component, entered at level 1; by four each of its pixels is too small, and
/// the light pixels are two components.
#[test]
fn an_enhancement_with_eight() {
    let (w, greys) = drawn(&["1..", ".2.", "..3"]);
    let frame: Vec<u8> = greys.iter().flat_map(|&v| [v; 3]).collect();
    let enhanced = |last_level, neighbours| {
        let settings = Settings { last_level, area: 2, rule: FREE, neighbours };
        let (mut plane, mut output) = ([0; 9], [0; 27]);
        let counts = enhance(&frame, w, 3, &settings, &mut plane, 9, 9, &mut output).expect("accepted");
        let mut last = greys.clone();
        assert_eq!(run_passes(&level_by_level(&settings), &mut last, 9, 9, w, 3), Ok(counts));
        assert_eq!(plane, last[..]);
        ([0, 4, 8, 2].map(|p| plane[p]), (counts.retoned, counts.kept))
    };
    assert_eq!([4, 8].map(|number| enhanced(0, number)), [([28, 57, 85, 255], (1, 0)); 2]);
    assert_eq!(enhanced(1, 4), ([28, 57, 85, 255], (1, 2)));
    assert_eq!(enhanced(1, 8), ([42, 85, 127, 255], (2, 1)));
}

/// The house setting has four neighbours.
#[test]
fn the_house_setting() {
    assert_eq!(Settings::HOUSE.neighbours, 4);
    assert!(level_by_level(&Settings::HOUSE).iter().all(|pass| pass.neighbours == 4));
    let eight = level_by_level(&Settings { neighbours: 8, ..Settings::HOUSE });
    assert!(eight.len() == 255 && eight.iter().all(|pass| pass.neighbours == 8));
}

/// Version 1 means four, and in memory the same passes may have eight.
#[test]
fn lists_of_version_1_mean_four() {
    let plane = [10, 200, 200, 20];
    assert_eq!(list_passes(&list_bytes(&[DARK, DARK])), Ok(vec![DARK, DARK]));
    let mut last = plane;
    assert_eq!(run_list(&list_bytes(&[DARK]), &mut last, 4, 4, 2, 2), Ok(Counts { retoned: 0, kept: 2 }));
    assert_eq!(last, plane);
    let eight = Pass { neighbours: 8, ..DARK };
    let mut last = plane;
    assert_eq!(run_passes(&[DARK, eight, DARK], &mut last, 4, 4, 2, 2), Ok(Counts { retoned: 1, kept: 4 }));
    assert_eq!(last, [64, 200, 200, 127]);
}

#[test]
#[should_panic(expected = "four neighbours")]
fn version_1_has_no_place_for_eight() {
    list_bytes(&[Pass { neighbours: 8, ..DARK }]);
}

/// Spots by both relations: each dark wire is one minimum by eight, and as many as it has pixels by four.
#[test]
fn spots_of_wires() {
    let (w, plane) = drawn(&["1...1", ".1.1.", "....."]);
    let spots = |number| (regional_maxima(&plane, w, 3, number).len(), regional_minima(&plane, w, 3, number).len());
    assert_eq!((spots(4), spots(8)), ((1, 4), (1, 2)));
}
