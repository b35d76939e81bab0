//! The two counts: components of sufficient area that were retoned, and those that were kept back. Together they are
//! all components of sufficient area, counted from the definition in the plane as each pass finds it.

use mlhe_reference::random::Random;
use mlhe_reference::{enhance, level_by_level, list_bytes, pass, run_list, run_passes, sufficient, sufficient_in_all};
use mlhe_reference::{Counts, Pass, Rule, Settings};

const FREE: Rule = Rule::Plain { low: 0, high: 25_500 };
const HOUSE: Rule = Rule::Plain { low: 80, high: 300 };

/// A plane of five columns whose section [0, 127] has four components: one of four values, and one, three and four
/// pixels of one value each.
const ISLANDS: [u8; 20] = [40, 40, 200, 10, 20, 40, 40, 200, 30, 20, 200, 200, 200, 200, 200, 60, 200, 70, 70, 70];

/// The two counts of a pass on a plane of w columns, which together are all of sufficient area.
fn of_pass(plane: &[u8], w: usize, one: &Pass) -> (u64, u64) {
    let (n, h) = (plane.len(), plane.len() / w);
    let Counts { retoned, kept } = pass(&mut plane.to_vec(), n, n, w, h, one).expect("accepted");
    assert_eq!(retoned + kept, sufficient(plane, w, h, one), "{plane:?}, {w} columns, {one:?}");
    (retoned, kept)
}

/// The two counts of an enhancement of a grey frame of w columns, which are those of its list of passes and together
/// all of sufficient area.
fn of_enhancement(greys: &[u8], w: usize, settings: &Settings) -> (u64, u64) {
    let (n, h) = (greys.len(), greys.len() / w);
    let frame: Vec<u8> = greys.iter().flat_map(|&v| [v; 3]).collect();
    let counts = enhance(&frame, w, h, settings, &mut vec![0; n], n, n, &mut vec![0; 3 * n]).expect("accepted");
    let passes = level_by_level(settings);
    assert_eq!(run_passes(&passes, &mut greys.to_vec(), n, n, w, h), Ok(counts), "{greys:?}, {settings:?}");
    assert_eq!(counts.together(), sufficient_in_all(&passes, greys, w, h), "{greys:?}, {settings:?}");
    (counts.retoned, counts.kept)
}

#[test]
fn a_component_of_one_value_among_others() {
    let over = |a, b, area, rule| of_pass(&ISLANDS, 5, &Pass { a, b, area, rule, neighbours: 4 });
    assert_eq!([1, 2, 3, 4, 5].map(|area| over(0, 127, area, FREE)), [(1, 3), (1, 2), (1, 2), (1, 1), (0, 0)]);
    assert_eq!([1, 2, 3, 4, 5].map(|area| over(0, 127, area, HOUSE)), [(0, 4), (0, 3), (0, 3), (0, 2), (0, 0)]);
    assert_eq!(over(40, 60, 1, FREE), (0, 2));
    assert_eq!(over(40, 60, 4, FREE), (0, 1));
    assert_eq!(over(200, 200, 1, FREE), (0, 1));
    assert_eq!(over(71, 199, 1, FREE), (0, 0));
    assert_eq!(over(0, 255, 20, FREE), (1, 0));
    assert_eq!(over(0, 255, 21, FREE), (0, 0));
}

#[test]
fn the_limited_rule_keeps_nothing() {
    for k in [0, 300, 1_000] {
        let over = |area| of_pass(&ISLANDS, 5, &Pass { a: 0, b: 127, area, rule: Rule::Limited { k }, neighbours: 4 });
        assert_eq!([1, 2, 3, 4, 5].map(over), [(4, 0), (3, 0), (3, 0), (2, 0), (0, 0)]);
    }
}

/// Kept back where D = 0 or the last height is too low. Of one value, with one segment it gets there unless it is a;
/// with two it has half the height by its share, and needs smin for the rest.
#[test]
fn the_affine_rule_keeps_what_does_not_reach_the_end() {
    let affine = |segments, smin, smax| Rule::Affine { segments, smin, smax };
    let over = |a, b, area, rule| of_pass(&ISLANDS, 5, &Pass { a, b, area, rule, neighbours: 4 });
    let of_areas = |rule| [1, 2, 3, 4, 5].map(|area| over(0, 127, area, rule));
    assert_eq!(of_areas(affine(1, 0, 10_000)), [(4, 0), (3, 0), (3, 0), (2, 0), (0, 0)]);
    assert_eq!(of_areas(affine(2, 0, 10_000)), [(1, 3), (1, 2), (1, 2), (1, 1), (0, 0)]);
    assert_eq!(of_areas(affine(2, 0, 100)), [(0, 4), (0, 3), (0, 3), (0, 2), (0, 0)]);
    // From 40 to 127 it takes a slope of 3.175.
    assert_eq!([316, 317, 318].map(|smin| over(0, 127, 4, affine(2, smin, 10_000))), [(1, 1), (1, 1), (2, 0)]);
    assert_eq!(over(200, 200, 1, affine(16, 10_000, 10_000)), (0, 1));
    assert_eq!(over(70, 71, 1, affine(1, 10_000, 10_000)), (0, 1));
    assert_eq!(over(69, 70, 1, affine(1, 100, 100)), (1, 0));
    assert_eq!(over(71, 199, 1, affine(1, 0, 10_000)), (0, 0));
}

/// It had the rule, which has left every value as it was.
#[test]
fn what_comes_out_as_it_was_is_retoned() {
    let one = Pass { a: 0, b: 1, area: 1, rule: HOUSE, neighbours: 4 };
    let mut plane = [0, 1, 1];
    assert_eq!(pass(&mut plane, 3, 3, 3, 1, &one), Ok(Counts { retoned: 1, kept: 0 }));
    assert_eq!(plane, [0, 1, 1]);
    let one = Pass { a: 3, b: 9, rule: Rule::Affine { segments: 5, smin: 100, smax: 100 }, ..one };
    let mut plane = [3, 5, 9];
    assert_eq!(pass(&mut plane, 3, 3, 3, 1, &one), Ok(Counts { retoned: 1, kept: 0 }));
    assert_eq!(plane, [3, 5, 9]);
}

/// Kept once at each level that it is entered at: at level 0 in any case, at the others if it has the least area.
#[test]
fn a_plane_of_one_value() {
    for value in [0, 7, 100, 127, 128, 255] {
        for (last_level, levels) in (0..=7).zip(1..) {
            let of = |area, rule| of_enhancement(&[value; 64], 8, &Settings { last_level, area, rule, neighbours: 4 });
            assert_eq!([1, 20, 64].map(|area| of(area, HOUSE)), [(0, levels); 3]);
            assert_eq!([65, 1_048_576].map(|area| of(area, HOUSE)), [(0, 1); 2]);
            assert_eq!([1, 20, 64].map(|area| of(area, Rule::Limited { k: 300 })), [(levels, 0); 3]);
            assert_eq!([65, 1_048_576].map(|area| of(area, Rule::Limited { k: 300 })), [(1, 0); 2]);
        }
    }
    let of_two = |area| of_enhancement(&[7, 7], 2, &Settings { last_level: 1, area, rule: HOUSE, neighbours: 4 });
    assert_eq!([2, 3].map(of_two), [(0, 2), (0, 1)]);
}

/// Kept back at level 0, and its dark part retoned at level 1; the bright pixel is kept back from level 1 on.
#[test]
fn levels_below_one_that_keeps_back() {
    let of = |last_level, area| {
        let settings = Settings { last_level, area, rule: HOUSE, neighbours: 4 };
        of_enhancement(&[40, 100, 255], 3, &settings)
    };
    assert_eq!((of(0, 1), of(1, 1), of(1, 2)), ((0, 1), (1, 2), (1, 1)));
}

/// Each pass counts in the plane as it finds it.
#[test]
fn a_list_sums_both_counts() {
    let plain = |low, high| Rule::Plain { low, high };
    let over = |a, b, area, rule| Pass { a, b, area, rule, neighbours: 4 };
    let passes = [
        over(0, 127, 4, plain(0, 100)),
        over(0, 127, 1, plain(80, 25_500)),
        over(40, 60, 1, FREE),
        over(7, 7, 1, FREE),
        over(200, 200, 2, HOUSE),
        over(200, 200, 2, Rule::Limited { k: 500 }),
        over(0, 127, 3, Rule::Limited { k: 1_000 }),
        over(0, 127, 1, Rule::Affine { segments: 2, smin: 0, smax: 10_000 }),
        over(0, 254, 20, Rule::Affine { segments: 1, smin: 50, smax: 300 }),
    ];
    let mut plane = ISLANDS;
    let mut found = Vec::new();
    for one in &passes {
        found.push(of_pass(&plane, 5, one));
        pass(&mut plane, 20, 20, 5, 4, one).expect("accepted");
    }
    assert_eq!(found, [(0, 2), (1, 3), (0, 2), (0, 0), (0, 1), (1, 0), (3, 0), (1, 3), (1, 0)]);
    let sums = Ok(Counts { retoned: 7, kept: 11 });
    assert_eq!(run_passes(&passes, &mut ISLANDS.clone(), 20, 20, 5, 4), sums);
    assert_eq!(run_list(&list_bytes(&passes), &mut ISLANDS.clone(), 20, 20, 5, 4), sums);
    assert_eq!(run_list(&list_bytes(&[]), &mut ISLANDS.clone(), 20, 20, 5, 4), Ok(Counts::default()));
}

/// Planes of few values in blocks, with least areas about the size of a block or of the plane.
#[test]
fn planes_with_many_components_of_one_value() {
    let mut random = Random::new(3);
    let (mut retoned, mut kept) = (0, 0);
    for _ in 0..600 {
        let (w, h, block) = (random.between(1, 16), random.between(1, 16), random.between(1, 5));
        let values: Vec<u8> = (0..random.between(1, 6)).map(|_| random.byte()).collect();
        let places: Vec<u8> = (0..256).map(|_| random.one_of(&values)).collect();
        let plane: Vec<u8> = (0..w * h).map(|p| places[p % w / block + p / w / block * 16]).collect();
        let area = random.one_of(&[1, block * block, block * block + 1, w * h - 1, w * h, w * h + 1]).max(1) as u32;
        let affine = Rule::Affine { segments: random.between(1, 3) as u32, smin: 100, smax: 10_000 };
        let narrow = Rule::Plain { low: 0, high: 100 };
        let rule = random.one_of(&[FREE, HOUSE, narrow, Rule::Limited { k: 100 }, affine]);
        let a = random.one_of(&values);
        let neighbours = random.one_of(&[4, 8]);
        of_pass(&plane, w, &Pass { a, b: a.saturating_add(random.one_of(&[0, 1, 60])), area, rule, neighbours });
        for last_level in 0..=7 {
            let counts = of_enhancement(&plane, w, &Settings { last_level, area, rule, neighbours });
            (retoned, kept) = (retoned + counts.0, kept + counts.1);
        }
    }
    assert!(retoned > 5_000 && kept > 20_000, "{retoned} and {kept}");
}
