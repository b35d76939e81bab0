//! Cases of the calls that take the affine rule.

use crate::chain::chains;
use crate::chance::{random_affine, random_any, random_enhance, random_pass, random_plane};
use crate::list::{self, random_lists, EXAMPLE, PARTS, STILL};
use crate::pass::ROW;
use crate::passes::passes;
use crate::slopes;
use crate::sound::{enhance_grey, pass_on, ruled, FREE, ISLANDS};
use mlhe_reference::cases::Case;
use mlhe_reference::random::Random;
use mlhe_reference::{level_by_level, Pass, Rule, Settings};

/// The affine rule of these numbers: N, smin and smax.
pub fn affine([segments, smin, smax]: [u32; 3]) -> Rule {
    Rule::Affine { segments, smin, smax }
}

/// Rows with a section and numbers of the rule, by what they show.
const CORNERS: [(&[u8], [u8; 2], [u32; 3]); 34] = [
    // Example A, retoned and kept back.
    (&ROW, [0, 255], [2, 100, 10_000]),
    (&ROW, [0, 255], [2, 100, 300]),
    // One segment: exactly as steep as it has to be, and kept back by one hundredth.
    (&ROW, [0, 255], [1, 0, 10_000]),
    (&ROW, [0, 255], [1, 0, 850]),
    (&ROW, [0, 255], [1, 0, 849]),
    // Fewer values than segments.
    (&ROW, [0, 255], [16, 0, 10_000]),
    (&ROW, [0, 255], [16, 849, 10_000]),
    (&ROW, [0, 255], [16, 850, 10_000]),
    (&[10, 10, 20, 60], [0, 255], [16, 500, 10_000]),
    // D = 0; then one value at a, at b, and between them.
    (&[9, 9], [9, 9], [1, 0, 10_000]),
    (&[9, 9], [9, 9], [16, 10_000, 10_000]),
    (&[9, 9], [9, 10], [2, 10_000, 10_000]),
    (&[9, 9], [8, 9], [1, 0, 100]),
    (&[9, 9], [8, 9], [2, 0, 10_000]),
    (&[9, 9], [8, 9], [2, 100, 10_000]),
    (&[255], [0, 255], [16, 100, 100]),
    (&[40, 40, 40], [0, 255], [1, 0, 10_000]),
    (&[40, 40, 40], [0, 255], [2, 0, 10_000]),
    (&[40, 40, 40], [0, 255], [2, 638, 10_000]),
    (&[40, 40, 40], [0, 255], [2, 637, 10_000]),
    // Equal slopes.
    (&[20, 30, 30, 50], [10, 90], [5, 200, 200]),
    (&[20, 30, 30, 50], [10, 91], [5, 200, 200]),
    (&[20, 30, 30, 50], [10, 90], [5, 10_000, 10_000]),
    (&[20, 30, 30, 50], [10, 90], [5, 0, 0]),
    // The last height is the least that is enough: as it was, and yet retoned.
    (&[3, 4, 5, 6, 7, 8, 9], [3, 9], [3, 100, 100]),
    (&[3, 4, 5, 6, 7, 8, 9], [3, 10], [3, 100, 100]),
    // A flat stretch, and a steep one.
    (&[10, 20, 220, 255], [0, 255], [4, 0, 10_000]),
    (&[10, 20, 117, 118, 119, 120, 121, 220, 255], [0, 255], [3, 0, 10_000]),
    (&[100, 101, 102, 250], [0, 255], [4, 0, 10_000]),
    // Heights above 100 × D × j, and back to it.
    (&[100, 120], [0, 255], [2, 400, 10_000]),
    (&[100, 110, 160], [0, 255], [3, 150, 10_000]),
    // The height of 20 is 5,049.5 and a little: rounded, it would reach a half.
    (&[20, 101], [0, 255], [1, 0, 10_000]),
    // Both ends of the section, and two values.
    (&[0, 0, 1, 128, 255, 255], [0, 255], [3, 50, 300]),
    (&[0, 1], [0, 1], [2, 100, 10_000]),
];

pub fn cases() -> Vec<Case> {
    let mut random = Random::new(110);
    let mut cases: Vec<Case> = CORNERS
        .iter()
        .map(|&(row, section, numbers)| ruled(pass_on(row, row.len(), section, 1, 0, FREE), affine(numbers)))
        .collect();
    cases.extend(every_number());
    cases.extend(counted());
    for _ in 0..34 {
        let case = random_pass(&mut random, 5, 3);
        cases.push(ruled(case, random_affine(&mut random)));
    }
    for _ in 0..6 {
        let case = random_pass(&mut random, 16, 16);
        cases.push(ruled(case, random_affine(&mut random)));
    }
    cases.extend(enhanced(&mut random));
    cases.extend(chains(&mut random, 6, 1, random_any, |_| 4));
    cases.extend(listed(&mut random));
    cases.extend(slopes::cases());
    cases
}

/// Small planes with every number of segments and every pair of slopes of some: a ramp, a plane of few values far
/// apart, and one of many close together.
fn every_number() -> Vec<Case> {
    let ramp: Vec<u8> = (0..15).map(|p| 17 * p).collect();
    let few = [10, 10, 10, 10, 20, 10, 10, 10, 200, 20, 10, 10, 10, 200, 255];
    let close = [100, 101, 102, 103, 104, 101, 102, 103, 104, 105, 102, 103, 104, 105, 109];
    let mut cases = Vec::new();
    for (plane, section) in [(&ramp[..], [0, 255]), (&few, [5, 255]), (&close, [98, 128])] {
        for segments in [1, 2, 3, 10, 16] {
            for [smin, smax] in [[0, 0], [0, 10_000], [50, 300], [100, 100], [10_000, 10_000]] {
                cases.push(ruled(pass_on(plane, 5, section, 1, 0, FREE), affine([segments, smin, smax])));
            }
        }
    }
    cases
}

/// Components of one value among others, of sufficient area and too small.
fn counted() -> Vec<Case> {
    let mut cases = Vec::new();
    for numbers in [[1, 0, 10_000], [3, 100, 10_000]] {
        let over = |section, area| ruled(pass_on(&ISLANDS, 5, section, area, 0, FREE), affine(numbers));
        cases.extend([over([0, 127], 1), over([0, 127], 3), over([0, 127], 4), over([0, 127], 5)]);
        cases.extend([over([40, 60], 1), over([200, 200], 1), over([71, 199], 1), over([0, 255], 20)]);
    }
    cases
}

/// Enhancements: the same planes at every level, planes of one value, and random ones.
fn enhanced(random: &mut Random) -> Vec<Case> {
    let mut cases = Vec::new();
    let scattered = random_plane(random, 5, 15);
    let fine = [64, 65, 66, 67, 68, 70, 71, 72, 73, 74, 80, 81, 82, 83, 95];
    for last_level in 0..=7 {
        for (plane, numbers) in [(&scattered[..], [2, 100, 10_000]), (&fine, [1, 0, 10_000]), (&fine, [3, 300, 900])] {
            cases.push(ruled(enhance_grey(plane, 5, last_level, 1, 0, FREE), affine(numbers)));
        }
    }
    for (last_level, area) in [(0, 65), (7, 64), (7, 65)] {
        for numbers in [[1, 0, 10_000], [5, 100, 300]] {
            cases.push(ruled(enhance_grey(&[100; 64], 8, last_level, area, 0, FREE), affine(numbers)));
        }
    }
    for _ in 0..16 {
        let case = random_enhance(random, 5, 3);
        cases.push(ruled(case, random_affine(random)));
    }
    for _ in 0..4 {
        let case = random_enhance(random, 16, 16);
        cases.push(ruled(Case { last_level: 7, ..case }, random_affine(random)));
    }
    cases
}

/// Lists and passes in memory of all three rules.
fn listed(random: &mut Random) -> Vec<Case> {
    let limited = Rule::Limited { k: 500 };
    let over = |a, b, area, rule| Pass { a, b, area, rule, neighbours: 4 };
    let mixed = [
        over(0, 127, 1, affine([3, 0, 10_000])),
        EXAMPLE,
        over(0, 127, 3, limited),
        over(0, 127, 1, affine([2, 100, 300])),
        STILL,
        over(64, 255, 2, affine([16, 10_000, 10_000])),
        over(200, 200, 1, affine([1, 0, 10_000])),
    ];
    let settings = Settings { last_level: 7, area: 2, rule: affine([2, 100, 10_000]), neighbours: 4 };
    let mut cases = Vec::new();
    for run in [list::list, passes] {
        cases.push(run(5, 1, &[over(0, 127, 1, affine([2, 100, 10_000]))], &PARTS));
        cases.push(run(5, 4, &mixed, &ISLANDS));
        cases.push(run(5, 1, &level_by_level(&settings), &PARTS));
        cases.extend((1..=16).step_by(5).map(|n| run(4, 1, &[over(0, 255, 1, affine([n, 900, 900]))], &ROW)));
        for (w, h, plane, list) in random_lists(random, 10, random_any) {
            cases.push(run(w, h, &list, &plane));
        }
    }
    cases
}
