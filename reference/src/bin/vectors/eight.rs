//! Cases of the calls that take eight neighbours, and of lists of version 1, which mean four, where eight would tell.

use crate::affine::affine;
use crate::chain::chains;
use crate::chance::{random_any, random_enhance, random_pass_over, random_sides, random_wires};
use crate::list::{list, random_lists, EXAMPLE, LENGTHS, STILL};
use crate::neighbours;
use crate::passes::passes;
use crate::sound::{enhance_grey, house_grey, pass_on, ruled, FREE, ISLANDS};
use mlhe_reference::cases::{answers, encode, Case};
use mlhe_reference::pictures::drawn;
use mlhe_reference::random::Random;
use mlhe_reference::{level_by_level, Pass, Rule, Settings};

/// Rows of pixels, by what they show.
pub const PICTURES: [&[&str]; 32] = [
    // Example J: a dark and a light wire that cross at a corner.
    &["1.", ".2"],
    // Wires from corner to corner of the plane, one way and the other.
    &["1....", ".2...", "..3..", "...4.", "....5"],
    &["....1", "...2.", "..3..", ".4...", "5...."],
    &["1,,,,", ".2,,,", "..3,,", "...4,", "....5"],
    &[",,,,1", ",,,2.", ",,3..", ",4...", "5...."],
    // Along each edge.
    &["1.3.5", ".2.4.", "....."],
    &[".....", ".2.4.", "1.3.5"],
    &["1..", ".2.", "3..", ".4.", "5.."],
    &["..1", ".2.", "..3", ".4.", "..5"],
    // At each corner of the plane.
    &["1...", ".2..", "...."],
    &["...1", "..2.", "...."],
    &["....", ".2..", "1..."],
    &["....", "..2.", "...1"],
    // Wires that cross at a pixel, at corners, and that touch at one.
    &["1...2", ".3.4.", "..5..", ".6.7.", "8...9"],
    &["1..2", ".34.", ".56.", "7..8"],
    &["12..", "..3.", "..4.", ".5.."],
    &[".1.2.", "3.4.5", ".6.7."],
    // A ring that a light wire leaves by a corner, and one that it does not.
    &["..1..", ".2,3.", "4,,,5", ".6,7.", "..8.."],
    &[".111.", "1,,,1", "1,,,1", ".112."],
    // Checkerboards.
    &["1.2.", ".3.4", "5.6.", ".7.8"],
    &[".1.2.", "3.4.5", ".6.7.", "8.9.1", ".2.3."],
    // What ends one row and starts the next, or the next but one, is apart; so are both ends of a row.
    &["..1", "2.."],
    &["...1", "2...", "...3", "4..."],
    &["..1", "...", "2.."],
    &[".1", "..", "2.", "..", ".3"],
    &["1.2", "...", "3.4"],
    &[".1", "2.", ".3"],
    // One column and one row: no corners.
    &["1", ".", "2", "3", ".", ".", "4"],
    &["1.23..4"],
    &["1"],
    // Steps by corners and by sides.
    &["12...", "..34.", "....5", "...6.", "..7.."],
    &["1.1.2", ".1.2.", "1.1.2"],
];

/// The same call with eight neighbours.
fn by_eight(case: Case) -> Case {
    Case { neighbours: 8, ..case }
}

/// Whether a call is answered otherwise with four neighbours than with eight.
fn tells(case: &Case) -> bool {
    let [four, eight] = [4, 8].map(|neighbours| answers(&encode(&Case { neighbours, ..case.clone() })));
    four != eight
}

/// So many random calls, made so, that tell four neighbours from eight.
fn telling(random: &mut Random, number: usize, make: impl Fn(&mut Random) -> Case) -> Vec<Case> {
    let mut cases = Vec::new();
    while cases.len() < number {
        cases.extend(Some(make(random)).filter(tells));
    }
    cases
}

pub fn cases() -> Vec<Case> {
    let mut random = Random::new(120);
    let mut cases = written();
    let pass = |random: &mut Random, w, h| {
        let (w, h) = random_sides(random, w, h);
        let plane = random_wires(random, w, w * h);
        random_pass_over(random, &plane, w, random_any, 8)
    };
    cases.extend((0..20).map(|_| pass(&mut random, 5, 3)));
    cases.extend(telling(&mut random, 50, |random| pass(random, 6, 5)));
    cases.extend(telling(&mut random, 8, |random| pass(random, 16, 16)));
    cases.extend(enhanced(&mut random));
    cases.extend(chains(&mut random, 8, 2, random_any, |random| random.one_of(&[4, 4, 4, 8, 8, 8, 8, 8, 5])));
    cases.extend(chains(&mut random, 4, 1, random_any, |random| random.one_of(&[8, 8, 8, 8, 8, 8, 0])));
    cases.extend(in_memory(&mut random));
    cases.extend(in_files(&mut random));
    cases.extend(neighbours::cases());
    cases
}

/// Passes over each picture's dark and light pixels, also with all dark ones as the least area; and least areas around
/// the sizes of components.
fn written() -> Vec<Case> {
    // The equal ones at a corner part by four neighbours, and stay equal by eight.
    let parting = pass_on(&[0, 1, 1, 1, 0, 0], 3, [1, 3], 2, 1, [0, 0]);
    let mut cases = vec![parting.clone(), by_eight(parting)];
    for picture in PICTURES {
        let (w, plane) = drawn(picture);
        let dark = plane.iter().filter(|&&value| value < 128).count() as u32;
        let plain = |section, area| pass_on(&plane, w, section, area, 0, FREE);
        cases.extend([plain([0, 127], 1), by_eight(plain([0, 127], 1)), by_eight(plain([128, 255], 1))]);
        cases.push(by_eight(pass_on(&plane, w, [0, 127], dark, 1, [300, 0])));
    }
    for area in [1, 2, 4, 5, 8, 9] {
        cases.push(by_eight(pass_on(&ISLANDS, 5, [0, 127], area, 0, FREE)));
        cases.push(by_eight(ruled(pass_on(&ISLANDS, 5, [128, 255], area, 0, FREE), affine([1, 0, 10_000]))));
    }
    let (w, ring) = drawn(PICTURES[17]);
    for area in 7..=9 {
        cases.push(by_eight(pass_on(&ring, w, [0, 127], area, 0, FREE)));
    }
    cases
}

/// Enhancements of the pictures, of some of them at every level, of random wires, and some that tell the house
/// setting's four neighbours from eight.
fn enhanced(random: &mut Random) -> Vec<Case> {
    let mut cases = Vec::new();
    for picture in PICTURES {
        let (w, plane) = drawn(picture);
        cases.push(by_eight(enhance_grey(&plane, w, 7, 1, 0, FREE)));
    }
    for (number, last_level) in [14, 20].into_iter().flat_map(|number| (0..=7).map(move |level| (number, level))) {
        let (w, plane) = drawn(PICTURES[number]);
        cases.push(by_eight(enhance_grey(&plane, w, last_level, 2, 0, FREE)));
        cases.push(by_eight(enhance_grey(&plane, w, last_level, 3, 1, [300, 0])));
        cases.push(by_eight(ruled(enhance_grey(&plane, w, last_level, 1, 0, FREE), affine([2, 100, 10_000]))));
    }
    let enhancement = |random: &mut Random, w, h| {
        let case = random_enhance(random, w, h);
        let greys = random_wires(random, case.w as usize, case.plane.len());
        let case = ruled(case, random_any(random));
        by_eight(Case { bytes: greys.iter().flat_map(|&v| [v; 3]).collect(), ..case })
    };
    cases.extend(telling(random, 30, |random| enhancement(random, 6, 5)));
    cases.extend(telling(random, 5, |random| Case { last_level: 7, ..enhancement(random, 16, 16) }));
    cases.extend((0..3).map(|_| house(random)));
    cases
}

/// An enhancement with the house setting that would be answered otherwise with eight neighbours.
fn house(random: &mut Random) -> Case {
    loop {
        let (base, grain) = (random.below(150), random.between(2, 60));
        let greys: Vec<u8> = (0..144).map(|p| (base + p % 12 * 3 + random.below(grain)) as u8).collect();
        if tells(&enhance_grey(&greys, 12, 7, 20, 0, [80, 300])) {
            return house_grey(&greys, 12);
        }
    }
}

/// Passes in memory with four neighbours and with eight.
fn in_memory(random: &mut Random) -> Vec<Case> {
    let by = |neighbours, pass: Pass| Pass { neighbours, ..pass };
    let light = Pass { a: 128, b: 255, ..EXAMPLE };
    let mut cases = Vec::new();
    for picture in [0, 1, 13, 14, 17, 20, 28].map(|number| PICTURES[number]) {
        let (w, plane) = drawn(picture);
        let run = |list: &[Pass]| passes(w, plane.len() / w, list, &plane);
        cases.extend([
            run(&[by(8, EXAMPLE)]),
            run(&[by(8, EXAMPLE), light]),
            run(&[EXAMPLE, by(8, light), by(8, EXAMPLE)]),
        ]);
    }
    let (w, plane) = drawn(PICTURES[14]);
    for rule in [EXAMPLE.rule, Rule::Limited { k: 300 }] {
        let settings = Settings { last_level: 7, area: 2, rule, neighbours: 8 };
        cases.push(passes(w, w, &level_by_level(&settings), &plane));
    }
    for length in LENGTHS {
        cases.push(passes(2, 2, &[STILL, by(8, STILL)].repeat(512)[..length], &[7, 1, 1, 7]));
    }
    for (w, h, _, mut list) in random_lists(random, 30, random_any) {
        let plane = random_wires(random, w, w * h);
        list.iter_mut().for_each(|pass| pass.neighbours = random.one_of(&[4, 8]));
        cases.push(passes(w, h, &list, &plane));
    }
    cases
}

/// Lists of version 1, which mean four neighbours, on planes where eight would tell.
fn in_files(random: &mut Random) -> Vec<Case> {
    let tells = |w, h, list: &[Pass], plane: &[u8]| {
        let eight: Vec<Pass> = list.iter().map(|&pass| Pass { neighbours: 8, ..pass }).collect();
        let [four, eight] = [list, &eight].map(|list| answers(&encode(&passes(w, h, list, plane))));
        four != eight
    };
    let mut cases = Vec::new();
    for picture in PICTURES {
        let (w, plane) = drawn(picture);
        if tells(w, plane.len() / w, &[EXAMPLE], &plane) {
            cases.push(list(w, plane.len() / w, &[EXAMPLE], &plane));
        }
    }
    while cases.len() < 40 {
        for (w, h, _, passes) in random_lists(random, 1, random_any) {
            let plane = random_wires(random, w, w * h);
            if tells(w, h, &passes, &plane) {
                cases.push(list(w, h, &passes, &plane));
            }
        }
    }
    cases
}
