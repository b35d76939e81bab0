//! Cases of `run_list` with version 1, and lists that `run_passes` runs too.

use crate::chance::{random_plane, random_rule, random_section, random_sides};
use crate::faults::{faulty, faulty_records, memory_test, plane_test, size_tests, Test};
use crate::sound::{sound, ISLANDS};
use mlhe_reference::cases::{Case, Kind};
use mlhe_reference::random::Random;
use mlhe_reference::{level_by_level, list_bytes, Pass, Rule, Settings};

/// Example E as a pass.
pub const EXAMPLE: Pass = Pass { a: 0, b: 127, area: 1, rule: Rule::Plain { low: 0, high: 25_500 }, neighbours: 4 };

/// A pass that changes no plane.
pub const STILL: Pass = Pass { a: 7, b: 7, ..EXAMPLE };

/// Numbers of passes around the greatest, 320, and one far beyond.
pub const LENGTHS: [usize; 4] = [319, 320, 321, 1_024];

/// Example E's plane.
pub const PARTS: [u8; 5] = [10, 20, 200, 10, 10];

/// Passes over [0, 127], [40, 60] and [200, 200] by each rule, and a pass that finds nothing.
pub fn counted() -> Vec<Pass> {
    let plain = |low, high| Rule::Plain { low, high };
    let over = |a, b, area, rule| Pass { a, b, area, rule, neighbours: 4 };
    vec![
        over(0, 127, 4, plain(0, 100)),
        over(0, 127, 1, plain(80, 25_500)),
        over(40, 60, 1, plain(0, 25_500)),
        STILL,
        over(200, 200, 2, plain(80, 300)),
        over(200, 200, 2, Rule::Limited { k: 500 }),
        over(0, 127, 3, Rule::Limited { k: 1_000 }),
    ]
}

/// A random pass of a list that runs on this plane, with a rule that is drawn so.
fn random_record(random: &mut Random, plane: &[u8], draw: fn(&mut Random) -> Rule) -> Pass {
    let rule = draw(random);
    let [a, b] = random_section(random, plane);
    Pass { a, b, area: random.one_of(&[1, 1, 1, 2, 3]), rule, neighbours: 4 }
}

/// The sides of a plane, the plane, and passes to run on it.
type Run = (usize, usize, Vec<u8>, Vec<Pass>);

/// Planes of at most 5 by 3 pixels, each with a short random list whose rules are drawn so.
pub fn random_lists(random: &mut Random, number: usize, draw: fn(&mut Random) -> Rule) -> Vec<Run> {
    let mut lists = Vec::new();
    for _ in 0..number {
        let (w, h) = random_sides(random, 5, 3);
        let plane = random_plane(random, w, w * h);
        let passes = (0..random.between(0, 6)).map(|_| random_record(random, &plane, draw)).collect();
        lists.push((w, h, plane, passes));
    }
    lists
}

/// A sound call that runs these passes as a list.
pub fn list(w: usize, h: usize, passes: &[Pass], plane: &[u8]) -> Case {
    sound(Kind::List, w, h, list_bytes(passes), plane.to_vec())
}

pub fn cases() -> Vec<Case> {
    let mut random = Random::new(60);
    let mut cases = written();
    // Every pass finds a component that it keeps back, or nothing.
    for length in LENGTHS {
        cases.extend([[7; 4], [1, 2, 3, 4]].map(|plane| list(2, 2, &vec![STILL; length], &plane)));
    }
    for (w, h, plane, passes) in random_lists(&mut random, 80, random_rule) {
        cases.push(list(w, h, &passes, &plane));
    }
    cases.extend(damaged(&mut random));
    cases.extend(changed());
    cases.extend(refused());
    cases
}

fn written() -> Vec<Case> {
    let free = Settings { last_level: 7, area: 1, rule: EXAMPLE.rule, neighbours: 4 };
    let short = |bytes: &[u8]| sound(Kind::List, 5, 1, bytes.to_vec(), PARTS.to_vec());
    vec![
        list(5, 1, &[EXAMPLE], &PARTS),
        list(5, 1, &[], &PARTS),
        list(2, 1, &level_by_level(&free), &[10, 20]),
        list(5, 1, &level_by_level(&Settings { last_level: 5, area: 2, ..free }), &PARTS),
        list(5, 4, &counted(), &ISLANDS),
        list(8, 8, &level_by_level(&Settings::HOUSE), &[100; 64]),
        list(8, 8, &level_by_level(&Settings { area: 65, ..Settings::HOUSE }), &[100; 64]),
        short(b""),
        short(b"MLP"),
        short(b"MLQ\x01\0\0\0"),
        short(b"MLP\x01\0\0"),
        short(b"MLQ\x01\0\x01\0"),
        // A list of no passes asks for marks and queue all the same.
        Case { queue: 4, ..list(5, 1, &[], &PARTS) },
    ]
}

/// Lists of three passes with bytes of the third record changed.
fn damaged(random: &mut Random) -> Vec<Case> {
    let mut cases = Vec::new();
    for _ in 0..50 {
        let [second, third] = [(); 2].map(|()| random_record(random, &PARTS, random_rule));
        let passes = [EXAMPLE, second, third];
        let mut case = list(5, 1, &passes, &PARTS);
        for _ in 0..random.between(1, 2) {
            let at = random.between(31, 42);
            case.bytes[at] = random.one_of(&[0, 1, 2, 16, 255]);
        }
        cases.push(case);
    }
    cases
}

/// A sound list with each of its bytes changed in turn, a little and much.
fn changed() -> Vec<Case> {
    let mut cases = Vec::new();
    let whole = list(5, 1, &[EXAMPLE, Pass { area: 2, ..EXAMPLE }], &PARTS);
    for at in 0..whole.bytes.len() {
        for change in [1, 128] {
            let mut case = whole.clone();
            case.bytes[at] ^= change;
            cases.push(case);
        }
    }
    cases
}

fn refused() -> Vec<Case> {
    let sound_list = list(2, 2, &[EXAMPLE, EXAMPLE], &[10, 20, 200, 10]);
    let mut tests = size_tests();
    tests.extend([plane_test(), memory_test()]);
    tests.extend(list_head_tests());
    tests.extend(first_record_tests());
    let mut cases = faulty(&sound_list, &tests, &[7, 8]);
    let tests: Vec<Test> = list_head_tests().into_iter().chain(second_record_tests()).collect();
    cases.extend(faulty(&sound_list, &tests, &[7, 8]));
    cases.extend(faulty_records(&sound_list, &first_record_tests(), &second_record_tests()));
    cases
}

pub fn list_head_tests() -> Vec<Test> {
    vec![
        (16, vec![|case| case.bytes.truncate(6), |case| case.bytes.clear()]),
        (15, vec![|case| case.bytes[2] = b'Q', |case| case.bytes[0] = b'm', |case| case.bytes[1] = b'P']),
        (15, vec![|case| case.bytes[3] = 2, |case| case.bytes[4] = 1, |case| case.bytes[3] = 0]),
        (
            16,
            vec![
                |case| case.bytes[5] = 3,
                |case| case.bytes[5] = 1,
                |case| case.bytes[6] = 4,
                |case| case.bytes.push(0),
                |case| case.bytes.truncate(30),
            ],
        ),
    ]
}

/// The first record of a list starts at byte 7.
fn first_record_tests() -> Vec<Test> {
    vec![
        (
            17,
            vec![|case| case.bytes[7 + 2] = 3, |case| case.bytes[7 + 3] = 1, |case| case.bytes[7 + 2] = 1, |case| {
                (case.bytes[7 + 2], case.bytes[7 + 10], case.bytes[7 + 11]) = (1, 0, 1)
            }],
        ),
        (5, vec![|case| (case.bytes[7], case.bytes[7 + 1]) = (9, 8)]),
        (6, vec![|case| case.bytes[7 + 4] = 0, |case| case.bytes[7 + 6] = 16, |case| case.bytes[7 + 7] = 1]),
        (7, vec![|case| case.bytes[7 + 8..7 + 12].copy_from_slice(&[81, 0, 80, 0]), |case| case.bytes[7 + 10] += 1]),
        (8, vec![|case| case.bytes[7 + 2..7 + 12].copy_from_slice(&[1, 0, 1, 0, 0, 0, 0xE9, 0x03, 0, 0])]),
    ]
}

/// The second record of a list starts at byte 19.
fn second_record_tests() -> Vec<Test> {
    vec![
        (17, vec![|case| case.bytes[19 + 2] = 255, |case| case.bytes[19 + 3] = 128]),
        (5, vec![|case| (case.bytes[19], case.bytes[19 + 1]) = (255, 0)]),
        (6, vec![|case| case.bytes[19 + 4] = 0]),
        (7, vec![|case| case.bytes[19 + 11] = 255]),
        (8, vec![|case| case.bytes[19 + 2..19 + 12].copy_from_slice(&[1, 0, 1, 0, 0, 0, 0xFF, 0xFF, 0, 0])]),
    ]
}
