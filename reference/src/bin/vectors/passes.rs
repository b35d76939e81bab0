//! Cases of `run_passes`.

use crate::chance::random_rule;
use crate::faults::{faulty, faulty_records, memory_test, plane_test, size_tests, Test};
use crate::list::{counted, random_lists, EXAMPLE, LENGTHS, PARTS, STILL};
use crate::sound::{sound, ISLANDS};
use mlhe_reference::cases::{passes_bytes, Case, Kind};
use mlhe_reference::random::Random;
use mlhe_reference::{level_by_level, Pass, Settings};

/// A sound call that runs these passes in memory.
pub fn passes(w: usize, h: usize, passes: &[Pass], plane: &[u8]) -> Case {
    sound(Kind::Passes, w, h, passes_bytes(passes), plane.to_vec())
}

pub fn cases() -> Vec<Case> {
    let free = Settings { last_level: 7, area: 1, rule: EXAMPLE.rule, neighbours: 4 };
    let mut cases = vec![
        passes(5, 1, &[EXAMPLE], &PARTS),
        passes(5, 1, &[], &PARTS),
        Case { marks: 4, ..passes(5, 1, &[], &PARTS) },
        passes(2, 1, &level_by_level(&free), &[10, 20]),
        passes(5, 4, &counted(), &ISLANDS),
        passes(8, 8, &level_by_level(&Settings::HOUSE), &[100; 64]),
        passes(8, 8, &level_by_level(&Settings { area: 65, ..Settings::HOUSE }), &[100; 64]),
    ];
    for length in LENGTHS {
        cases.extend([[7; 4], [1, 2, 3, 4]].map(|plane| passes(2, 2, &vec![STILL; length], &plane)));
    }
    let mut random = Random::new(70);
    for (w, h, plane, list) in random_lists(&mut random, 60, random_rule) {
        cases.push(passes(w, h, &list, &plane));
    }
    let sound_passes = passes(2, 2, &[EXAMPLE, EXAMPLE], &[10, 20, 200, 10]);
    cases.extend(faulty_records(&sound_passes, &first_tests(), &second_tests()));
    for record in [first_tests(), second_tests()] {
        let mut tests = size_tests();
        tests.extend([plane_test(), memory_test()]);
        tests.extend(record);
        cases.extend(faulty(&sound_passes, &tests, &[7, 8]));
    }
    cases
}

fn first_tests() -> Vec<Test> {
    vec![
        (5, vec![|case| (case.bytes[0], case.bytes[1]) = (9, 8)]),
        (6, vec![|case| case.bytes[4] = 0, |case| case.bytes[6] = 16]),
        (7, vec![|case| case.bytes[8..12].copy_from_slice(&[81, 0, 80, 0]), |case| case.bytes[10] += 1]),
        (8, vec![|case| case.bytes[2..12].copy_from_slice(&[1, 0, 1, 0, 0, 0, 0xE9, 0x03, 0, 0])]),
    ]
}

/// The second pass starts at byte 13.
fn second_tests() -> Vec<Test> {
    vec![
        (5, vec![|case| (case.bytes[13], case.bytes[13 + 1]) = (255, 0)]),
        (6, vec![|case| case.bytes[13 + 4] = 0]),
        (7, vec![|case| case.bytes[13 + 11] = 255]),
        (8, vec![|case| case.bytes[13 + 2..13 + 12].copy_from_slice(&[1, 0, 1, 0, 0, 0, 0xFF, 0xFF, 0, 0])]),
    ]
}
