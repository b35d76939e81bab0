//! Cases of `enhance`.

use crate::chance::{random_enhance, random_plane};
use crate::faults::{area_test, faulty, lengths_test, memory_test, output_test, rule_tests, size_tests};
use crate::sound::{enhance_grey, FREE, ISLANDS};
use mlhe_reference::cases::Case;
use mlhe_reference::random::Random;

pub fn cases() -> Vec<Case> {
    let mut cases = vec![
        enhance_grey(&[10, 20], 2, 0, 20, 0, FREE),
        enhance_grey(&[10, 20], 2, 1, 1, 0, FREE),
        enhance_grey(&[10, 20], 2, 7, 1, 0, FREE),
        enhance_grey(&[10, 20], 2, 7, 20, 0, [80, 300]),
        enhance_grey(&[40, 100, 255], 3, 0, 1, 0, [80, 300]),
        enhance_grey(&[40, 100, 255], 3, 1, 1, 0, [80, 300]),
    ];
    cases.extend(counted());
    let mut random = Random::new(50);
    // The same planes at every level.
    for (w, h) in [(5, 3), (4, 2), (3, 3)] {
        let greys = random_plane(&mut random, w, w * h);
        for last_level in 0..=7 {
            for (rule, numbers) in [(0, FREE), (0, [80, 300]), (1, [300, 0])] {
                cases.push(enhance_grey(&greys, w, last_level, 1, rule, numbers));
            }
        }
    }
    cases.extend((0..280).map(|_| random_enhance(&mut random, 5, 3)));
    for _ in 0..24 {
        let case = random_enhance(&mut random, 16, 16);
        cases.push(Case { last_level: 7, area: random.one_of(&[1, 5, 20]), ..case });
    }
    let mut tests = size_tests();
    tests.extend([lengths_test(), memory_test(), output_test()]);
    tests.push((9, vec![|case| case.last_level = 8, |case| case.last_level = 255]));
    tests.push(area_test());
    tests.extend(rule_tests());
    cases.extend(faulty(&enhance_grey(&[10, 20, 30, 40], 2, 7, 20, 0, FREE), &tests, &[7, 8]));
    cases
}

/// Planes of one value, with least areas around their size, and planes of few values in blocks, at every level: each
/// component of one value is kept back once at every level that it is entered at.
fn counted() -> Vec<Case> {
    let mut cases = Vec::new();
    let mut random = Random::new(51);
    for last_level in 0..=7 {
        for (rule, numbers) in [(0, [80, 300]), (1, [300, 0])] {
            for area in [20, 63, 64, 65] {
                cases.push(enhance_grey(&[100; 64], 8, last_level, area, rule, numbers));
            }
            for area in [1, 2, 4, 5] {
                cases.push(enhance_grey(&ISLANDS, 5, last_level, area, rule, numbers));
            }
            let values: Vec<u8> = (0..random.between(2, 6)).map(|_| random.byte()).collect();
            let block = random.between(2, 5);
            let places: Vec<u8> = (0..64).map(|_| random.one_of(&values)).collect();
            let greys: Vec<u8> = (0..256).map(|p| places[p % 16 / block + p / 16 / block * 8]).collect();
            let area = (block * block) as u32 + random.one_of(&[0, 0, 1]);
            cases.push(enhance_grey(&greys, 16, last_level, area, rule, numbers));
        }
        cases.push(enhance_grey(&[40, 100, 255], 3, last_level, 2, 0, [80, 300]));
    }
    cases
}
