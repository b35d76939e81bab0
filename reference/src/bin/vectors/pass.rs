//! Cases of `pass`.

use crate::chance::random_pass;
use crate::faults::{area_test, faulty, memory_test, plane_test, rule_tests, size_tests};
use crate::sound::{pass_on, FREE, ISLANDS};
use mlhe_reference::cases::Case;
use mlhe_reference::random::Random;

/// Example A's row.
pub const ROW: [u8; 4] = [10, 10, 20, 30];

pub fn cases() -> Vec<Case> {
    let mut random = Random::new(20);
    let mut cases = written();
    cases.extend(counted());
    cases.extend((0..560).map(|_| random_pass(&mut random, 5, 3)));
    cases.extend((0..60).map(|_| random_pass(&mut random, 16, 16)));
    // Noise, which has many components in a section.
    for (section, area) in [([0, 127], 1), ([128, 255], 2), ([64, 191], 3), ([0, 99], 4), ([0, 63], 1)] {
        let noise: Vec<u8> = (0..256).map(|_| random.byte()).collect();
        cases.push(pass_on(&noise, 16, section, area, 0, FREE));
        cases.push(pass_on(&noise, 16, section, area, 0, [80, 300]));
        cases.push(pass_on(&noise, 16, section, area, 1, [50, 0]));
    }
    let mut tests = size_tests();
    tests.extend([plane_test(), memory_test(), (5, vec![|case| (case.a, case.b) = (9, 8)]), area_test()]);
    tests.extend(rule_tests());
    cases.extend(faulty(&pass_on(&ROW, 2, [0, 255], 1, 0, FREE), &tests, &[7, 8]));
    cases
}

fn written() -> Vec<Case> {
    let parts = [10, 20, 200, 10, 10];
    let mut cases = vec![
        pass_on(&ROW, 4, [0, 255], 1, 0, FREE),
        pass_on(&ROW, 4, [0, 255], 1, 0, [0, 300]),
        pass_on(&[0, 1], 2, [0, 1], 1, 0, FREE),
        pass_on(&[0, 1], 2, [0, 1], 1, 0, [80, 25_500]),
        pass_on(&parts, 5, [0, 127], 1, 0, FREE),
        pass_on(&parts, 5, [0, 127], 2, 0, FREE),
        pass_on(&parts, 5, [0, 127], 3, 0, FREE),
        pass_on(&ROW, 4, [0, 255], 1, 1, [10, 0]),
        pass_on(&ROW, 4, [0, 255], 1, 1, [1_000, 0]),
        pass_on(&ROW, 4, [0, 255], 1, 1, [0, 0]),
        pass_on(&[10, 200, 200, 20], 2, [0, 127], 1, 0, FREE),
        pass_on(&[9, 9, 9], 3, [9, 9], 1, 1, [10, 0]),
        pass_on(&[9, 9, 9], 3, [9, 9], 1, 0, FREE),
        pass_on(&ROW, 4, [0, 255], 1_048_576, 0, FREE),
        pass_on(&ROW, 4, [0, 255], 1, 0, [25_500, 25_500]),
    ];
    // A spiral and a comb: long components of one pixel's width.
    let spiral = [1, 1, 1, 1, 1, 9, 9, 9, 9, 1, 1, 1, 1, 9, 1, 1, 9, 9, 9, 1, 1, 1, 1, 1, 1];
    let comb = [9, 1, 9, 1, 9, 9, 1, 9, 1, 9, 9, 9, 9, 9, 9];
    cases.push(pass_on(&spiral, 5, [0, 4], 16, 1, [500, 0]));
    cases.push(pass_on(&spiral, 5, [0, 4], 17, 1, [500, 0]));
    cases.push(pass_on(&comb, 5, [8, 100], 11, 1, [500, 0]));
    cases.push(pass_on(&comb, 5, [0, 255], 1, 0, FREE));
    // Planes as large as the least area, from one pixel less to one more.
    for area in 14..=16 {
        let plane: Vec<u8> = (0..15).map(|p| 10 * p).collect();
        cases.push(pass_on(&plane, 5, [0, 255], area, 0, FREE));
    }
    cases
}

/// Components of one value among others, of sufficient area and too small: kept back by the plain rule, retoned by the
/// limited one.
fn counted() -> Vec<Case> {
    let mut cases = Vec::new();
    for (rule, numbers) in [(0, FREE), (0, [80, 300]), (0, [0, 100]), (1, [300, 0])] {
        for area in 1..=5 {
            cases.push(pass_on(&ISLANDS, 5, [0, 127], area, rule, numbers));
        }
        for section in [[40, 60], [200, 200], [71, 199], [0, 255]] {
            cases.push(pass_on(&ISLANDS, 5, section, 1, rule, numbers));
        }
        // Retoned, and as it was.
        cases.push(pass_on(&[0, 1, 1], 3, [0, 1], 1, rule, numbers));
        for area in 14..=16 {
            cases.push(pass_on(&[7; 15], 5, [0, 255], area, rule, numbers));
        }
    }
    cases
}
