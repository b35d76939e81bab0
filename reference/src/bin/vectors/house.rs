//! Cases of `enhance` with the house setting.

use crate::chance::random_plane;
use crate::faults::{faulty, lengths_test, memory_test, output_test, size_tests};
use crate::sound::{enhance_grey, house_grey};
use mlhe_reference::cases::{answers, encode, Case};
use mlhe_reference::random::Random;

/// Settings that are nearly the house's: L, area, low and high.
const NEARLY: [(u8, u32, [u16; 2]); 7] = [
    (6, 20, [80, 300]),
    (7, 19, [80, 300]),
    (7, 21, [80, 300]),
    (7, 20, [79, 300]),
    (7, 20, [81, 300]),
    (7, 20, [80, 299]),
    (7, 20, [80, 303]),
];

pub fn cases() -> Vec<Case> {
    let mut cases = vec![house_grey(&[10, 20], 2), house_grey(&[40, 100, 255], 3), house_grey(&[7; 30], 6)];
    // Of one value, with the least area and with one pixel less; and a ramp that is retoned and not split.
    cases.extend([house_grey(&[100; 64], 8), house_grey(&[100; 20], 5), house_grey(&[100; 19], 19)]);
    cases.push(house_grey(&[0, 25, 50, 75, 100, 125, 150, 175, 200, 225], 10));
    let mut random = Random::new(100);
    for (last_level, area, numbers) in NEARLY {
        cases.push(telling(&mut random, last_level, area, numbers));
    }
    // Pictures that it changes, grey and coloured.
    for _ in 0..2 {
        let base = random.byte() / 2;
        let greys: Vec<u8> = (0..144).map(|p| base + (3 * (p % 12 + p / 12) + random.below(6)) as u8).collect();
        let grey = house_grey(&greys, 12);
        let bytes = grey.bytes.iter().map(|&v| v.saturating_sub(random.below(8) as u8)).collect();
        cases.extend([Case { bytes, ..grey.clone() }, grey]);
    }
    for _ in 0..8 {
        let mut case = house_grey(&random_plane(&mut random, 16, 256), 16);
        case.output += random.one_of(&[0, 1, 5]);
        case.marks += random.one_of(&[0, 3]);
        case.queue += random.one_of(&[0, 3]);
        cases.push(case);
    }
    let mut tests = size_tests();
    tests.extend([lengths_test(), memory_test(), output_test()]);
    cases.extend(faulty(&house_grey(&[10, 20, 30, 40], 2), &tests, &[]));
    cases
}

/// A picture that the house setting enhances otherwise than these settings do: bands of a few values, from dark to
/// light.
fn telling(random: &mut Random, last_level: u8, area: u32, numbers: [u16; 2]) -> Case {
    for _ in 0..100_000 {
        let (base, step) = (random.below(150), random.between(1, 60));
        let values: Vec<u8> = (0..random.between(2, 8)).map(|_| (base + random.below(step)) as u8).collect();
        let mut greys: Vec<u8> = (0..144).map(|_| random.one_of(&values).min(random.one_of(&values))).collect();
        greys.sort_unstable();
        let house = house_grey(&greys, 12);
        let other = enhance_grey(&greys, 12, last_level, area, 0, numbers);
        if !retoned(&house).starts_with(&retoned(&other)) {
            return house;
        }
    }
    panic!("no picture tells the house setting from {last_level}, {area}, {numbers:?}");
}

/// The line that answers an enhancement, without the components kept back.
fn retoned(case: &Case) -> String {
    let line = answers(&encode(case));
    let words = line.trim_end().split(' ').enumerate();
    words.filter(|&(place, _)| place != 1).map(|(_, word)| format!("{word} ")).collect()
}
