//! Cases of `write`.

use crate::chance::{random_plane, random_sides};
use crate::faults::{faulty, output_test, size_tests, Test};
use crate::sound::sound;
use mlhe_reference::cases::{Case, Kind};
use mlhe_reference::random::Random;

pub fn cases() -> Vec<Case> {
    let mut random = Random::new(90);
    let mut cases = Vec::new();
    let sides = [(1, 1), (9, 1), (10, 1), (1, 11), (99, 1), (1, 100), (101, 1), (999, 1), (1, 1_000)];
    for (w, h) in sides {
        cases.push(sound(Kind::Write, w, h, random_plane(&mut random, w, 3 * w * h), Vec::new()));
    }
    for _ in 0..60 {
        let (w, h) = random_sides(&mut random, 16, 5);
        let mut case = sound(Kind::Write, w, h, random_plane(&mut random, w, 3 * w * h), Vec::new());
        case.output = (case.output + random.one_of(&[1, 1, 1, 1, 2, 9, 0])) - 1;
        cases.push(case);
    }
    let tests: Vec<Test> = size_tests()
        .into_iter()
        .chain([(3, vec![(|case| case.bytes.push(7)) as fn(&mut Case), |case| case.bytes.truncate(11)]), output_test()])
        .collect();
    let frame = (0..12).map(|i| 20 * i).collect();
    cases.extend(faulty(&sound(Kind::Write, 2, 2, frame, Vec::new()), &tests, &[]));
    cases
}
