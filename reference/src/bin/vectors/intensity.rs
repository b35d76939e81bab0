//! Cases of `intensity`.

use crate::chance::{random_plane, random_sides};
use crate::faults::{faulty, lengths_test, size_tests, Test};
use crate::sound::sound;
use mlhe_reference::cases::{Case, Kind};
use mlhe_reference::random::Random;

pub fn cases() -> Vec<Case> {
    let mut random = Random::new(10);
    let mut cases = Vec::new();
    // All 766 sums of channels, and two more to fill the third plane.
    let sums: Vec<usize> = (0..766).chain([0, 765]).collect();
    for part in sums.chunks(256) {
        let channels = |&sum: &usize| {
            let red = sum.min(255);
            let green = (sum - red).min(255);
            [green as u8, (sum - red - green) as u8, red as u8]
        };
        cases.push(sound(Kind::Intensity, 16, 16, part.iter().flat_map(channels).collect(), vec![99; 256]));
    }
    for _ in 0..60 {
        let (w, h) = random_sides(&mut random, 5, 3);
        let frame = random_plane(&mut random, w, 3 * w * h);
        cases.push(sound(Kind::Intensity, w, h, frame, vec![random.byte(); w * h]));
    }
    let frame = (0..12).map(|i| 20 * i).collect();
    let tests: Vec<Test> = size_tests().into_iter().chain([lengths_test()]).collect();
    cases.extend(faulty(&sound(Kind::Intensity, 2, 2, frame, vec![1, 2, 3, 4]), &tests, &[]));
    cases
}
