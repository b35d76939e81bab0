//! Cases of `recolour`.

use crate::chance::{random_plane, random_sides};
use crate::faults::{faulty, lengths_test, output_test, size_tests, Test};
use crate::sound::sound;
use mlhe_reference::cases::{Case, Kind};
use mlhe_reference::random::Random;

pub fn cases() -> Vec<Case> {
    let pixel = |colour: [u8; 3], j: u8| sound(Kind::Recolour, 1, 1, colour.to_vec(), vec![j]);
    let mut cases = vec![pixel([200, 100, 0], 120), pixel([200, 100, 0], 150), pixel([0, 0, 1], 77)];
    let mut random = Random::new(40);
    for _ in 0..10 {
        let colours = (0..768).map(|_| random.byte()).collect();
        cases.push(sound(Kind::Recolour, 16, 16, colours, (0..=255).collect()));
    }
    for _ in 0..80 {
        let (w, h) = random_sides(&mut random, 5, 3);
        let frame = random_plane(&mut random, w, 3 * w * h);
        let plane = random_plane(&mut random, w, w * h);
        let mut case = sound(Kind::Recolour, w, h, frame, plane);
        case.output += random.one_of(&[0, 0, 1, 6]);
        cases.push(case);
    }
    // Both sides of J × M ≤ 255 × I: the pixel 200, 100, 0 reaches 255 between J 127 and J 128.
    cases.extend((124..=131).map(|j| pixel([200, 100, 0], j)));
    let frame = (0..12).map(|i| 20 * i).collect();
    let tests: Vec<Test> = size_tests().into_iter().chain([lengths_test(), output_test()]).collect();
    cases.extend(faulty(&sound(Kind::Recolour, 2, 2, frame, vec![200, 2, 90, 255]), &tests, &[]));
    cases
}
