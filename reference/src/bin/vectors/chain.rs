//! Cases of chains of calls on one plane.

use crate::chance::{random_plane, random_rule, random_section, random_sides};
use crate::sound::{ruled, sound};
use mlhe_reference::cases::{Case, Kind};
use mlhe_reference::random::Random;
use mlhe_reference::{intensity, Rule};

pub fn cases() -> Vec<Case> {
    chains(&mut Random::new(30), 95, 15, random_rule, |_| 4)
}

/// So many chains on small planes, then so many on larger ones, with rules and numbers of neighbours that are drawn so.
/// Chains: the first plane by intensity, passes on it with refused ones among them, and the colours of the last plane.
pub fn chains(
    random: &mut Random,
    small: usize,
    large: usize,
    draw: fn(&mut Random) -> Rule,
    neighbours: fn(&mut Random) -> u8,
) -> Vec<Case> {
    let mut cases = Vec::new();
    for chain in 0..small + large {
        let (w, h) = if chain < small { random_sides(random, 5, 3) } else { random_sides(random, 16, 16) };
        let n = w * h;
        let frame = random_plane(random, w, 3 * n);
        cases.push(sound(Kind::Intensity, w, h, frame.clone(), vec![0; n]));
        let mut first = vec![0; n];
        intensity(&frame, w, h, &mut first).expect("accepted");
        for _ in 0..random.between(0, 9) {
            let mut case = ruled(sound(Kind::Pass, w, h, Vec::new(), Vec::new()), draw(random));
            let [a, b] = random_section(random, &first);
            (case.a, case.b) = (a, b);
            case.area = random.one_of(&[1, 1, 1, 2, 3]);
            case.same_plane = true;
            case.neighbours = neighbours(random);
            match random.below(20) {
                0 => (case.a, case.b) = (b, a),
                1 => case.area = 0,
                2 => case.numbers[0] = 30_000,
                3 => case.queue -= 1,
                4 => case.marks = 0,
                _ => {}
            }
            cases.push(case);
        }
        let recolour = sound(Kind::Recolour, w, h, frame, Vec::new());
        cases.push(Case { same_plane: true, ..recolour });
    }
    cases
}
