//! Random calls, and parts of them.

use crate::sound::{enhance_grey, pass_on, ruled, FREE};
use mlhe_reference::cases::Case;
use mlhe_reference::random::Random;
use mlhe_reference::{Components, Rule};

/// A random plane of w columns: noise, few values, narrow ranges, ramps or neighbouring pairs of values.
pub fn random_plane(random: &mut Random, w: usize, n: usize) -> Vec<u8> {
    let style = random.below(5);
    let (start, step) = (random.byte(), random.between(1, 40));
    let values: Vec<u8> = (0..random.between(2, 5)).map(|_| random.byte()).collect();
    let pixel = |p: usize| match style {
        0 => random.byte(),
        1 => random.one_of(&values),
        2 => start.saturating_add(random.below(9) as u8),
        3 => start.wrapping_add((step * (p % w + p / w)) as u8),
        _ => (start & 0xFE) + random.below(2) as u8,
    };
    (0..n).map(pixel).collect()
}

/// A random plane of w columns with thin wires, on one value, on a checkerboard of two, or on any random plane.
pub fn random_wires(random: &mut Random, w: usize, n: usize) -> Vec<u8> {
    let two = [random.byte(), random.byte()];
    let mut plane = match random.below(3) {
        0 => random_plane(random, w, n),
        1 => vec![two[0]; n],
        _ => (0..n).map(|p| two[(p % w + p / w) % 2]).collect(),
    };
    for _ in 0..random.between(1, 4) {
        let least = random.byte();
        for p in random.wire(w, n / w) {
            plane[p] = least.saturating_add(random.below(9) as u8);
        }
    }
    plane
}

/// A random plain or limited rule, which is sound.
pub fn random_rule(random: &mut Random) -> Rule {
    if random.below(5) < 3 {
        let low = random.one_of(&[0, 0, 0, 50, 80, 100]);
        Rule::Plain { low, high: random.one_of(&[100, 150, 300, 300, 1_000, 2_550, 25_500, 25_500]) }
    } else {
        let random_clip = random.between(0, 1_000) as u32;
        Rule::Limited { k: random.one_of(&[0, 1, 10, 30, 100, 300, 999, 1_000, random_clip]) }
    }
}

/// A random affine rule, which is sound.
pub fn random_affine(random: &mut Random) -> Rule {
    let random_segments = random.between(1, 16) as u32;
    let segments = random.one_of(&[1, 2, 2, 3, 5, 10, 16, random_segments]);
    let slopes = [[0, 10_000], [0, 1_000], [50, 300], [100, 100], [100, 10_000], [200, 400], [10_000, 10_000]];
    let [smin, smax] = random.one_of(&slopes);
    Rule::Affine { segments, smin, smax }
}

/// A random rule of all three, which is sound.
pub fn random_any(random: &mut Random) -> Rule {
    if random.below(5) < 2 {
        random_affine(random)
    } else {
        random_rule(random)
    }
}

/// A random section: of the recursion, any at all, or most often one laid around two values of the plane.
pub fn random_section(random: &mut Random, plane: &[u8]) -> [u8; 2] {
    let level = random.below(40);
    if level < 8 {
        let width = 256 >> level;
        let a = random.below(256 / width) * width;
        return [a as u8, (a + width - 1) as u8];
    }
    let two = if level < 10 { [random.byte(), random.byte()] } else { [random.one_of(plane), random.one_of(plane)] };
    let margin = random.one_of(&[0, 1, 5, 60]);
    [two[0].min(two[1]).saturating_sub(margin), two[0].max(two[1]).saturating_add(margin)]
}

/// Sides up to these.
pub fn random_sides(random: &mut Random, w: usize, h: usize) -> (usize, usize) {
    (random.between(1, w), random.between(1, h))
}

/// A random pass on a plane of at most these sides. Most least areas are about the size of a component.
pub fn random_pass(random: &mut Random, w: usize, h: usize) -> Case {
    let (w, h) = random_sides(random, w, h);
    let plane = random_plane(random, w, w * h);
    random_pass_over(random, &plane, w, random_rule, 4)
}

/// The same on this plane of w columns, with a rule that is drawn so and with so many neighbours.
pub fn random_pass_over(
    random: &mut Random,
    plane: &[u8],
    w: usize,
    draw: fn(&mut Random) -> Rule,
    neighbours: u8,
) -> Case {
    let rule = draw(random);
    let section = random_section(random, plane);
    let components = Components::new(w, plane.len() / w, neighbours).of_section(plane, section[0], section[1]);
    let mut areas = vec![1, 1, 1];
    areas.extend(components.iter().map(|component| component.len() as u32));
    let area = random.one_of(&areas) + random.one_of(&[0, 0, 0, 1]);
    let mut case = ruled(pass_on(plane, w, section, area, 0, FREE), rule);
    case.neighbours = neighbours;
    case.marks += random.one_of(&[0, 0, 1, 9]);
    case.queue += random.one_of(&[0, 0, 1, 9]);
    case
}

/// A random enhancement of a frame of at most these sides, grey or coloured.
pub fn random_enhance(random: &mut Random, w: usize, h: usize) -> Case {
    let (w, h) = random_sides(random, w, h);
    let n = w * h;
    let rule = random_rule(random);
    let last_level = random.one_of(&[0, 1, 2, 3, 4, 5, 6, 7, 7, 7, 7]);
    let area = random.one_of(&[1, 1, 2, 3, 6, 20]);
    let greys = random_plane(random, w, n);
    let mut case = ruled(enhance_grey(&greys, w, last_level, area, 0, FREE), rule);
    if random.below(2) == 0 {
        case.bytes = random_plane(random, w, 3 * n);
    }
    case.output += random.one_of(&[0, 0, 0, 1, 5]);
    case.marks += random.one_of(&[0, 0, 3]);
    case.queue += random.one_of(&[0, 0, 3]);
    case
}

/// Enhancements and passes by all three rules and with both numbers of neighbours, on planes of up to 20 by 14 pixels.
pub fn random_cases(number: usize, seed: u64) -> Vec<Case> {
    let mut random = Random::new(seed);
    let mut cases = Vec::new();
    for _ in 0..number {
        for case in [random_enhance(&mut random, 20, 14), random_pass(&mut random, 20, 14)] {
            let case = if random.below(3) == 0 { ruled(case, random_affine(&mut random)) } else { case };
            cases.push(Case { neighbours: random.one_of(&[4, 4, 8]), ..case });
        }
    }
    cases
}
