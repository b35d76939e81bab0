//! The recursion over components equals the list of passes level by level, in the plane and in both counts, which
//! together are the components of sufficient area; and no chain disturbs the shapes of a plane.

use mlhe_reference::extrema::{keeps_shapes, reversed_channels};
use mlhe_reference::random::Random;
use mlhe_reference::{enhance, intensity, level_by_level, pass, recolour, run_passes, sufficient, sufficient_in_all};
use mlhe_reference::{Pass, Rule, Settings};

const RULES: [Rule; 10] = [
    Rule::Plain { low: 0, high: 25_500 },
    Rule::Plain { low: 80, high: 300 },
    Rule::Plain { low: 0, high: 150 },
    Rule::Plain { low: 100, high: 100 },
    Rule::Limited { k: 0 },
    Rule::Limited { k: 300 },
    Rule::Limited { k: 1_000 },
    Rule::Affine { segments: 1, smin: 0, smax: 10_000 },
    Rule::Affine { segments: 2, smin: 100, smax: 300 },
    Rule::Affine { segments: 5, smin: 200, smax: 10_000 },
];

/// Enhances a grey frame of these intensities and runs the list on the same plane.
fn compare(greys: &[u8], w: usize, settings: &Settings) {
    let (n, h) = (greys.len(), greys.len() / w);
    let frame: Vec<u8> = greys.iter().flat_map(|&v| [v, v, v]).collect();
    let (mut plane, mut output) = (vec![0; n], vec![0; 3 * n]);
    let counts = enhance(&frame, w, h, settings, &mut plane, n, n, &mut output).expect("accepted");

    let mut last = greys.to_vec();
    let passes = level_by_level(settings);
    let sums = run_passes(&passes, &mut last, n, n, w, h).expect("accepted");
    assert_eq!((&plane, counts), (&last, sums), "{greys:?}, {w} columns, {settings:?}");
    let all = sufficient_in_all(&passes, greys, w, h);
    assert_eq!(counts.together(), all, "{greys:?}, {w} columns, {settings:?}");
    assert!(keeps_shapes(greys, &plane, w, h, 4), "{greys:?}, {w} columns, {settings:?}");
    let by_eight = settings.neighbours == 8;
    assert!(!by_eight || keeps_shapes(greys, &plane, w, h, 8), "{greys:?}, {w} columns, {settings:?}");
}

/// Every plane of w by h pixels with these values.
fn every_plane(w: usize, h: usize, values: &[u8], mut tell: impl FnMut(&[u8])) {
    let n = (w * h) as u32;
    for number in 0..values.len().pow(n) {
        let digit = |p: u32| values[number / values.len().pow(p) % values.len()];
        let plane: Vec<u8> = (0..n).map(digit).collect();
        tell(&plane);
    }
}

/// Every plane of this size with these values, every rule and every one of these levels and areas. Both numbers of
/// neighbours, where pixels can touch at a corner.
fn exhaust(w: usize, h: usize, values: &[u8], levels: &[u32], areas: &[u32]) {
    let numbers: &[u8] = if w > 1 && h > 1 { &[4, 8] } else { &[4] };
    every_plane(w, h, values, |plane| {
        for &last_level in levels {
            for &area in areas {
                for rule in RULES {
                    for &neighbours in numbers {
                        compare(plane, w, &Settings { last_level, area, rule, neighbours });
                    }
                }
            }
        }
    });
}

#[test]
fn one_pixel() {
    let values: Vec<u8> = (0..=255).collect();
    exhaust(1, 1, &values, &[0, 1, 2, 3, 4, 5, 6, 7], &[1, 2]);
}

#[test]
fn rows_of_two() {
    let values: Vec<u8> = (0..=255).step_by(5).chain([1, 2, 127, 128, 254]).collect();
    exhaust(2, 1, &values, &[7], &[1, 2]);
    exhaust(2, 1, &[0, 1, 2, 63, 64, 127, 128, 255], &[0, 1, 2, 3, 4, 5, 6], &[1, 2, 20]);
}

#[test]
fn rows_and_columns_of_three() {
    exhaust(3, 1, &[0, 1, 60, 127, 128, 190, 255], &[7], &[1, 2]);
    exhaust(1, 3, &[0, 90, 127, 128, 254], &[2, 7], &[1, 2]);
}

#[test]
fn squares_of_four() {
    exhaust(2, 2, &[0, 3, 100, 128, 255], &[1, 7], &[1, 2]);
}

#[test]
fn three_by_two() {
    exhaust(3, 2, &[0, 120, 200], &[7], &[1, 2]);
    exhaust(2, 3, &[10, 11], &[1, 4, 7], &[1, 3]);
}

#[test]
fn three_by_three_of_two_values() {
    exhaust(3, 3, &[40, 90], &[7], &[1, 3]);
}

/// A random plane of w columns with flat zones, steps, grain and thin wires.
fn random_plane(random: &mut Random, w: usize, n: usize) -> Vec<u8> {
    let values: Vec<u8> = (0..random.between(1, 12)).map(|_| random.byte()).collect();
    let grain = random.one_of(&[1, 1, 3, 20]);
    let mut plane: Vec<u8> = (0..n).map(|_| random.one_of(&values).saturating_add(random.below(grain) as u8)).collect();
    for _ in 0..random.below(3) {
        let value = random.byte();
        for p in random.wire(w, n / w) {
            plane[p] = value.saturating_add(random.below(grain) as u8);
        }
    }
    plane
}

fn random_rule(random: &mut Random) -> Rule {
    let mut two = |numbers: &[u32]| {
        let (one, other) = (random.one_of(numbers), random.one_of(numbers));
        (one.min(other), one.max(other))
    };
    let (low, high) = two(&[0, 1, 50, 80, 100, 120, 300, 1_000, 25_500]);
    let (smin, smax) = two(&[0, 1, 50, 100, 300, 1_000, 9_999, 10_000]);
    match random.below(5) {
        0 | 1 => Rule::Plain { low, high },
        2 => Rule::Limited { k: random.between(0, 1_000) as u32 },
        _ => Rule::Affine { segments: random.between(1, 16) as u32, smin, smax },
    }
}

#[test]
fn larger_planes_at_random() {
    let mut random = Random::new(1);
    for _ in 0..600 {
        let (w, h) = (random.between(1, 24), random.between(1, 24));
        let plane = random_plane(&mut random, w, w * h);
        let settings = Settings {
            last_level: random.between(0, 7) as u32,
            area: random.one_of(&[1, 2, 3, 5, 20, 100]),
            rule: random_rule(&mut random),
            neighbours: random.one_of(&[4, 8]),
        };
        compare(&plane, w, &settings);
    }
}

/// A call of a chain, with this number of neighbours or, seldom, with one that is refused.
fn random_call(random: &mut Random, neighbours: u8) -> Pass {
    let neighbours = if random.below(12) == 0 { random.one_of(&[0, 3, 5, 7, 9, 12, 255]) } else { neighbours };
    let (a, b) = (random.byte(), random.byte());
    Pass { a, b, area: random.between(0, 5) as u32, rule: random_rule(random), neighbours }
}

/// What a call of a chain is refused with.
fn expected_refusal(call: &Pass) -> Option<u8> {
    if call.a > call.b {
        Some(5)
    } else if call.area == 0 {
        Some(6)
    } else {
        (!matches!(call.neighbours, 4 | 8)).then_some(19)
    }
}

/// Chains from the intensities of frames, grey and coloured, with refused calls among their calls. A third of them
/// mixes four neighbours and eight. All keep the shapes by four neighbours, and those whose accepted calls all have
/// eight keep them by eight.
#[test]
fn chains_at_random() {
    let mut random = Random::new(2);
    let mut parted_by_eight = 0;
    for _ in 0..900 {
        let (w, h) = (random.between(1, 12), random.between(1, 12));
        let n = w * h;
        let frame = match random.below(3) {
            0 => random_plane(&mut random, w, 3 * n),
            _ => random_plane(&mut random, w, n).iter().flat_map(|&v| [v; 3]).collect(),
        };
        let mut plane = vec![0; n];
        intensity(&frame, w, h, &mut plane).expect("accepted");
        let first = plane.clone();
        let numbers = random.one_of(&[&[4][..], &[8], &[4, 8]]);
        let mut all_eight = true;
        for _ in 0..random.between(0, 8) {
            let number = random.one_of(numbers);
            let call = random_call(&mut random, number);
            let before = plane.clone();
            let answer = pass(&mut plane, n, n + random.below(3), w, h, &call);
            assert_eq!(answer.err(), expected_refusal(&call));
            all_eight &= answer.is_err() || call.neighbours == 8;
            match answer {
                Ok(counts) => assert_eq!(counts.together(), sufficient(&before, w, h, &call)),
                Err(_) => assert_eq!(plane, before),
            }
        }
        assert!(keeps_shapes(&first, &plane, w, h, 4));
        let by_eight = keeps_shapes(&first, &plane, w, h, 8);
        assert!(by_eight || !all_eight);
        parted_by_eight += usize::from(!by_eight);
        let mut output = vec![0; 3 * n];
        recolour(&frame, w, h, &plane, &mut output).expect("accepted");
        assert_eq!(reversed_channels(&frame, &output), 0);
    }
    assert!(parted_by_eight > 30, "{parted_by_eight}");
}
