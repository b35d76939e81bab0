//! What each rule of the library makes of the grain in a sky.

use crate::methods::{with, AFFINE, LIMITED};
use crate::{frame_of, hundredths, pictures};
use mlhe::{Counts, Frame, Memory, Rule, Settings};

/// The skies: a name, the row of the horizon, and the light of the land below.
const SKIES: [(&str, usize, i64); 3] =
    [("sky alone", 192, 0), ("sky over dark land", 144, 80), ("sky over rock and snow", 96, 235)];

/// The rules, from the house setting's on.
const RULES: [(&str, Rule); 4] = [
    ("plain, 80 to 300", Settings::HOUSE.rule),
    ("limited, k 20", LIMITED),
    ("affine, 50 to 300", AFFINE),
    ("affine, 50 to 200", Rule::Affine { segments: 10, smin: 50, smax: 200 }),
];

/// Sums over the rows of a sky.
#[derive(Debug, PartialEq, Eq)]
struct Sums {
    /// Of the differences of neighbours in a row.
    noise: usize,
    /// Of the values of the lower half, less those of the upper half.
    gradient: usize,
}

fn sums(sky: &[u8], w: usize) -> Sums {
    let (upper, lower) = sky.split_at(sky.len() / 2);
    let sum = |half: &[u8]| half.iter().map(|&v| usize::from(v)).sum::<usize>();
    let pairs = sky.chunks(w).flat_map(|row| row.windows(2));
    let noise = pairs.map(|pair| usize::from(pair[0].abs_diff(pair[1]))).sum();
    Sums { noise, gradient: sum(lower) - sum(upper) }
}

/// The quotient in hundredths, rounded to nearest.
fn quotient(x: usize, y: usize) -> String {
    hundredths((100 * x + y / 2) / y)
}

/// The rows of one sky: the picture, and each rule.
fn rows(name: &str, frame: &Frame, horizon: usize) -> String {
    let (w, n) = (frame.width(), frame.width() * horizon);
    let plane = frame.intensity();
    let before = sums(&plane.values()[..n], w);
    let cells = |sums: &Sums| [quotient(sums.noise, horizon * (w - 1)), quotient(sums.gradient, n / 2)];
    let [noise, gradient] = cells(&before);
    let mut rows = format!("| {name} | (the picture) | {noise} | | {gradient} | | | |\n");
    for (name, rule) in RULES {
        let done = frame.enhanced(&with(rule), &mut Memory::new()).expect("the settings are sound");
        let after = sums(&done.plane.values()[..n], w);
        let [noise, gradient] = cells(&after);
        let times = [quotient(after.noise, before.noise), quotient(after.gradient, before.gradient)];
        let Counts { retoned, kept } = done.counts;
        rows += &format!("|  | {name} | {noise} | {} | {gradient} | {} | {retoned} | {kept} |\n", times[0], times[1]);
    }
    rows
}

pub fn table() -> String {
    let mut table = String::from("| Picture | Rule | Noise | times | Gradient | times | Retoned | Kept |\n");
    table.push_str("|---|---|---:|---:|---:|---:|---:|---:|\n");
    for (name, horizon, light) in SKIES {
        table.push_str(&rows(name, &frame_of(pictures::sky(horizon, light)), horizon));
    }
    table
}

#[cfg(test)]
mod tests {
    use super::*;

    #[test]
    fn noise_is_along_the_rows_and_the_gradient_across() {
        assert_eq!(sums(&[5, 5, 5, 8, 8, 8], 3), Sums { noise: 0, gradient: 9 });
        assert_eq!(sums(&[5, 7, 4, 9, 9, 8], 3), Sums { noise: 2 + 3 + 1, gradient: 26 - 16 });
    }

    #[test]
    fn quotients_are_rounded() {
        assert_eq!([quotient(2, 3), quotient(1, 8), quotient(300, 1)], ["0.67", "0.13", "300.00"]);
    }

    /// Noise and gradient of a sky after the levels up to `last`, over those of the picture, in hundredths.
    fn times((_, horizon, light): (&str, usize, i64), rule: Rule, last: u8) -> [usize; 2] {
        let frame = frame_of(pictures::sky(horizon, light));
        let done = frame.enhanced(&with(rule).with_last(last), &mut Memory::new()).expect("the settings are sound");
        let (w, n) = (frame.width(), frame.width() * horizon);
        let [before, after] = [frame.intensity(), done.plane].map(|plane| sums(&plane.values()[..n], w));
        [100 * after.noise / before.noise, 100 * after.gradient / before.gradient]
    }

    /// As the page says.
    #[test]
    fn grain_and_gradient_are_stretched_alike() {
        for sky in SKIES {
            for (name, rule) in RULES {
                let [noise, gradient] = times(sky, rule, 7);
                assert!(10 * noise.abs_diff(gradient) < gradient, "{}, {name}", sky.0);
            }
        }
    }

    /// As the page says.
    #[test]
    fn levels_that_keep_the_sky() {
        let [alone, dark, snow] = SKIES;
        let [(_, plain), _, (_, steep), (_, gentle)] = RULES;
        assert_eq!(times(alone, plain, 0), [100, 100]);
        for sky in [alone, dark] {
            assert_eq!(times(sky, steep, 0), [100, 100]);
            assert_eq!(times(sky, gentle, 2), [100, 100]);
            assert!(times(sky, plain, 1)[0] > 300 && times(sky, steep, 1)[0] < 300);
        }
        assert!(times(snow, steep, 0)[0] < 300 && times(snow, steep, 7)[0] > 300);
        assert!(times(snow, gentle, 0)[0] < 200 && times(snow, gentle, 7)[0] > 200);
    }

    /// Without its grain a row of the sky would have one value: the grain is of at most three grey levels.
    #[test]
    fn grain_alone_differs_in_a_row() {
        for (name, horizon, light) in SKIES {
            let plane = frame_of(pictures::sky(horizon, light)).intensity();
            for row in plane.values().chunks(plane.width()).take(horizon) {
                let (least, greatest) = (row.iter().min().expect("a pixel"), row.iter().max().expect("a pixel"));
                assert!(greatest - least <= 6, "{name}");
            }
        }
    }
}
