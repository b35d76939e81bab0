//! The three tone rules, on the values of one component.

/// A tone rule with its own numbers.
#[derive(Clone, Copy, Debug, PartialEq, Eq)]
pub enum Rule {
    /// Algorithm 5, with the least and the greatest ratio of the ranges in hundredths.
    Plain { low: u32, high: u32 },
    /// Algorithm 7, with the clip in thousandths.
    Limited { k: u32 },
    /// Algorithm 8, with the number N of segments, and the least and the greatest slope of a segment in hundredths.
    Affine { segments: u32, smin: u32, smax: u32 },
}

/// x / y to the nearest whole number, halves upward.
pub(crate) fn rounded(x: u128, y: u128) -> u128 {
    (2 * x + y) / (2 * y)
}

/// The new values of a component of the section [a, b], given its old ones and in their order; nothing if the rule
/// keeps it back.
pub fn retoned(values: &[u8], a: u8, b: u8, rule: &Rule) -> Option<Vec<u8>> {
    let tone = match *rule {
        Rule::Plain { .. } => plain(values, a, b),
        Rule::Limited { k } => limited(values, a, b, k),
        Rule::Affine { segments, smin, smax } => affine(values, a, b, [segments, smin, smax])?,
    };
    let new: Vec<u8> = values.iter().map(|&v| tone[usize::from(v)]).collect();
    match *rule {
        Rule::Plain { low, high } if kept_back(range(values), range(&new), low, high) => None,
        _ => Some(new),
    }
}

/// How many of the values equal v, for each v.
fn histogram(values: &[u8]) -> [u128; 256] {
    let mut counts = [0; 256];
    for &v in values {
        counts[usize::from(v)] += 1;
    }
    counts
}

/// The greatest less the least value.
fn range(values: &[u8]) -> u64 {
    let least = values.iter().min().expect("a component has a pixel");
    let greatest = values.iter().max().expect("a component has a pixel");
    u64::from(greatest - least)
}

/// Whether the plain rule keeps the old values: s and t are the ranges before and after.
fn kept_back(s: u64, t: u64, low: u32, high: u32) -> bool {
    s == 0 || 100 * t > u64::from(high) * s || 100 * t < u64::from(low) * s
}

/// v becomes a + round(D × c(v) / m).
fn plain(values: &[u8], a: u8, b: u8) -> [u8; 256] {
    let counts = histogram(values);
    let m = values.len() as u128;
    let d = u128::from(b - a);
    let mut tone = [0; 256];
    let mut c = 0;
    for v in a..=b {
        c += counts[usize::from(v)];
        tone[usize::from(v)] = a + rounded(d * c, m) as u8;
    }
    tone
}

/// v becomes a + round(D × S(v) / (1,000 × m)), where S(v) adds up, from a to v, the clipped counts and E / W each.
/// All is multiplied by W, so that no part is rounded before the end.
fn limited(values: &[u8], a: u8, b: u8, k: u32) -> [u8; 256] {
    let counts = histogram(values);
    let m = values.len() as u128;
    let d = u128::from(b - a);
    let width = d + 1;
    let clipped = |v: u8| (1_000 * counts[usize::from(v)]).min(u128::from(k) * m);
    let excess = 1_000 * m - (a..=b).map(clipped).sum::<u128>();
    let mut tone = [0; 256];
    let mut sum = 0;
    for v in a..=b {
        sum += width * clipped(v) + excess;
        tone[usize::from(v)] = a + rounded(d * sum, width * 1_000 * m) as u8;
    }
    tone
}

/// A point of the affine rule: its height is the offset from a in units of 1 / (100 × N).
#[derive(Clone, Copy, Debug, PartialEq, Eq)]
struct Point {
    value: u8,
    height: u128,
}

/// The N + 1 points. Point 0 is at a with height 0, and point j at the least v of [a, b] with N × c(v) ≥ j × m. With d
/// the distance to the point before, the height grows by 100 × D × j less the height before, held between smin × N × d
/// and smax × N × d.
fn points(values: &[u8], a: u8, b: u8, numbers: [u32; 3]) -> Vec<Point> {
    let [n, smin, smax] = numbers.map(u128::from);
    let m = values.len() as u128;
    let range = u128::from(b - a);
    let mut sorted = values.to_vec();
    sorted.sort_unstable();
    let mut last = Point { value: a, height: 0 };
    let mut points = vec![last];
    for j in 1..=n {
        // c(v) is at least k where v is at least the k-th value in order; k is j × m / N, rounded up.
        let value = sorted[(j * m).div_ceil(n) as usize - 1];
        let d = u128::from(value - last.value);
        let growth = (100 * range * j).saturating_sub(last.height).max(smin * n * d).min(smax * n * d);
        last = Point { value, height: last.height + growth };
        points.push(last);
    }
    points
}

/// v becomes a + round(D × height(v) / Y), where straight lines join the heights of the points and Y is the last one;
/// nothing if D = 0 or Y < 100 × N × D.
fn affine(values: &[u8], a: u8, b: u8, numbers: [u32; 3]) -> Option<[u8; 256]> {
    let points = points(values, a, b, numbers);
    let range = u128::from(b - a);
    let y = points[points.len() - 1].height;
    if range == 0 || y < 100 * u128::from(numbers[0]) * range {
        return None;
    }
    let mut tone = [0; 256];
    tone[usize::from(a)] = a;
    for line in points.windows(2) {
        let (from, to) = (line[0], line[1]);
        let d = u128::from(to.value - from.value);
        for v in (from.value..=to.value).skip(1) {
            // The height of v is multiplied by d, so that nothing is rounded before the end.
            let height = from.height * d + (to.height - from.height) * u128::from(v - from.value);
            tone[usize::from(v)] = a + rounded(range * height, y * d) as u8;
        }
    }
    Some(tone)
}

#[cfg(test)]
mod tests {
    use super::*;
    use crate::random::Random;

    #[test]
    fn halves_are_rounded_upward() {
        let rounded_halves: Vec<u128> = (0..7).map(|x| rounded(x, 2)).collect();
        assert_eq!(rounded_halves, [0, 1, 1, 2, 2, 3, 3]);
        assert_eq!((rounded(4, 3), rounded(5, 3), rounded(0, 7)), (1, 2, 0));
    }

    #[test]
    fn the_limits_of_the_ratio_are_allowed_themselves() {
        assert!(!kept_back(10, 30, 80, 300));
        assert!(kept_back(10, 31, 80, 300));
        assert!(!kept_back(10, 8, 80, 300));
        assert!(kept_back(10, 7, 80, 300));
        assert!(kept_back(0, 0, 0, 25_500));
    }

    /// The clipped and spread parts together are 1,000 times the pixel count, so the greatest value reaches b.
    #[test]
    fn the_limited_rule_reaches_b_for_every_clip() {
        for k in 0..=1_000 {
            let tone = limited(&[3, 3, 3, 5, 9, 9], 2, 9, k);
            assert_eq!(tone[9], 9, "k {k}");
            assert!(tone[2..9].windows(2).all(|pair| pair[0] <= pair[1]), "k {k}");
        }
    }

    /// The new values under the affine rule.
    fn affine_values(values: &[u8], [a, b]: [u8; 2], [segments, smin, smax]: [u32; 3]) -> Option<Vec<u8>> {
        retoned(values, a, b, &Rule::Affine { segments, smin, smax })
    }

    /// The values and heights of the points.
    fn heights(values: &[u8], [a, b]: [u8; 2], numbers: [u32; 3]) -> Vec<(u8, u128)> {
        points(values, a, b, numbers).iter().map(|point| (point.value, point.height)).collect()
    }

    #[test]
    fn the_affine_example() {
        let row = [10, 10, 20, 30];
        assert_eq!(heights(&row, [0, 255], [2, 100, 10_000]), [(0, 0), (10, 25_500), (30, 51_000)]);
        assert_eq!(affine_values(&row, [0, 255], [2, 100, 10_000]), Some(vec![128, 128, 191, 255]));
        assert_eq!(heights(&row, [0, 255], [2, 100, 300]), [(0, 0), (10, 6_000), (30, 18_000)]);
        assert_eq!(affine_values(&row, [0, 255], [2, 100, 300]), None);
    }

    /// One line from a to the greatest value.
    #[test]
    fn one_segment() {
        assert_eq!(heights(&[10, 10, 20, 30], [0, 255], [1, 0, 10_000]), [(0, 0), (30, 25_500)]);
        assert_eq!(affine_values(&[10, 10, 20, 30], [0, 255], [1, 0, 10_000]), Some(vec![85, 85, 170, 255]));
        assert_eq!(affine_values(&[10, 10, 20, 30], [0, 255], [1, 0, 850]), Some(vec![85, 85, 170, 255]));
        assert_eq!(affine_values(&[10, 10, 20, 30], [0, 255], [1, 0, 849]), None);
        assert_eq!(affine_values(&[7], [0, 255], [1, 0, 10_000]), Some(vec![255]));
    }

    /// 255 × 20 / 101 is 50.495; from a height that was rounded before it would be 50.5.
    #[test]
    fn heights_are_not_rounded() {
        assert_eq!(affine_values(&[20, 101], [0, 255], [1, 0, 10_000]), Some(vec![50, 255]));
    }

    /// Of points at one value the first has the height, and the others stay at it: so the last height lacks something,
    /// unless smin makes up for it.
    #[test]
    fn fewer_values_than_segments() {
        let row = [10, 10, 20, 30];
        let found = heights(&row, [0, 255], [16, 0, 10_000]);
        assert_eq!(found[..2], [(0, 0), (10, 25_500)]);
        assert!(found[1..=8].iter().all(|&point| point == (10, 25_500)));
        assert!(found[9..=12].iter().all(|&point| point == (20, 9 * 25_500)));
        assert!(found[13..=16].iter().all(|&point| point == (30, 13 * 25_500)));
        assert_eq!(affine_values(&row, [0, 255], [16, 0, 10_000]), None);
        assert_eq!(affine_values(&row, [0, 255], [16, 10_000, 10_000]), Some(vec![85, 85, 170, 255]));
        // Three steps of 16 × 10 × 850 are 16 × 25,500.
        assert_eq!(affine_values(&row, [0, 255], [16, 849, 10_000]), None);
        assert_eq!(affine_values(&row, [0, 255], [16, 850, 10_000]), Some(vec![85, 85, 170, 255]));
        let found = heights(&[10, 10, 20, 60], [0, 255], [16, 500, 10_000]);
        assert_eq!([found[1], found[9], found[16]], [(10, 80_000), (20, 229_500), (60, 549_500)]);
        assert_eq!(affine_values(&[10, 10, 20, 60], [0, 255], [16, 500, 10_000]), Some(vec![37, 37, 107, 255]));
    }

    #[test]
    fn one_value() {
        for numbers in [[1, 0, 10_000], [2, 100, 10_000], [16, 10_000, 10_000]] {
            assert_eq!(affine_values(&[9, 9], [9, 9], numbers), None);
            assert_eq!(affine_values(&[9, 9], [9, 10], numbers), None);
        }
        // All points are at 9, the first with 100 × D and the others with no distance to grow by.
        assert_eq!(affine_values(&[9, 9], [8, 9], [1, 0, 100]), Some(vec![9, 9]));
        assert_eq!(affine_values(&[9, 9], [8, 9], [2, 0, 10_000]), None);
        assert_eq!(affine_values(&[9, 9], [8, 9], [2, 100, 10_000]), Some(vec![9, 9]));
    }

    /// The lines are one, from a to the greatest value.
    #[test]
    fn equal_slopes() {
        for segments in 1..=16 {
            let stretched = affine_values(&[20, 30, 30, 50], [10, 90], [segments, 200, 200]);
            assert_eq!(stretched, Some(vec![30, 50, 50, 90]));
            assert_eq!(affine_values(&[20, 30, 30, 50], [10, 91], [segments, 200, 200]), None);
            assert_eq!(affine_values(&[20, 30, 30, 50], [10, 90], [segments, 10_000, 10_000]), stretched);
            assert_eq!(affine_values(&[20, 30, 30, 50], [10, 90], [segments, 0, 0]), None);
        }
    }

    /// Exactly enough: each value stays as it was, and yet it isn't kept back.
    #[test]
    fn the_last_height_may_be_the_least() {
        for segments in 1..=16 {
            let values: Vec<u8> = (3..=40).collect();
            assert_eq!(heights(&values, [3, 40], [segments, 100, 100])[segments as usize].1, 3_700 * segments as u128);
            assert_eq!(affine_values(&values, [3, 40], [segments, 100, 100]), Some(values.clone()));
            assert_eq!(affine_values(&values, [3, 41], [segments, 100, 100]), None);
            assert_eq!(affine_values(&values, [2, 40], [segments, 99, 99]), None);
        }
    }

    /// With smin 0 the long way from 20 to 220 has as little to rise as the short ones; with 0 and 0 nothing rises.
    #[test]
    fn a_flat_stretch() {
        let values = [10, 20, 220, 255];
        let found = heights(&values, [0, 255], [4, 0, 10_000]);
        assert_eq!(found, [(0, 0), (10, 25_500), (20, 51_000), (220, 76_500), (255, 102_000)]);
        let tone = affine(&values, 0, 255, [4, 0, 10_000]).expect("not kept");
        assert_eq!([10, 20, 220, 255].map(|v| tone[v]), [64, 128, 191, 255]);
        assert_eq!(tone[116..123], [158, 158, 159, 159, 159, 160, 160]);
        assert_eq!(affine_values(&values, [0, 255], [4, 0, 0]), None);
    }

    /// smin takes the first height above 100 × D, and then the second grows by no less.
    #[test]
    fn a_height_above_its_share() {
        let numbers = [2, 400, 10_000];
        assert_eq!(heights(&[100, 120], [0, 255], numbers), [(0, 0), (100, 80_000), (120, 96_000)]);
        assert_eq!(affine_values(&[100, 120], [0, 255], numbers), Some(vec![213, 255]));
        // Back to the share where it can be reached.
        let numbers = [3, 150, 10_000];
        let found = heights(&[100, 110, 160], [0, 255], numbers);
        assert_eq!(found, [(0, 0), (100, 45_000), (110, 51_000), (160, 76_500)]);
        assert_eq!(affine_values(&[100, 110, 160], [0, 255], numbers), Some(vec![150, 170, 255]));
    }

    /// The points are where the definition has them, with smin 0 and slopes enough at a + D × j / N.
    #[test]
    fn points_by_their_definition() {
        let mut random = Random::new(8);
        for _ in 0..2_000 {
            let (values, [a, b]) = random_component(&mut random);
            let n = random.between(1, 16) as u32;
            let (m, range) = (values.len() as u32, u128::from(b - a));
            let c = |v: u8| values.iter().filter(|&&value| value <= v).count() as u32;
            let found = points(&values, a, b, [n, 0, u32::MAX]);
            assert_eq!((found.len() as u32, found[0]), (n + 1, Point { value: a, height: 0 }));
            for (j, pair) in (1..).zip(found.windows(2)) {
                assert_eq!((a..=b).find(|&v| n * c(v) >= j * m), Some(pair[1].value));
                let share = if pair[0].value < pair[1].value { 100 * range * u128::from(j) } else { pair[0].height };
                assert_eq!(pair[1].height, share);
            }
        }
    }

    /// The tone of a value, written out for the line that it is on: 2 × D × h - Y × d < 2 × Y × d × new ≤ 2 × D × h +
    /// Y × d, where h is d times its height.
    #[test]
    fn tones_by_their_definition() {
        let mut random = Random::new(9);
        let (mut kept, mut given) = (0, 0);
        for _ in 0..6_000 {
            let (values, [a, b]) = random_component(&mut random);
            let numbers = random_numbers(&mut random);
            let (range, points) = (i128::from(b - a), points(&values, a, b, numbers));
            let y = points[points.len() - 1].height as i128;
            let Some(new) = affine_values(&values, [a, b], numbers) else {
                assert!(range == 0 || y < 100 * i128::from(numbers[0]) * range);
                kept += 1;
                continue;
            };
            assert!(range > 0 && y >= 100 * i128::from(numbers[0]) * range);
            given += 1;
            for (&v, &to) in values.iter().zip(&new) {
                for line in points.windows(2).filter(|line| line[0].value <= v && v <= line[1].value) {
                    let [x, end] = [line[0].value, line[1].value].map(i128::from);
                    let [g, top] = [line[0].height, line[1].height].map(|height| height as i128);
                    let d = (end - x).max(1);
                    let height = g * d + (top - g) * (i128::from(v) - x);
                    let rest = 2 * range * height - 2 * y * d * i128::from(to - a);
                    assert!(-y * d <= rest && rest < y * d, "{values:?}, [{a}, {b}], {numbers:?}");
                }
            }
        }
        assert!(kept > 1_000 && given > 1_000, "{kept} kept, {given} not");
    }

    /// It never falls and stays in [a, b]; a stays a, and the greatest value becomes b.
    #[test]
    fn the_affine_rule_is_sound() {
        let mut random = Random::new(10);
        let mut given = 0;
        for _ in 0..6_000 {
            let (mut values, [a, b]) = random_component(&mut random);
            values.sort_unstable();
            let numbers = random_numbers(&mut random);
            let Some(new) = affine_values(&values, [a, b], numbers) else { continue };
            given += 1;
            let what = format!("{values:?}, [{a}, {b}], {numbers:?}");
            assert!(new.windows(2).all(|pair| pair[0] <= pair[1]), "{what}");
            assert!(new.iter().all(|&v| a <= v && v <= b), "{what}");
            assert_eq!(new.last(), Some(&b), "{what}");
            assert!(values.iter().zip(&new).all(|(&v, &to)| v != a || to == a), "{what}");
        }
        assert!(given > 1_000, "{given}");
    }

    /// A component of any values of a random section: few or many, wide or narrow.
    fn random_component(random: &mut Random) -> (Vec<u8>, [u8; 2]) {
        let (x, y) = (random.byte(), random.byte());
        let (a, b) = if random.below(8) == 0 { (0, 255) } else { (x.min(y), x.max(y)) };
        let width = random.between(0, usize::from(b - a));
        let start = random.between(a.into(), usize::from(b) - width);
        let length = random.one_of(&[1, 2, 3, 4, 9, 40]);
        ((0..length).map(|_| random.between(start, start + width) as u8).collect(), [a, b])
    }

    /// Sound numbers of the rule, at their limits and between them.
    fn random_numbers(random: &mut Random) -> [u32; 3] {
        let between = random.between(0, 10_000) as u32;
        let slopes = [0, 1, 50, 100, 101, 300, 1_000, 9_999, 10_000, between];
        let (x, y) = (random.one_of(&slopes), random.one_of(&slopes));
        [random.between(1, 16) as u32, x.min(y), x.max(y)]
    }
}
