//! Random input: sides, planes, frames, files, lists and numbers, most of them sound and the rest damaged.

use crate::guarded::Guarded;
use mlhe_reference::random::Random;
use mlhe_reference::{list_bytes_of, Pass, Rule, Version};

/// One time in so many.
pub fn one_in(random: &mut Random, times: usize) -> bool {
    random.below(times) == 0
}

/// Sides of a plane with few pixels; seldom one with more, or with the longest side.
pub fn sides(random: &mut Random) -> (usize, usize) {
    match random.below(400) {
        0 => (4_096, random.between(1, 2)),
        1 => (random.between(1, 2), 4_096),
        2 => (random.between(60, 130), random.between(60, 130)),
        3..=40 => (random.between(1, 200), random.between(1, 12)),
        41..=100 => (random.between(1, 4), random.between(1, 4)),
        _ => (random.between(1, 16), random.between(1, 16)),
    }
}

/// The sides that a call is told: the right ones, and seldom others, also such as overflow when multiplied.
pub fn told_sides(random: &mut Random, w: usize, h: usize) -> (usize, usize) {
    let wrong = [0, 1, 2, 255, 256, 1_024, 4_096, 4_097, 1 << 16, 1 << 20, 1 << 32, 1 << 63, usize::MAX];
    match random.below(40) {
        0 => (random.one_of(&wrong), h),
        1 => (w, random.one_of(&wrong)),
        2 => (random.one_of(&wrong), random.one_of(&wrong)),
        3 => random.one_of(&[(4_096, 257), (257, 4_096), (1_025, 1_024), (4_096, 4_096)]),
        4 => (h, w),
        _ => (w, h),
    }
}

/// A length where at least n are needed: mostly exact or long, sometimes short.
pub fn length(random: &mut Random, n: usize) -> usize {
    match random.below(30) {
        0 => random.below(n + 1),
        1 => n.saturating_sub(1),
        2..=9 => n + random.between(1, 40),
        _ => n,
    }
}

/// A length where exactly n are needed.
pub fn exact_length(random: &mut Random, n: usize) -> usize {
    match random.below(20) {
        0 => random.below(n + 1),
        1 => n + random.between(1, 3),
        _ => n,
    }
}

/// So many values of one of several kinds of picture, w to a row.
pub fn values(random: &mut Random, w: usize, count: usize) -> Vec<u8> {
    let kind = random.below(13);
    values_of(kind, random, w, count)
}

/// The same of the kinds that have many components of one value.
pub fn flat_values(random: &mut Random, w: usize, count: usize) -> Vec<u8> {
    let kind = random.one_of(&[0, 2, 5, 7, 9, 9, 9, 10, 11, 12]);
    values_of(kind, random, w, count)
}

fn values_of(kind: usize, random: &mut Random, w: usize, count: usize) -> Vec<u8> {
    let w = w.max(1);
    let (base, few) = (random.byte(), random.between(1, 6));
    let palette: Vec<u8> = (0..few).map(|_| random.byte()).collect();
    let (right, down) = (random.between(0, 9), random.between(0, 9));
    let block = random.between(1, 6);
    let blocks: Vec<u8> = (0..64).map(|_| random.one_of(&palette)).collect();
    let mut walk = base;
    let mut value = |p: usize| {
        let (x, y) = (p % w, p / w);
        match kind {
            0 => base,
            1 => random.byte(),
            2 => palette[random.below(few)],
            3 => base.wrapping_add(random.below(4) as u8),
            4 => (right * x + down * y) as u8,
            5 => palette[(x / block + y / block) % few],
            6 => ((right * x + down * y) / 4 + random.below(12)) as u8,
            7 if random.below(40) > 0 => base,
            7 => palette[random.below(few)],
            9 => blocks[(x / block + y / block * 8) % 64],
            10 => base,
            // A checkerboard whose pixels join by their corners, and one with wires on it.
            11 | 12 => blocks[(x + y) % 2].saturating_add(random.below(block) as u8),
            _ => {
                walk = walk.wrapping_add(random.one_of(&[0, 0, 0, 1, 255, 3, 40]));
                walk
            }
        }
    };
    let plane = (0..count).map(&mut value).collect();
    if matches!(kind, 10 | 12) {
        wired(random, w, plane)
    } else {
        plane
    }
}

/// Lays thin wires over a plane of w columns, each of values close together.
fn wired(random: &mut Random, w: usize, mut plane: Vec<u8>) -> Vec<u8> {
    let rows = plane.len() / w;
    for _ in 0..random.between(1, 5) {
        if rows > 0 {
            let (least, more) = (random.byte(), random.one_of(&[1, 1, 4, 30]));
            for p in random.wire(w, rows) {
                plane[p] = least.saturating_add(random.below(more) as u8);
            }
        }
    }
    plane
}

/// So many bytes of a frame: coloured, or grey as its intensity.
pub fn frame_bytes(random: &mut Random, w: usize, count: usize) -> Vec<u8> {
    let pixels = count.div_ceil(3);
    let tint = if one_in(random, 2) { [0, 0, 0] } else { [random.byte() / 4, random.byte() / 4, random.byte() / 4] };
    let noisy = one_in(random, 3);
    let mut bytes = Vec::new();
    for value in values(random, w, pixels) {
        for c in tint {
            let noise = if noisy { random.byte() } else { 0 };
            bytes.push(value.saturating_sub(c) ^ noise);
        }
    }
    bytes.truncate(count);
    bytes
}

/// The numbers of a pass, in the types of the C function.
pub struct PassNumbers {
    pub a: u8,
    pub b: u8,
    pub area: u32,
    pub rule: Guarded<u16>,
}

/// The numbers of the settings of an enhancement.
pub struct SettingsNumbers {
    pub last: u8,
    pub area: u32,
    pub rule: Guarded<u16>,
}

/// A rule's numbers in the places of `enum mlhe_rule_number`: code, first, second and segments. The number of
/// neighbours follows them.
pub type RuleNumbers = [u16; 4];

/// The numbers of neighbours that the calls of a case have, but for those that are refused: both, or one of them.
pub type Neighbours = &'static [u16];

/// Four for all calls of a case, eight for all, or both.
pub fn neighbours(random: &mut Random) -> Neighbours {
    random.one_of(&[&[4][..], &[8], &[8], &[4, 8]])
}

/// One of these numbers, and seldom another, which is refused.
fn neighbours_number(random: &mut Random, numbers: Neighbours) -> u16 {
    if one_in(random, 40) {
        random.one_of(&[0, 1, 2, 3, 5, 6, 7, 9, 12, 16, 255, 256, 260, 264, 65_535])
    } else {
        random.one_of(numbers)
    }
}

/// The house setting, with so many neighbours.
pub fn house(random: &mut Random, neighbours: u16) -> SettingsNumbers {
    SettingsNumbers { last: 7, area: 20, rule: Guarded::holding(&[0, 80, 300, 0, neighbours], random) }
}

/// Settings for a plane of n pixels.
pub fn settings_numbers(random: &mut Random, n: usize) -> SettingsNumbers {
    if one_in(random, 8) {
        return house(random, 4);
    }
    let last = if one_in(random, 20) { random.one_of(&[8, 9, 255]) } else { random.between(0, 7) as u8 };
    SettingsNumbers { last, area: area(random, n), rule: lent_rule(random, &[4, 8]) }
}

/// A rule to lend with one of these numbers of neighbours. Four is sometimes not lent, and seldom there are fewer or
/// more numbers than a call takes.
fn lent_rule(random: &mut Random, numbers: Neighbours) -> Guarded<u16> {
    let mut lent = rule_numbers(random).to_vec();
    let neighbours = neighbours_number(random, numbers);
    if neighbours != 4 || one_in(random, 2) {
        lent.push(neighbours);
    }
    if one_in(random, 40) {
        lent.resize(random.one_of(&[0, 1, 3, 6, 9]), 4);
    }
    Guarded::holding(&lent, random)
}

/// A rule's numbers: mostly sound, the others around each of their limits, of no rule, or set where they have to be 0.
fn rule_numbers(random: &mut Random) -> RuleNumbers {
    let numbers = [0, 1, 80, 81, 999, 1_000, 1_001, 9_999, 10_000, 10_001, 25_499, 25_500, 25_501, 65_535];
    let (first, second) = (random.one_of(&numbers), random.one_of(&numbers));
    let segments = random.one_of(&[0, 1, 2, 15, 16, 17, 255, 256, 258, 65_535]);
    match random.below(64) {
        0 => [0, first, second, 0],
        1 => [1, first, 0, 0],
        2 => [1, first, second, 0],
        3 => [random.one_of(&[3, 4, 128, 255, 256, 258, 65_535]), 0, second, random.one_of(&[0, 2])],
        4 => [random.one_of(&[0, 1]), 0, 0, segments],
        5 => [2, first, second, random.between(1, 16) as u16],
        6 => [2, 0, 10_000, segments],
        _ => sound_rule(random),
    }
}

/// The numbers of a rule that is not refused.
fn sound_rule(random: &mut Random) -> RuleNumbers {
    match random.below(9) {
        0..=3 => {
            let low = random.one_of(&[0, 0, 0, 50, 80, 100, 200]);
            [0, low, random.one_of(&[300, 300, 400, 1_000, 25_500, 25_500, 25_500]), 0]
        }
        4 | 5 => [1, random.one_of(&[0, 1, 10, 100, 300, 500, 999, 1_000]), 0, 0],
        _ => affine_rule(random),
    }
}

/// The numbers of an affine rule that is not refused.
fn affine_rule(random: &mut Random) -> RuleNumbers {
    let slopes = [[0, 10_000], [0, 1_000], [50, 300], [100, 100], [100, 300], [100, 10_000], [200, 400], [0, 0]];
    let [smin, smax] = random.one_of(&slopes);
    let smin = if one_in(random, 8) { smax } else { smin };
    [2, smin, smax, random.one_of(&[1, 1, 2, 2, 3, 5, 10, 16])]
}

/// A least area: small, about n, and seldom one that is refused.
pub fn area(random: &mut Random, n: usize) -> u32 {
    match random.below(40) {
        0 => 0,
        1 => random.one_of(&[1_048_575, 1_048_576, 1_048_577, u32::MAX]),
        2..=9 => random.between(2, 40) as u32,
        10..=12 => (n + random.below(3)).saturating_sub(1) as u32,
        _ => random.between(1, 3) as u32,
    }
}

/// A least area and a rule that are sound. The area is 1 or about the size of a block of pixels or of the plane.
pub fn sound_numbers(random: &mut Random, n: usize) -> (u32, RuleNumbers) {
    let area = random.one_of(&[1, 1, 2, 4, 5, 9, 16, 25, n.saturating_sub(1).max(1), n, n + 1]);
    let [low, high] = random.one_of(&[[0, 25_500], [80, 300], [80, 300], [0, 100], [100, 100], [300, 25_500]]);
    let rule = match random.below(6) {
        0 => [1, random.one_of(&[0, 10, 300, 1_000]), 0, 0],
        1 | 2 => affine_rule(random),
        _ => [0, low, high, 0],
    };
    (area as u32, rule)
}

/// An interval, mostly a sound one.
fn interval(random: &mut Random) -> (u8, u8) {
    let (x, y) = (random.byte(), random.byte());
    match random.below(16) {
        0 => (x.max(y), x.min(y)),
        1..=5 => (0, 255),
        6 => (x, x),
        7 => (0, 127),
        8 => (128, 255),
        _ => (x.min(y), x.max(y)),
    }
}

/// A pass on a plane of n pixels, with one of these numbers of neighbours.
pub fn pass_numbers(random: &mut Random, n: usize, neighbours: Neighbours) -> PassNumbers {
    let (a, b) = interval(random);
    PassNumbers { a, b, area: area(random, n), rule: lent_rule(random, neighbours) }
}

/// Sound passes on pairwise disjoint intervals, up to six, for a plane of n pixels. They may leave values out, and all
/// have four neighbours, all have eight, or both numbers occur.
pub fn disjoint_passes(random: &mut Random, n: usize) -> Vec<Pass> {
    let numbers = neighbours(random);
    let mut cuts: Vec<usize> = (0..random.between(2, 7)).map(|_| random.below(257)).collect();
    cuts.sort_unstable();
    cuts.dedup();
    let mut passes = Vec::new();
    for pair in cuts.windows(2) {
        if one_in(random, 5) {
            continue;
        }
        let (a, end) = (pair[0], pair[1] - 1);
        let b = if one_in(random, 3) { random.between(a, end) } else { end };
        let (area, rule) = sound_numbers(random, n);
        let neighbours = random.one_of(numbers) as u8;
        passes.push(Pass { a: a as u8, b: b as u8, area, rule: rule_of(rule), neighbours });
    }
    passes
}

/// The rule of these numbers. Of segments it has the low byte.
fn rule_of(numbers: RuleNumbers) -> Rule {
    let [code, first, second, segments] = numbers.map(u32::from);
    match code {
        0 => Rule::Plain { low: first, high: second },
        1 => Rule::Limited { k: first },
        _ => Rule::Affine { segments: segments % 256, smin: first, smax: second },
    }
}

/// Passes of a list in memory for a plane of n pixels, most of them sound, with these numbers of neighbours. Of
/// segments and neighbours a pass has the low byte.
pub fn memory_passes(random: &mut Random, greatest: usize, n: usize, neighbours: Neighbours) -> Vec<Pass> {
    let count = random.between(0, greatest);
    let mut passes = Vec::new();
    for _ in 0..count {
        let (a, b) = interval(random);
        let area = area(random, n);
        let rule = rule_of(rule_numbers(random));
        passes.push(Pass { a, b, area, rule, neighbours: neighbours_number(random, neighbours) as u8 });
    }
    passes
}

/// How many passes very many are: around the limit of 320, and far beyond.
const MANY: [usize; 4] = [319, 320, 321, 1_024];

/// Very many passes, which come to the whole plane or to nothing, for the limit.
pub fn many_passes(random: &mut Random) -> Vec<Pass> {
    let count = random.one_of(&MANY);
    let rule = Rule::Plain { low: 0, high: 25_500 };
    let area = random.one_of(&[1, 1_048_576]);
    (0..count).map(|_| Pass { a: 0, b: 255, area, rule, neighbours: random.one_of(&[4, 8]) }).collect()
}

/// The head of a pass list of this version with so many passes.
fn list_head(version: Version, count: usize) -> Vec<u8> {
    let mut bytes = list_bytes_of(version, &[]);
    bytes[5..].copy_from_slice(&(count as u16).to_le_bytes());
    bytes
}

/// The three zero bytes of a record of version 2. Seldom one of them is set.
fn zero_bytes(random: &mut Random) -> [u8; 3] {
    let mut bytes = [0; 3];
    if one_in(random, 60) {
        bytes[random.below(3)] = random.one_of(&[1, 4, 8, 255]);
    }
    bytes
}

/// A pass list for a plane of n pixels, often with something wrong in it. It is of version 2 with these numbers of
/// neighbours, or of version 1 if four is one of them. Of codes, segments and neighbours a record has the low byte.
pub fn list_bytes(random: &mut Random, greatest: usize, n: usize, neighbours: Neighbours) -> Vec<u8> {
    let count = random.between(0, greatest);
    let version = if neighbours.contains(&4) { random.one_of(&Version::BOTH) } else { Version::Two };
    let mut bytes = list_head(version, count);
    for _ in 0..count {
        let (a, b) = interval(random);
        let area = area(random, n);
        let [code, first, second, segments] = rule_numbers(random);
        bytes.extend([a, b, code as u8, segments as u8]);
        bytes.extend(area.to_le_bytes());
        bytes.extend(first.to_le_bytes());
        bytes.extend(second.to_le_bytes());
        if version == Version::Two {
            bytes.push(neighbours_number(random, neighbours) as u8);
            bytes.extend(zero_bytes(random));
        }
    }
    match random.below(60) {
        // Said to be of the other version.
        0 => bytes[3] = 3 - bytes[3],
        1..=20 => damage(random, &mut bytes),
        _ => {}
    }
    bytes
}

/// A list of very many passes of either version, which come to the whole plane or to nothing, for the limit.
pub fn long_list(random: &mut Random) -> Vec<u8> {
    let count = random.one_of(&MANY);
    let area: u32 = random.one_of(&[1, 1_048_576]);
    let version = random.one_of(&Version::BOTH);
    let numbers = random.one_of(&[&[4][..], &[8], &[4, 8]]);
    let mut bytes = list_head(version, count);
    for _ in 0..count {
        bytes.extend([0, 255, 0, 0]);
        bytes.extend(area.to_le_bytes());
        bytes.extend([0, 0, 0x9c, 0x63]);
        if version == Version::Two {
            bytes.extend([random.one_of(numbers), 0, 0, 0]);
        }
    }
    bytes
}

/// Changes, takes away or adds some bytes.
pub fn damage(random: &mut Random, bytes: &mut Vec<u8>) {
    for _ in 0..random.between(1, 2) {
        let place = random.below(bytes.len().min(40) + 1).min(bytes.len());
        match random.below(5) {
            0 if place < bytes.len() => bytes[place] = random.byte(),
            1 if place < bytes.len() => bytes[place] ^= 1 << random.below(8),
            2 => bytes.truncate(random.below(bytes.len() + 1)),
            3 => bytes.insert(place, random.byte()),
            _ => bytes.push(random.byte()),
        }
    }
}

/// A P6 file of a frame, often with comments, often with something wrong in it.
pub fn p6_bytes(random: &mut Random) -> Vec<u8> {
    let (w, h) = (random.between(1, 9), random.between(1, 9));
    let (mut said_w, mut said_h, mut maxval) = (w, h, 255);
    let wrong = [0, 1, 254, 256, 4_096, 4_097, 65_535, 999_999, 1_000_000];
    match random.below(12) {
        0 => said_w = random.one_of(&wrong),
        1 => said_h = random.one_of(&wrong),
        2 => maxval = random.one_of(&wrong),
        3 => (said_w, said_h) = (random.one_of(&wrong), random.one_of(&wrong)),
        _ => {}
    }
    let mut bytes = b"P6".to_vec();
    for number in [said_w, said_h, maxval] {
        for _ in 0..random.one_of(&[1, 1, 1, 2, 5]) {
            match random.below(60) {
                0 => bytes.extend(random.open_comment(3)),
                1 => bytes.extend(random.comment(2_000)),
                2..=19 => {
                    let length = random.below(9);
                    bytes.extend(random.comment(length));
                }
                _ => bytes.push(random.one_of(b" \t\n\x0b\x0c\r")),
            }
        }
        let zeros = random.one_of(&[0, 0, 0, 2, 5]);
        bytes.extend(format!("{}{number}", "0".repeat(zeros)).bytes());
    }
    bytes.push(random.one_of(b" \t\n\x0b\x0c\r \t\n\x0b\x0c\r#"));
    bytes.extend(frame_bytes(random, w, 3 * w * h));
    if one_in(random, 3) {
        damage(random, &mut bytes);
    }
    bytes
}

#[cfg(test)]
mod tests {
    use super::*;
    use mlhe_reference::{convert, list_passes, read, run_passes, GREATEST_PIXELS};

    /// Many files have comments that are skipped, and many are malformed with number signs in them.
    #[test]
    fn comments_are_common() {
        let mut random = Random::new(1);
        let (mut read_over, mut malformed) = (0, 0);
        for _ in 0..2_000 {
            let bytes = p6_bytes(&mut random);
            match read(&bytes, GREATEST_PIXELS) {
                Ok(frame) => read_over += usize::from(bytes[..frame.offset].contains(&b'#')),
                Err(10) => malformed += usize::from(bytes.contains(&b'#')),
                Err(_) => {}
            }
        }
        assert!(read_over > 200 && malformed > 100, "{read_over} and {malformed} of 2,000");
    }

    /// Many lists have an affine pass that retones and many one that keeps back; many are refused for its numbers.
    #[test]
    fn affine_passes_are_common() {
        let mut random = Random::new(2);
        let (mut retoned, mut kept, mut refused) = (0, 0, 0);
        for _ in 0..2_000 {
            let plane = values(&mut random, 9, 72);
            match list_passes(&list_bytes(&mut random, 3, 72, &[4, 8])) {
                Ok(passes) => {
                    let affine = passes.iter().filter(|pass| matches!(pass.rule, Rule::Affine { .. }));
                    for &pass in affine {
                        let counts = run_passes(&[pass], &mut plane.clone(), 72, 72, 9, 8).expect("accepted");
                        retoned += usize::from(counts.retoned > 0);
                        kept += usize::from(counts.kept > 0);
                    }
                }
                Err(18) => refused += 1,
                Err(_) => {}
            }
        }
        assert!(retoned > 100 && kept > 100 && refused > 20, "{retoned}, {kept} and {refused} of 2,000");
    }

    /// Lists of version 2 have passes whose neighbours decide, wrong numbers of them, and zero bytes that are set. Many
    /// lists of both versions are converted, and many of version 2 are not, for an eight.
    #[test]
    fn lists_of_version_2_are_common() {
        let mut random = Random::new(4);
        let (mut telling, mut converted, mut answers) = (0, [0; 2], [0; 21]);
        for _ in 0..4_000 {
            let plane = values(&mut random, 9, 72);
            let list = list_bytes(&mut random, 3, 72, &[4, 8]);
            let run = |passes: &[Pass]| {
                let mut last = plane.clone();
                run_passes(passes, &mut last, 72, 72, 9, 8).map(|counts| (last, counts))
            };
            if let Ok(passes) = list_passes(&list) {
                let four: Vec<Pass> = passes.iter().map(|&pass| Pass { neighbours: 4, ..pass }).collect();
                telling += usize::from(run(&passes) != run(&four));
            }
            match convert(&list, &mut [0; 99]) {
                Ok(_) => converted[usize::from(list[3]) - 1] += 1,
                Err(number) => answers[usize::from(number)] += 1,
            }
        }
        assert!(telling > 40 && converted[0] > 400 && converted[1] > 400, "{telling} and {converted:?} of 4,000");
        assert!([15, 16, 17, 19, 20].iter().all(|&number| answers[number] > 20), "{answers:?} of 4,000");
    }

    /// Many lists in memory have passes whose neighbours decide, and many are refused for their number.
    #[test]
    fn eight_neighbours_are_common() {
        let mut random = Random::new(3);
        let (mut telling, mut refused) = (0, 0);
        for _ in 0..2_000 {
            let plane = values(&mut random, 9, 72);
            let passes = memory_passes(&mut random, 3, 72, &[4, 8]);
            let run = |passes: &[Pass]| {
                let mut last = plane.clone();
                run_passes(passes, &mut last, 72, 72, 9, 8).map(|counts| (last, counts))
            };
            let four: Vec<Pass> = passes.iter().map(|&pass| Pass { neighbours: 4, ..pass }).collect();
            match run(&passes) {
                Ok(answer) => telling += usize::from(Ok(answer) != run(&four)),
                Err(number) => refused += usize::from(number == 19),
            }
        }
        assert!(telling > 80 && refused > 30, "{telling} and {refused} of 2,000");
    }
}
