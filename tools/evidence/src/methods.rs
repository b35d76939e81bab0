//! The methods that are compared, from a frame to its new intensity. The first three are written out here.

use mlhe::{Frame, Memory, Plane, Rule, Settings};

pub struct Method {
    pub name: &'static str,
    pub run: fn(&Frame) -> Plane,
}

pub const METHODS: [Method; 6] = [
    Method { name: "global equalisation", run: |frame| on_intensity(frame, equalised) },
    Method { name: "CLAHE, 8 × 8 tiles, clip 3", run: |frame| on_intensity(frame, tiled) },
    Method { name: "unsharp masking, 100 %", run: |frame| on_intensity(frame, unsharp) },
    Method { name: "this library, house setting", run: |frame| ours(frame, Settings::HOUSE) },
    Method { name: "this library, limited, k 20", run: |frame| ours(frame, with(LIMITED)) },
    Method { name: "this library, affine, 50 to 300", run: |frame| ours(frame, with(AFFINE)) },
];

pub const LIMITED: Rule = Rule::Limited { k: 20 };

/// The affine rule as its authors tested it.
pub const AFFINE: Rule = Rule::Affine { segments: 10, smin: 50, smax: 300 };

/// The house setting with another rule.
pub fn with(rule: Rule) -> Settings {
    Settings::house().with_rule(rule)
}

fn ours(frame: &Frame, settings: Settings) -> Plane {
    frame.enhanced(&settings, &mut Memory::new()).expect("the settings are sound").plane
}

fn on_intensity(frame: &Frame, method: fn(&Plane) -> Vec<u8>) -> Plane {
    Plane::new(frame.width(), frame.height(), method(&frame.intensity())).expect("a value for each pixel")
}

/// The sums of the counts of the values up to each.
fn sums(values: impl Iterator<Item = u8>) -> [u64; 256] {
    let mut counts = [0; 256];
    for value in values {
        counts[usize::from(value)] += 1;
    }
    summed(counts)
}

fn summed(mut counts: [u64; 256]) -> [u64; 256] {
    for v in 1..256 {
        counts[v] += counts[v - 1];
    }
    counts
}

/// Every value becomes its share of the whole plane.
fn equalised(plane: &Plane) -> Vec<u8> {
    let sums = sums(plane.values().iter().copied());
    let n = plane.values().len() as u64;
    plane.values().iter().map(|&v| ((255 * sums[usize::from(v)] + n / 2) / n) as u8).collect()
}

const TILES: usize = 8;
const CLIP: u64 = 3;

/// Contrast-limited adaptive histogram equalisation: each of 8 × 8 tiles has a table of its own, from a histogram that
/// is clipped at three times the mean count with the excess spread evenly; a pixel's value is interpolated between the
/// tables of the four nearest tiles.
fn tiled(plane: &Plane) -> Vec<u8> {
    let (w, h) = (plane.width(), plane.height());
    let tables: Vec<[u64; 256]> =
        (0..TILES * TILES).map(|tile| tile_table(plane, tile % TILES, tile / TILES)).collect();
    let mut values = Vec::new();
    for y in 0..h {
        let (above, below, down) = nearest(y, h);
        for x in 0..w {
            let (left, right, across) = nearest(x, w);
            let v = usize::from(plane.values()[y * w + x]);
            let at = |column: usize, row: usize| tables[row * TILES + column][v];
            let upper = at(left, above) * (256 - across) + at(right, above) * across;
            let lower = at(left, below) * (256 - across) + at(right, below) * across;
            values.push(((upper * (256 - down) + lower * down + 32_768) / 65_536) as u8);
        }
    }
    values
}

/// Along one side: the tiles whose centres are before and after a pixel, and how far it is between them, in 256ths.
fn nearest(x: usize, side: usize) -> (usize, usize, u64) {
    let place = (512 * x + 256) * TILES / side;
    let from_centre = place.saturating_sub(256);
    let before = (from_centre / 512).min(TILES - 1);
    let after = (before + 1).min(TILES - 1);
    (before, after, if before == after { 0 } else { (from_centre % 512 / 2) as u64 })
}

fn tile_table(plane: &Plane, column: usize, row: usize) -> [u64; 256] {
    let (w, h) = (plane.width(), plane.height());
    let mut counts = [0; 256];
    for y in row * h / TILES..(row + 1) * h / TILES {
        for x in column * w / TILES..(column + 1) * w / TILES {
            counts[usize::from(plane.values()[y * w + x])] += 256;
        }
    }
    let total: u64 = counts.iter().sum();
    let limit = CLIP * total / 256;
    let excess: u64 = counts.iter().map(|&count: &u64| count.saturating_sub(limit)).sum();
    let clipped = counts.map(|count| count.min(limit) + excess / 256);
    summed(clipped).map(|sum| (255 * sum + total / 2) / total)
}

/// The value plus its difference from the mean around it.
fn unsharp(plane: &Plane) -> Vec<u8> {
    let (w, h) = (plane.width(), plane.height());
    let mut blurred: Vec<i64> = plane.values().iter().map(|&v| 256 * i64::from(v)).collect();
    for _ in 0..3 {
        blurred = box_mean(&blurred, w, h);
    }
    let sharpened = |(&v, &mean): (&u8, &i64)| ((2 * 256 * i64::from(v) - mean + 128) / 256).clamp(0, 255) as u8;
    plane.values().iter().zip(&blurred).map(sharpened).collect()
}

/// The mean over the 5 × 5 pixels around each, with the border's pixels repeated beyond it.
fn box_mean(values: &[i64], w: usize, h: usize) -> Vec<i64> {
    let mut means = Vec::new();
    for y in 0..h as i64 {
        for x in 0..w as i64 {
            let mut sum = 0;
            for dy in -2..=2 {
                for dx in -2..=2 {
                    let (column, row) = ((x + dx).clamp(0, w as i64 - 1), (y + dy).clamp(0, h as i64 - 1));
                    sum += values[row as usize * w + column as usize];
                }
            }
            means.push(sum / 25);
        }
    }
    means
}
