//! The pictures, made here from whole numbers alone, so that they are the same everywhere.

use std::collections::HashSet;

/// A colour picture.
pub struct Picture {
    pub w: usize,
    pub h: usize,
    pub bytes: Vec<u8>,
}

/// A picture whose pixel at column x and row y has the given channels, held in 0 to 255.
fn drawn(w: usize, h: usize, pixel: impl Fn(i64, i64) -> [i64; 3]) -> Picture {
    let mut bytes = Vec::new();
    for y in 0..h as i64 {
        for x in 0..w as i64 {
            bytes.extend(pixel(x, y).map(|channel| channel.clamp(0, 255) as u8));
        }
    }
    Picture { w, h, bytes }
}

/// A random number from 0 to 255 that belongs to a place.
fn scattered(seed: u64, x: i64, y: i64) -> i64 {
    let mut z = seed ^ (x as u64).wrapping_mul(0x9E37_79B9_7F4A_7C15) ^ (y as u64).wrapping_mul(0xC2B2_AE3D_27D4_EB4F);
    z = (z ^ (z >> 30)).wrapping_mul(0xBF58_476D_1CE4_E5B9);
    z = (z ^ (z >> 27)).wrapping_mul(0x94D0_49BB_1331_11EB);
    ((z ^ (z >> 31)) & 255) as i64
}

/// Smooth noise from 0 to 255 × 16, between the random numbers of a grid with the given spacing.
fn smooth_noise(seed: u64, x: i64, y: i64, spacing: i64) -> i64 {
    let eased = |t: i64| {
        let t = t % spacing * 64 / spacing;
        t * t * (192 - 2 * t) / 4_096
    };
    let (column, row) = (x / spacing, y / spacing);
    let (right, down) = (eased(x), eased(y));
    let between = |from: i64, to: i64, part: i64| (from * (64 - part) + to * part) / 64;
    let corner = |dx: i64, dy: i64| 16 * scattered(seed, column + dx, row + dy);
    between(between(corner(0, 0), corner(1, 0), right), between(corner(0, 1), corner(1, 1), right), down)
}

/// Noise with large and small shapes, from 0 to 255.
fn fractal(seed: u64, x: i64, y: i64) -> i64 {
    let sizes = [(64, 16), (32, 8), (16, 4), (8, 2), (4, 1)];
    let sum: i64 = sizes.iter().map(|&(spacing, weight)| weight * smooth_noise(seed + 1, x, y, spacing)).sum();
    sum / (31 * 16)
}

/// Grey values that never fall from left to right: one regional maximum and one minimum.
pub fn ramp() -> Picture {
    drawn(256, 64, |x, _| [32 + x / 2; 3])
}

/// Clouds of low contrast.
pub fn clouds() -> Picture {
    drawn(256, 256, |x, y| [60 + fractal(3, x, y) / 3; 3])
}

/// A landscape in haze: sky, two ranges of hills and a lake, with so much grain. At night it is lit by a few lamps.
fn landscape(w: usize, h: usize, night: bool, most: i64) -> Picture {
    let (width, height) = (w as i64, h as i64);
    drawn(w, h, |x, y| {
        let far = height * 2 / 5 + (smooth_noise(11, x, 0, 40) - 2_040) * height / 26_000;
        let near = height * 3 / 5 + (smooth_noise(12, x, 0, 64) - 2_040) * height / 16_000;
        let shore = height * 4 / 5;
        let grain = scattered(13, x, y) * (2 * most + 1) / 256 - most;
        let [red, green, blue] = if y < far {
            let haze = 70 * y / height;
            [118 + haze, 130 + haze, 150 + haze / 2 + fractal(14, x, y) / 10]
        } else if y < near {
            let light = fractal(15, x, y) / 6;
            [84 + light, 96 + light, 104 + light / 2]
        } else if y < shore {
            let light = fractal(16, x, 2 * y) / 4;
            [38 + light, 56 + light, 34 + light / 2]
        } else {
            let ripple = smooth_noise(17, x, 6 * y, 18) / 100;
            let depth = 40 * (y - shore) / (height - shore + 1);
            [70 + ripple - depth, 86 + ripple - depth, 104 + ripple - depth]
        };
        if !night {
            return [red + grain, green + grain, blue + grain];
        }
        let lamps =
            [(width / 5, near_lamp(height)), (width / 2, near_lamp(height) + 6), (width * 4 / 5, height * 7 / 10)];
        let glow: i64 =
            lamps.iter().map(|&(lx, ly)| 6_000 / (40 + (x - lx) * (x - lx) + 2 * (y - ly) * (y - ly))).sum();
        [red / 4 + glow + grain, green / 4 + glow * 4 / 5 + grain, blue / 3 + glow / 2 + grain]
    })
}

fn near_lamp(height: i64) -> i64 {
    height * 13 / 20
}

pub fn haze() -> Picture {
    landscape(256, 192, false, 3)
}

pub fn night() -> Picture {
    landscape(256, 192, true, 1)
}

/// A sky down to the horizon's row, in 40 grey levels from above downward, over land from 20 to about 20 + light.
/// Before the grain, which is of up to three grey levels, each row of the sky has one value.
pub fn sky(horizon: usize, light: i64) -> Picture {
    let horizon = horizon as i64;
    drawn(256, 192, |x, y| {
        let grain: i64 = (41..44).map(|seed| scattered(seed, x, y) * 3 / 256 - 1).sum();
        let clean = if y < horizon { 170 + 40 * y / horizon } else { 20 + light * (fractal(44, x, y) - 40) / 160 };
        [clean + grain; 3]
    })
}

/// The places of a wire one pixel thin, from a place on: so many pixels in each row, to the right or to the left, and
/// each row's first touches the last of the row above at a corner. It ends where the picture of the wires does.
pub fn wire(x: i64, y: i64, in_row: i64, right: bool) -> Vec<(i64, i64)> {
    let place = |i: i64| (if right { x + i } else { x - i }, y + i / in_row);
    (0..).map(place).take_while(|&(x, y)| (0..256).contains(&x) && (0..192).contains(&y)).collect()
}

/// Wires in the sun, with values from 130 to 160 that change slowly along them, before a hazy sky of at most 125.
pub fn wires(wires: &[Vec<(i64, i64)>]) -> Picture {
    let on_wires: HashSet<_> = wires.iter().flatten().copied().collect();
    drawn(256, 192, |x, y| {
        let light = 130 + 30 * smooth_noise(51, x, y, 48) / 4_080;
        let sky = 90 + 20 * y / 192 + fractal(52, x, y) / 16;
        [if on_wires.contains(&(x, y)) { light } else { sky }; 3]
    })
}

/// A meadow with flowers at dusk, in strong colours.
pub fn meadow() -> Picture {
    drawn(256, 192, |x, y| {
        let hills = 62 + (smooth_noise(21, x, 0, 52) - 2_040) / 220;
        let field = 84 + (smooth_noise(22, x, 0, 88) - 2_040) / 400;
        if y < hills {
            evening_sky(x, y)
        } else if y < field {
            let light = fractal(23, x, 2 * y) / 8;
            [26 + light, 30 + light, 54 + light]
        } else {
            flower(x, y - field).unwrap_or_else(|| grass(x, y, field))
        }
    })
}

/// From deep blue above to orange at the horizon, with clouds and a low sun.
fn evening_sky(x: i64, y: i64) -> [i64; 3] {
    let cloud = (fractal(24, x, 3 * y) - 110).max(0) / 2;
    let from_sun = (x - 186) * (x - 186) + (y - 50) * (y - 50);
    let sun = if from_sun < 64 { 120 } else { 9_000 / (90 + from_sun) };
    [34 + 2 * y + cloud + sun, 46 + y + cloud / 2 + sun * 3 / 5, 120 - y / 2 + cloud / 3 - sun / 3]
}

/// Blades of grass, darker in front.
fn grass(x: i64, y: i64, field: i64) -> [i64; 3] {
    let light = fractal(25, 2 * x, y) / 5 + scattered(26, x, y / 3) / 24 - (y - field) / 6;
    [22 + light / 2, 44 + light, 14 + light / 3]
}

/// The colour of the flower that covers a pixel, so far below the field's edge: small ones behind, large ones in front,
/// at most one in each square of a row of squares.
fn flower(x: i64, y: i64) -> Option<[i64; 3]> {
    let (size, share, seed) = match y {
        ..24 => (6, 70, 31),
        24..60 => (9, 110, 32),
        _ => (18, 130, 33),
    };
    let row = y / size;
    let x = x + scattered(seed, 0, row) % size;
    let random = |what: i64| scattered(seed, 4 * (x / size) + what, row + 1);
    let radius = size / 5 + 1;
    let place = |what: i64| radius + random(what) * (size - 2 * radius) / 256;
    let (across, down) = (x % size - place(0), y % size - place(1));
    let from_centre = across * across + down * down;
    if random(2) > share || from_centre >= radius * radius {
        return None;
    }
    if size > 6 && 6 * from_centre < radius * radius {
        return Some([150, 118, 20]);
    }
    let colours = [[168, 22, 26], [44, 40, 176], [150, 30, 130], [176, 120, 16], [158, 150, 156], [196, 60, 40]];
    let shade = 100 - 45 * from_centre / (radius * radius);
    Some(colours[random(3) as usize % colours.len()].map(|channel| channel * shade / 100))
}
