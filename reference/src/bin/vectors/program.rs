//! Cases of the program.

use crate::read::{long_comments, random_frame, COMMENTS, HEADERS};
use crate::sound::sound;
use mlhe_reference::cases::{Case, Kind};
use mlhe_reference::random::Random;
use mlhe_reference::{enhance, header, Rule, Settings};

pub fn cases() -> Vec<Case> {
    let run = |input: Vec<u8>| sound(Kind::Program, 0, 0, input, Vec::new());
    let mut cases = vec![run([header(2, 1), vec![10, 10, 10, 20, 20, 20]].concat())];
    cases.extend(HEADERS.iter().map(|bytes| run(bytes.to_vec())));
    cases.extend(["129 128 254 ", "129 128 255 RGB", "128 128 254 ", "128 128 255 RGB"].map(|end| {
        let input = format!("P6 {end}");
        run(input.into_bytes())
    }));
    let mut random = Random::new(100);
    cases.extend((0..120).map(|_| run(random_frame(&mut random, false))));
    // Pictures that tell the house setting from those next to it. No picture tells L 6, since level 7 changes none with
    // the house setting, nor high 301, since 100 × t is in steps of 100.
    let house = Settings::HOUSE;
    let (low, high) = (80, 300);
    let others = [
        Settings { last_level: 5, ..house },
        Settings { area: 19, ..house },
        Settings { area: 21, ..house },
        Settings { rule: Rule::Plain { low: low - 1, high }, ..house },
        Settings { rule: Rule::Plain { low: low + 1, high }, ..house },
        Settings { rule: Rule::Plain { low, high: high - 1 }, ..house },
        Settings { rule: Rule::Plain { low, high: high + 2 }, ..house },
    ];
    for other in others {
        let (w, h, raster) = picture_telling(&mut random, &house, &other);
        cases.push(run([header(w, h), raster].concat()));
    }
    cases.extend(COMMENTS.iter().map(|bytes| run(bytes.to_vec())));
    cases.extend(long_comments().map(run));
    for end in ["129 128#\n254 ", "129#\n128 255 RGB", "128#\n128 254 ", "128 128#\n255 RGB", "129 128 254#\n"] {
        cases.push(run(format!("P6#\n{end}").into_bytes()));
    }
    let mut random = Random::new(101);
    cases.extend((0..80).map(|_| run(random_frame(&mut random, true))));
    cases.extend(last_pictures(&mut random).into_iter().map(run));
    cases
}

/// Pictures that the house setting changes, behind comments, and such as tell its four neighbours from eight.
fn last_pictures(random: &mut Random) -> Vec<Vec<u8>> {
    let house = Settings::HOUSE;
    let mut inputs = Vec::new();
    for _ in 0..2 {
        let (w, h, raster) = picture_telling(random, &house, &Settings { last_level: 0, ..house });
        let commented = format!("P6# {w} {h}\n{w}#\r\n#\n{h} # 255\r255\n").into_bytes();
        inputs.push([commented, raster].concat());
    }
    for _ in 0..2 {
        let (w, h, raster) = picture_telling(random, &house, &Settings { neighbours: 8, ..house });
        inputs.push([header(w, h), raster].concat());
    }
    inputs
}

/// The output of an enhancement.
fn enhanced(frame: &[u8], w: usize, h: usize, settings: &Settings) -> Vec<u8> {
    let n = w * h;
    let (mut plane, mut output) = (vec![0; n], vec![0; 3 * n]);
    enhance(frame, w, h, settings, &mut plane, n, n, &mut output).expect("accepted");
    output
}

/// A picture that the first setting changes and that it enhances otherwise than the second: a slope with grain.
fn picture_telling(random: &mut Random, one: &Settings, other: &Settings) -> (usize, usize, Vec<u8>) {
    loop {
        let (w, h) = (random.between(8, 20), random.between(8, 14));
        let (base, steep, grain) = (random.between(0, 90), random.between(0, 6), random.between(1, 9));
        let (red, blue) = (random.between(2, 4), random.between(1, 4));
        let mut raster = Vec::new();
        for p in 0..w * h {
            let grey = base + steep * (p % w + p / w) + random.below(grain);
            raster.extend([grey * red / 4, grey, grey * blue / 4].map(|channel| channel.min(255) as u8));
        }
        let output = enhanced(&raster, w, h, one);
        if output != raster && output != enhanced(&raster, w, h, other) {
            return (w, h, raster);
        }
    }
}
