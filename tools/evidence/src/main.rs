//! Makes docs/EVIDENCE.md and its pictures.
//!
//!     cargo run --release             writes them
//!     cargo run --release -- --check  ends with status 1 unless they are as this would write them

mod methods;
mod noise;
mod pictures;
mod png;
mod wires;

use methods::METHODS;
use mlhe::{Frame, Memory, Plane, Settings};
use mlhe_reference::extrema::{parted_neighbours, regional_maxima, regional_minima, reversed_neighbours};
use mlhe_reference::FOUR;
use pictures::Picture;
use std::path::Path;
use std::process::ExitCode;
use std::{env, fs};

/// The document, with a place for each table.
const DOCUMENT: &str = include_str!("document.md");

/// What is counted of a plane by so many neighbours, against the intensity of the picture.
struct Counts {
    /// Regional maxima and minima.
    spots: usize,
    /// Those that contain none of the picture's own.
    invented: usize,
    reversed: usize,
    parted: usize,
}

fn counts(first: &Plane, last: &Plane, neighbours: u8) -> Counts {
    let (w, h, first, last) = (first.width(), first.height(), first.values(), last.values());
    let [maxima, first_maxima] = [last, first].map(|plane| regional_maxima(plane, w, h, neighbours));
    let [minima, first_minima] = [last, first].map(|plane| regional_minima(plane, w, h, neighbours));
    Counts {
        spots: maxima.len() + minima.len(),
        invented: invented(&maxima, &first_maxima) + invented(&minima, &first_minima),
        reversed: reversed_neighbours(first, last, w, h, neighbours),
        parted: parted_neighbours(first, last, w, h, neighbours),
    }
}

/// How many sets of the last plane contain no whole set of the first.
fn invented(last: &[Vec<usize>], first: &[Vec<usize>]) -> usize {
    let mut holder = std::collections::HashMap::new();
    for (place, set) in last.iter().enumerate() {
        holder.extend(set.iter().map(|&pixel| (pixel, place)));
    }
    let mut contains = vec![false; last.len()];
    for set in first {
        if let Some(&place) = holder.get(&set[0]) {
            contains[place] |= set.iter().all(|pixel| holder.get(pixel) == Some(&place));
        }
    }
    contains.iter().filter(|&&one| !one).count()
}

/// The mean difference of neighbours, in hundredths.
fn difference(plane: &Plane) -> usize {
    let (w, n, values) = (plane.width(), plane.values().len(), plane.values());
    let (mut sum, mut pairs) = (0, 0);
    for p in 0..n {
        let right = (p % w + 1 < w).then_some(p + 1);
        let below = (p + w < n).then_some(p + w);
        for q in [right, below].into_iter().flatten() {
            sum += usize::from(values[p].abs_diff(values[q]));
            pairs += 1;
        }
    }
    (100 * sum + pairs / 2) / pairs
}

/// A number of hundredths, in ones.
fn hundredths(number: usize) -> String {
    format!("{}.{:02}", number / 100, number % 100)
}

fn frame_of(picture: Picture) -> Frame {
    Frame::new(picture.w, picture.h, picture.bytes).expect("the picture is small")
}

/// The row of a plane, and of the frame that is recoloured from it.
fn row(name: &str, method: &str, frame: &Frame, last: &Plane) -> String {
    let first = frame.intensity();
    let written = frame.recoloured(last).expect("the plane has the frame's sides").intensity();
    let cells = |last: &Plane| {
        let Counts { spots, invented, reversed, parted } = counts(&first, last, FOUR);
        format!("{spots} | {invented} | {reversed} | {parted}")
    };
    let difference = hundredths(difference(last));
    format!("| {name} | {method} | {} | {} | {difference} |\n", cells(last), cells(&written))
}

fn table() -> String {
    let mut table = String::from("| Picture | Method | Plane: spots | invented | reversed | parted ");
    table.push_str("| File: spots | invented | reversed | parted | Difference |\n");
    table.push_str("|---|---|---:|---:|---:|---:|---:|---:|---:|---:|---:|\n");
    let all = [
        ("ramp, grey", pictures::ramp()),
        ("clouds, grey", pictures::clouds()),
        ("haze, colour", pictures::haze()),
        ("night, colour", pictures::night()),
        ("meadow, colour", pictures::meadow()),
    ];
    for (name, picture) in all {
        let name = format!("{name}, {} × {}", picture.w, picture.h);
        let frame = frame_of(picture);
        table.push_str(&row(&name, "(the picture)", &frame, &frame.intensity()));
        for method in &METHODS {
            table.push_str(&row("", method.name, &frame, &(method.run)(&frame)));
        }
    }
    table
}

fn page() -> String {
    let tables = [("SPOTS", table()), ("NOISE", noise::table()), ("WIRES", wires::table())];
    let filled = |page: String, (name, table): &(&str, String)| page.replace(&format!("TABLE OF {name}\n"), table);
    tables.iter().fold(DOCUMENT.to_string(), filled)
}

/// The files to write: their names, from the repository on, and their bytes.
fn files() -> Vec<(&'static str, Vec<u8>)> {
    let before = pictures::meadow();
    let (w, h) = (before.w, before.h);
    let picture = png::encoded(&before);
    let enhanced = frame_of(before).enhanced(&Settings::HOUSE, &mut Memory::new()).expect("the setting is sound");
    let after = Picture { w, h, bytes: enhanced.frame.into_bytes() };
    vec![
        ("docs/EVIDENCE.md", page().into_bytes()),
        ("docs/evidence/before.png", picture),
        ("docs/evidence/after.png", png::encoded(&after)),
    ]
}

fn main() -> ExitCode {
    let check = match env::args().nth(1).as_deref() {
        None => false,
        Some("--check") => true,
        Some(_) => {
            eprintln!("usage: mlhe_evidence [--check]");
            return ExitCode::from(2);
        }
    };
    let repository = Path::new(env!("CARGO_MANIFEST_DIR")).join("../..");
    for (name, bytes) in files() {
        let path = repository.join(name);
        if check {
            if fs::read(&path).ok().as_deref() != Some(&bytes) {
                println!("{name} is not as it would be made now");
                return ExitCode::FAILURE;
            }
        } else {
            fs::create_dir_all(path.parent().expect("a folder")).expect("the folder can be made");
            fs::write(&path, bytes).expect("the file can be written");
            println!("{name}");
        }
    }
    ExitCode::SUCCESS
}
