//! The corpus of real files: the program answers each one as the manifest says for the requirements as they stand, and
//! an accepted frame's output is that of the list of passes level by level.

use mlhe_reference::extrema::{keeps_shapes, reversed_channels};
use mlhe_reference::{
    header, intensity, level_by_level, program, read, recolour, run_passes, Settings, PROGRAM_PIXELS,
};
use std::collections::BTreeSet;
use std::fs;
use std::path::PathBuf;

/// The manifest's column for the requirements as they stand, which `tests/corpus.sh` names too.
const COLUMN: &str = "expected_after_request_1";

fn corpus() -> PathBuf {
    PathBuf::from(env!("CARGO_MANIFEST_DIR")).join("../tests/corpus")
}

/// One line of the manifest: the file's name, its length and what the program is to answer.
struct Entry {
    name: String,
    length: usize,
    expected: String,
}

fn manifest() -> Vec<Entry> {
    let text = fs::read_to_string(corpus().join("MANIFEST.tsv")).expect("the manifest is there");
    let head = text.lines().next().expect("a head");
    let column = head.split('\t').position(|name| name == COLUMN).expect("the column is there");
    let entry = |line: &str| {
        let columns: Vec<&str> = line.split('\t').collect();
        assert_eq!(columns.len(), 5, "{line}");
        Entry {
            name: columns[0].to_string(),
            length: columns[1].parse().expect("a length"),
            expected: columns[column].to_string(),
        }
    };
    text.lines().skip(1).map(entry).collect()
}

/// What the program has to print for a frame that it accepts, by passes level by level.
fn enhanced_by_passes(input: &[u8]) -> Vec<u8> {
    let frame = read(input, PROGRAM_PIXELS).expect("accepted");
    let (w, h, n) = (frame.w, frame.h, frame.w * frame.h);
    let raster = &input[frame.offset..];
    let mut plane = vec![0; n];
    intensity(raster, w, h, &mut plane).expect("accepted");
    let first = plane.clone();
    run_passes(&level_by_level(&Settings::HOUSE), &mut plane, n, n, w, h).expect("accepted");
    assert!(keeps_shapes(&first, &plane, w, h, 4));
    let mut colours = vec![0; 3 * n];
    recolour(raster, w, h, &plane, &mut colours).expect("accepted");
    assert_eq!(reversed_channels(raster, &colours), 0);
    [header(w, h), colours].concat()
}

#[test]
fn every_file_is_answered_as_the_manifest_says() {
    let entries = manifest();
    assert_eq!(entries.len(), 99);
    for Entry { name, length, expected } in entries {
        let input = fs::read(corpus().join(&name)).expect("the file is there");
        assert_eq!(input.len(), length, "{name}");
        let output = program(&input);
        match expected.strip_prefix("accept ") {
            None => assert_eq!(output, format!("{expected}\n").into_bytes(), "{name}"),
            Some(sides) => {
                let (w, h) = sides.split_once('x').expect("sides");
                let start = header(w.parse().expect("a width"), h.parse().expect("a height"));
                assert!(output.starts_with(&start), "{name}");
                assert!(output == enhanced_by_passes(&input), "{name}");
            }
        }
    }
}

#[test]
fn every_file_is_in_the_manifest() {
    let listed: BTreeSet<String> = manifest().into_iter().map(|entry| entry.name).collect();
    let about = ["MANIFEST.tsv".to_string(), "README.md".to_string()];
    let found: BTreeSet<String> = fs::read_dir(corpus())
        .expect("the corpus is there")
        .map(|file| file.expect("readable").file_name().into_string().expect("a plain name"))
        .filter(|name| !about.contains(name))
        .collect();
    assert_eq!(found, listed);
}
