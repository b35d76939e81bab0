//! What the tool writes, against the second implementation for small frames and against the library's own calls for
//! large ones: the frame, the plane beside it, and both counts in the report.

use mlhe_reference::{convert, enhance, intensity, list_bytes_of, read, recolour, run_list, GREATEST_PIXELS};
use mlhe_reference::{Counts, Pass, Rule, Settings, Version};
use std::collections::BTreeMap;
use std::fs;
use std::path::{Path, PathBuf};
use std::process::Command;

/// Frame, plane and counts, as the second implementation has them.
type Answer = (Vec<u8>, Vec<u8>, Counts);

const AFFINE: Rule = Rule::Affine { segments: 5, smin: 50, smax: 300 };
const LIMITED: Rule = Rule::Limited { k: 40 };

/// Frames of the corpus that are accepted.
const FRAMES: [&str; 7] = [
    "pil.ppm",
    "gimp-raw.ppm",
    "imagemagick-gray.ppm",
    "imagemagick-4096x4.ppm",
    "column-1x1024.ppm",
    "resaved-tabs.ppm",
    "raster-all-hashes.ppm",
];

fn corpus(name: &str) -> PathBuf {
    Path::new(env!("CARGO_MANIFEST_DIR")).join("../tests/corpus").join(name)
}

/// An empty folder for a test.
fn folder(name: &str) -> PathBuf {
    let folder = Path::new(env!("CARGO_TARGET_TMPDIR")).join(name);
    let _ = fs::remove_dir_all(&folder);
    fs::create_dir_all(&folder).unwrap();
    folder
}

/// Runs the tool, which ends with this status.
fn ends(status: i32, words: &[&str]) {
    let output = Command::new(env!("CARGO_BIN_EXE_zopykue")).args(words).output().unwrap();
    assert_eq!(output.status.code(), Some(status), "{words:?}: {output:?}");
}

fn zopykue(words: &[&str]) {
    ends(0, words);
}

/// What the tool makes of a file with these words: frame, plane and counts.
fn written(folder: &Path, file: &Path, words: &[&str]) -> Answer {
    let [to, report] = ["to", "report.tsv"].map(|name| folder.join(name));
    let [to_word, report_word, file_word] = [&*to, &*report, file].map(|path| path.to_str().unwrap());
    zopykue(&[&["enhance", "--plane", "--to", to_word, "--report", report_word], words, &[file_word]].concat());
    let target = to.join(file.parent().unwrap().file_name().unwrap()).join(file.file_name().unwrap());
    let report = fs::read_to_string(&report).unwrap();
    let mut lines = report.lines().map(|line| line.split('\t').collect::<Vec<&str>>());
    let (names, fields) = (lines.next().unwrap(), lines.next().unwrap());
    assert_eq!(names[3..5], ["retoned", "kept"]);
    let counts = Counts { retoned: fields[3].parse().unwrap(), kept: fields[4].parse().unwrap() };
    (fs::read(&target).unwrap(), fs::read(target.with_extension("pgm")).unwrap(), counts)
}

/// Header and raster of a file.
fn file(kind: &str, w: usize, h: usize, raster: &[u8]) -> Vec<u8> {
    [format!("{kind}\n{w} {h}\n255\n").as_bytes(), raster].concat()
}

fn of_settings(bytes: &[u8], settings: &Settings) -> Answer {
    let header = read(bytes, GREATEST_PIXELS).unwrap();
    let (w, h, frame) = (header.w, header.h, &bytes[header.offset..]);
    let (mut plane, mut output) = (vec![0; w * h], vec![0; 3 * w * h]);
    let counts = enhance(frame, w, h, settings, &mut plane, w * h, w * h, &mut output).unwrap();
    (file("P6", w, h, &output), file("P5", w, h, &plane), counts)
}

fn of_list(bytes: &[u8], list: &[u8]) -> Answer {
    let header = read(bytes, GREATEST_PIXELS).unwrap();
    let (w, h, frame) = (header.w, header.h, &bytes[header.offset..]);
    let (mut plane, mut output) = (vec![0; w * h], vec![0; 3 * w * h]);
    intensity(frame, w, h, &mut plane).unwrap();
    let counts = run_list(list, &mut plane, w * h, w * h, w, h).unwrap();
    recolour(frame, w, h, &plane, &mut output).unwrap();
    (file("P6", w, h, &output), file("P5", w, h, &plane), counts)
}

#[test]
fn settings() {
    let folder = folder("settings");
    let of = |last_level, area, rule| Settings { last_level, area, rule, ..Settings::HOUSE };
    let plain = |last_level, area, low, high| of(last_level, area, Rule::Plain { low, high });
    for (words, settings) in [
        (&[][..], Settings::HOUSE),
        (&["--last", "3", "--area", "5"], plain(3, 5, 80, 300)),
        (&["--plain", "0", "25500", "--area", "1"], plain(7, 1, 0, 25_500)),
        (&["--limited", "40", "--last", "2"], of(2, 20, LIMITED)),
        (&["--affine", "5", "50", "300"], of(7, 20, AFFINE)),
        (&["--neighbours", "4"], Settings::HOUSE),
        (&["--neighbours", "8"], Settings { neighbours: 8, ..Settings::HOUSE }),
        (&["--neighbours", "8", "--area", "3", "--limited", "40"], Settings { neighbours: 8, ..of(7, 3, LIMITED) }),
    ] {
        for name in FRAMES {
            let bytes = fs::read(corpus(name)).unwrap();
            assert!(written(&folder, &corpus(name), words) == of_settings(&bytes, &settings), "{name} {words:?}");
        }
    }
}

/// Three passes as lines of text, and as the second implementation has them. The second has so many neighbours.
fn three(neighbours: u8) -> (String, [Pass; 3]) {
    let lines = [" 0 255 1 plain 0 25500", "16 200 3 limited 25 neighbours N # clipped", "0 127 2 affine 5 50 300"];
    let text = format!("# three\n\n{}\n", lines.join("\n")).replace('N', &neighbours.to_string());
    let passes = [
        Pass { a: 0, b: 255, area: 1, rule: Rule::Plain { low: 0, high: 25_500 }, neighbours: 4 },
        Pass { a: 16, b: 200, area: 3, rule: Rule::Limited { k: 25 }, neighbours },
        Pass { a: 0, b: 127, area: 2, rule: AFFINE, neighbours: 4 },
    ];
    (text, passes)
}

/// Lists are written in version 1 where all passes have four neighbours, and in version 2 otherwise.
#[test]
fn lists() {
    let folder = folder("lists");
    let [text, list] = ["list.txt", "list.mlp"].map(|name| folder.join(name));
    let (text, list) = (text.to_str().unwrap(), list.to_str().unwrap());
    for (neighbours, version) in [(4, Version::One), (8, Version::Two)] {
        let (lines, passes) = three(neighbours);
        fs::write(text, lines).unwrap();
        zopykue(&["list", "--text", text, "--to", list]);
        let expected = list_bytes_of(version, &passes);
        assert_eq!(fs::read(list).unwrap(), expected);
        for name in FRAMES {
            let bytes = fs::read(corpus(name)).unwrap();
            let answer = written(&folder, &corpus(name), &["--list", list]);
            assert!(answer == of_list(&bytes, &expected), "{name} {version:?}");
        }
    }
}

/// Either version becomes what the second implementation's converter makes of it, and both enhance alike.
#[test]
fn converted_lists() {
    let folder = folder("converted-lists");
    let files = ["first.mlp", "second.mlp", "third.mlp"].map(|name| folder.join(name));
    let [first, second, third] = files.each_ref().map(|file| file.to_str().unwrap());
    let passes = three(4).1;
    for version in Version::BOTH {
        let bytes = list_bytes_of(version, &passes);
        let mut expected = vec![0; version.other().length(passes.len())];
        assert_eq!(convert(&bytes, &mut expected), Ok(expected.len()));
        fs::write(first, &bytes).unwrap();
        zopykue(&["list", "convert", first, second]);
        assert_eq!(fs::read(second).unwrap(), expected);
        zopykue(&["list", "convert", second, third]);
        assert_eq!(fs::read(third).unwrap(), bytes);
        for name in FRAMES {
            let [one, other] = [first, second].map(|list| written(&folder, &corpus(name), &["--list", list]));
            assert!(one == other, "{name} {version:?}");
        }
    }
}

/// Every file of the corpus under a name of its own in a folder, and how many of them are frames.
fn whole_corpus(folder: &Path) -> usize {
    let mut files: Vec<PathBuf> = fs::read_dir(corpus("")).unwrap().map(|entry| entry.unwrap().path()).collect();
    files.sort();
    let mut frames = 0;
    for (number, file) in files.iter().enumerate() {
        let bytes = fs::read(file).unwrap();
        frames += usize::from(read(&bytes, GREATEST_PIXELS).is_ok());
        fs::write(folder.join(format!("{number}.ppm")), bytes).unwrap();
    }
    frames
}

/// The report of the tool on a folder of which it refuses some files, and each result by its name.
fn results(folder: &Path, frames: &Path, words: &[&str]) -> (String, BTreeMap<PathBuf, Vec<u8>>) {
    let [to, report] = ["to", "report.tsv"].map(|name| folder.join(name));
    let _ = fs::remove_dir_all(&to);
    let [to_word, report_word, frames_word] = [&*to, &*report, frames].map(|path| path.to_str().unwrap());
    ends(1, &[&["enhance", "--plane", "--to", to_word, "--report", report_word], words, &[frames_word]].concat());
    let written = fs::read_dir(to.join(frames.file_name().unwrap())).unwrap().map(|entry| entry.unwrap().path());
    let results = written.map(|path| (path.clone(), fs::read(path).unwrap())).collect();
    (fs::read_to_string(report).unwrap(), results)
}

/// An enhancement can be stored as a list, which gives the same frames, planes and counts on the whole corpus: in
/// version 1 and in version 2 with four neighbours, and in version 2 with eight.
#[test]
fn the_list_of_settings_is_the_enhancement() {
    let folder = folder("list-of-settings");
    let frames = folder.join("frames");
    fs::create_dir(&frames).unwrap();
    let accepted = whole_corpus(&frames);
    assert!(accepted > 30, "{accepted} frames");
    let [first, second] = ["first.mlp", "second.mlp"].map(|name| folder.join(name));
    let [first, second] = [&first, &second].map(|path| path.to_str().unwrap());
    for (words, version, passes) in [
        (&[][..], 1, 255),
        (&["--last", "0"], 1, 1),
        (&["--last", "4", "--area", "3", "--limited", "30"], 1, 31),
        (&["--affine", "5", "50", "300"], 1, 255),
        (&["--neighbours", "8"], 2, 255),
        (&["--neighbours", "8", "--last", "6", "--area", "3", "--limited", "40"], 2, 127),
    ] {
        zopykue(&[&["list", "--to", first], words].concat());
        let list = fs::read(first).unwrap();
        assert_eq!([list[3], list[4], list[5], list[6]], [version, 0, passes, 0], "{words:?}");
        let expected = results(&folder, &frames, words);
        assert_eq!(expected.1.len(), 2 * accepted, "{words:?}");
        assert!(results(&folder, &frames, &["--list", first]) == expected, "{words:?}");
        if version == 1 {
            zopykue(&["list", "convert", first, second]);
            assert!(results(&folder, &frames, &["--list", second]) == expected, "{words:?} in version 2");
        }
    }
}

#[test]
fn large_frames() {
    let folder = folder("large");
    let tile = mlhe::Frame::from_p6(&fs::read(corpus("pil.ppm")).unwrap()).unwrap();
    for (w, h) in [(1_024, 1_024), (4_096, 256), (640, 480)] {
        let bytes: Vec<u8> = tile.bytes().iter().copied().cycle().take(3 * w * h).collect();
        let frame = mlhe::Frame::new(w, h, bytes).unwrap();
        let path = folder.join(format!("{w}x{h}.ppm"));
        fs::write(&path, frame.to_p6()).unwrap();
        let enhanced = frame.enhanced(&mlhe::Settings::house(), &mut mlhe::Memory::new()).unwrap();
        let counts = Counts { retoned: enhanced.counts.retoned.into(), kept: enhanced.counts.kept.into() };
        let expected = (enhanced.frame.to_p6(), file("P5", w, h, enhanced.plane.values()), counts);
        assert!(written(&folder, &path, &[]) == expected, "{w}x{h}");
    }
}
