//! Pass lists as text, from settings, and in either version.

use crate::arguments::{Convert, List, ListCommand};
use crate::list_reasons::{self, counted};
use crate::reasons::grouped;
use crate::report::name;
use crate::{plan, print, save, Stop};
use mlhe::{Pass, PassList, Refusal, Rule, Settings};
use std::fmt::Write;
use std::path::{Path, PathBuf};
use std::process::ExitCode;
use std::str::{FromStr, SplitWhitespace};
use std::{fs, io};

/// The rules as they stand in a line.
const RULES: &str = "plain LOW HIGH, limited K, or affine N SMIN SMAX";

/// Prints, writes or converts a list.
pub fn run(arguments: &List) -> Result<ExitCode, Stop> {
    if let Some(ListCommand::Convert(arguments)) = &arguments.command {
        return convert(arguments);
    }
    if let Some(place) = &arguments.to {
        replaceable(place, arguments.file.iter().chain(&arguments.text))?;
    }
    let list = match (&arguments.file, &arguments.text) {
        (Some(file), _) => read(file).map_err(Stop::Failed)?,
        (_, Some(text)) => of_text(text).map_err(Stop::Failed)?,
        _ => of_settings(&arguments.settings.settings()?),
    };
    match &arguments.to {
        None => print(&text(&list))?,
        // A list of version 2 that was read is written in version 1 too, where that has a place for all its passes.
        Some(place) => write(place, &PassList::new(list.passes()).expect("accepted passes make an accepted list"))?,
    }
    Ok(ExitCode::SUCCESS)
}

/// Converts a list file to the other version.
fn convert(arguments: &Convert) -> Result<ExitCode, Stop> {
    let Convert { from, to } = arguments;
    replaceable(to, [from].into_iter())?;
    let list = read(from).map_err(Stop::Failed)?;
    let converted = list.converted().map_err(|refusal| Stop::Failed(refused(from, refusal, list.bytes())))?;
    write(to, &converted)?;
    let (passes, bytes) = (counted(converted.passes().len()), grouped(converted.bytes().len()));
    print(&format!("{}: version {}, {passes}, {bytes} bytes\n", name(to), converted.version()))?;
    Ok(ExitCode::SUCCESS)
}

/// A place to write to, which has to be no input and nothing but a file.
fn replaceable<'a>(place: &Path, inputs: impl Iterator<Item = &'a PathBuf>) -> Result<(), Stop> {
    plan::replaceable(place, &plan::inputs(inputs)).map_err(Stop::Usage)
}

fn write(place: &Path, list: &PassList) -> Result<(), Stop> {
    save::save(place, list.bytes()).map_err(|error| Stop::Failed(format!("{}: {error}", name(place))))
}

/// The list in a file.
pub fn read(file: &Path) -> Result<PassList, String> {
    let bytes = fs::read(file).map_err(|error| format!("{}: {error}", name(file)))?;
    PassList::from_bytes(&bytes).map_err(|refusal| refused(file, refusal, &bytes))
}

/// That a list file is refused, and why.
fn refused(file: &Path, refusal: Refusal, bytes: &[u8]) -> String {
    format!("{}: refused {}: {}", name(file), refusal.number(), list_reasons::reason(refusal, bytes))
}

/// The list that an enhancement equals: level by level, lower sections first, level 0 with area 1, and the same
/// neighbours on all levels.
fn of_settings(settings: &Settings) -> PassList {
    let mut passes = Vec::new();
    for level in 0..=settings.last {
        let width = 256_usize >> level;
        let area = if level == 0 { 1 } else { settings.area };
        for a in (0..256).step_by(width) {
            let pass = Pass::new(a as u8, (a + width - 1) as u8, area, settings.rule);
            passes.push(pass.with_neighbours(settings.neighbours));
        }
    }
    PassList::new(&passes).expect("accepted settings make an accepted list")
}

fn of_text(file: &Path) -> Result<PassList, String> {
    let text = match file.to_str() {
        Some("-") => io::read_to_string(io::stdin()),
        _ => fs::read_to_string(file),
    };
    let text = text.map_err(|error| format!("{}: {error}", name(file)))?;
    let passes = lines(file, &text)?;
    // Each of them is accepted by itself, so that only their number can be wrong.
    PassList::new(&passes).map_err(|refusal| {
        format!("{}: refused {}: {}", name(file), refusal.number(), list_reasons::too_many(passes.len()))
    })
}

/// The passes of lines of text.
fn lines(file: &Path, text: &str) -> Result<Vec<Pass>, String> {
    let mut passes = Vec::new();
    for (number, line) in text.lines().enumerate() {
        let line = line.split('#').next().unwrap_or_default();
        if line.trim().is_empty() {
            continue;
        }
        passes.push(pass(line).map_err(|error| format!("{}, line {}: {error}", name(file), number + 1))?);
    }
    Ok(passes)
}

/// The pass of a line, which the library has accepted.
fn pass(line: &str) -> Result<Pass, String> {
    let mut words = line.split_whitespace();
    let (a, b, area) =
        (number(&mut words, "first value")?, number(&mut words, "last value")?, number(&mut words, "area")?);
    let rule = match words.next() {
        Some("plain") => Rule::Plain { low: number(&mut words, "low")?, high: number(&mut words, "high")? },
        Some("limited") => Rule::Limited { k: number(&mut words, "clip")? },
        Some("affine") => Rule::Affine {
            segments: number(&mut words, "segment count")?,
            smin: number(&mut words, "least slope")?,
            smax: number(&mut words, "greatest slope")?,
        },
        Some(word) => return Err(format!("the rule is plain, limited or affine, not {word}")),
        None => return Err(format!("the rule is missing: {RULES}")),
    };
    let four = Pass::new(a, b, area, rule);
    let pass = match words.next() {
        None => four,
        Some("neighbours") => four.with_neighbours(number(&mut words, "number of neighbours")?),
        Some(word) => return Err(too_much(word)),
    };
    if let Some(word) = words.next() {
        return Err(too_much(word));
    }
    PassList::new(&[pass]).map_err(|refusal| refusal.to_string())?;
    Ok(pass)
}

fn too_much(word: &str) -> String {
    format!("{word} is too much: a line is A B AREA and {RULES}, then neighbours 4 or neighbours 8, or neither")
}

fn number<N: FromStr>(words: &mut SplitWhitespace, name: &str) -> Result<N, String> {
    let word = words.next().ok_or_else(|| format!("the {name} is missing"))?;
    word.parse().map_err(|_| format!("the {name} is a number in its range, not {word}"))
}

/// A list as lines of text, from which the same list is made again.
fn text(list: &PassList) -> String {
    let mut text = format!("# {} passes: first value, last value, least area, rule\n", list.passes().len());
    for pass in list.passes() {
        let _ = write!(text, "{} {} {} ", pass.a, pass.b, pass.area);
        let _ = match pass.rule {
            Rule::Plain { low, high } => write!(text, "plain {low} {high}"),
            Rule::Limited { k } => write!(text, "limited {k}"),
            Rule::Affine { segments, smin, smax } => write!(text, "affine {segments} {smin} {smax}"),
            _ => unreachable!("a list has the rules of a line alone"),
        };
        text.push_str(if pass.neighbours == 4 { "\n" } else { " neighbours 8\n" });
    }
    text
}

#[cfg(test)]
mod tests {
    use super::*;

    #[test]
    fn text_and_list_are_each_other() {
        let list = of_settings(&Settings::house());
        let printed = text(&list);
        assert_eq!(printed.lines().count(), 256);
        assert!(printed.starts_with("# 255 passes: "));
        assert_eq!(printed.lines().nth(2), Some("0 127 20 plain 80 300"));
        let passes: Vec<Pass> = printed.lines().skip(1).map(|line| pass(line).unwrap()).collect();
        assert_eq!(PassList::new(&passes), Ok(list));
    }

    #[test]
    fn all_rules_have_a_text() {
        let lines = ["0 255 1 plain 80 300", "16 200 3 limited 25", "128 255 20 affine 16 50 10000"];
        let passes = lines.map(|line| pass(line).unwrap());
        assert_eq!(passes[2], Pass::new(128, 255, 20, Rule::Affine { segments: 16, smin: 50, smax: 10_000 }));
        let printed = text(&PassList::new(&passes).unwrap());
        assert_eq!(printed.lines().skip(1).collect::<Vec<_>>(), lines);
    }

    #[test]
    fn eight_neighbours_have_a_text() {
        let lines = ["0 255 1 plain 80 300", "16 200 3 limited 25 neighbours 8", "0 9 1 affine 5 50 300 neighbours 8"];
        let passes = lines.map(|line| pass(line).unwrap());
        assert_eq!(passes.map(|pass| pass.neighbours), [4, 8, 8]);
        let list = PassList::new(&passes).unwrap();
        assert_eq!(text(&list).lines().skip(1).collect::<Vec<_>>(), lines);
        assert_eq!(pass("0 255 1 plain 80 300 neighbours 4").unwrap(), passes[0]);
        let eight = of_settings(&Settings::house().with_neighbours(8));
        assert!(text(&eight).lines().skip(1).all(|line| line.ends_with(" plain 80 300 neighbours 8")));
    }

    #[test]
    fn wrong_lines_are_told() {
        assert_eq!(pass("0 256 1 plain 0 1").unwrap_err(), "the last value is a number in its range, not 256");
        assert_eq!(pass("0 255 1 limited").unwrap_err(), "the clip is missing");
        assert!(pass("9 8 1 limited 5").unwrap_err().starts_with("refused 5: "));
        assert!(pass("0 9 1 limited 5 6").unwrap_err().starts_with("6 is too much"));
        assert!(pass("0 9 1").unwrap_err().starts_with("the rule is missing: plain LOW HIGH, limited K, or affine N "));
        assert_eq!(pass("0 9 1 affine").unwrap_err(), "the segment count is missing");
        assert_eq!(pass("0 9 1 affine 2 5").unwrap_err(), "the greatest slope is missing");
        assert!(pass("0 9 1 affine 2 5 6 7").unwrap_err().starts_with("7 is too much"));
        assert!(pass("0 9 1 affine 0 5 6").unwrap_err().starts_with("refused 18: "));
        assert!(pass("0 9 1 affine 2 6 5").unwrap_err().starts_with("refused 18: "));
        assert!(pass("0 9 1 affine 2 6 5 neighbours 9").unwrap_err().starts_with("refused 18: "));
        assert!(pass("0 9 1 limited 5 neighbours 9").unwrap_err().starts_with("refused 19: "));
        assert_eq!(pass("0 9 1 limited 5 neighbours").unwrap_err(), "the number of neighbours is missing");
        assert!(pass("0 9 1 limited 5 neighbours 260").unwrap_err().ends_with("is a number in its range, not 260"));
        assert!(pass("0 9 1 limited 5 neighbours 8 8").unwrap_err().starts_with("8 is too much"));
        assert!(pass("0 9 1 limited 5 corners 8").unwrap_err().starts_with("corners is too much"));
    }
}
