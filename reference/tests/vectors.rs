//! The stored test cases are what the generator makes, and they show what they are meant to show.

use mlhe_reference::cases::{answers, cases, encode, passes_bytes, passes_of, rule_of, Case, Kind};
use mlhe_reference::{convert, intensity, level_by_level, list_passes, sufficient_in_all, Pass, Rule, Settings};
use std::collections::{BTreeMap, BTreeSet};
use std::fs;
use std::path::PathBuf;
use std::process::Command;

fn repository() -> PathBuf {
    PathBuf::from(env!("CARGO_MANIFEST_DIR")).join("..")
}

/// The cases and the answers of two stored files.
fn stored(input: &str, output: &str) -> (Vec<Case>, Vec<String>) {
    let file = fs::read(repository().join(input)).expect("the cases are there");
    let lines = fs::read_to_string(repository().join(output)).expect("the answers are there");
    let lines: Vec<String> = lines.lines().map(str::to_string).collect();
    let cases = cases(&file);
    assert_eq!(cases.len(), lines.len());
    (cases, lines)
}

fn stored_calls() -> (Vec<Case>, Vec<String>) {
    stored("crates/vectors/stdin", "crates/vectors/stdout")
}

/// The cases of one call with a plane of their own, and their answers.
fn stored_of(kind: Kind) -> (Vec<Case>, Vec<String>) {
    let (cases, lines) = stored_calls();
    cases.into_iter().zip(lines).filter(|(case, _)| case.kind == kind && !case.same_plane).unzip()
}

/// Those of them that are accepted.
fn accepted(kind: Kind) -> impl Iterator<Item = (Case, String)> {
    let (cases, lines) = stored_of(kind);
    cases.into_iter().zip(lines).filter(|(_, line)| line.starts_with('+'))
}

/// The first word of the line that answers a case.
fn first_word(case: &Case) -> String {
    answers(&encode(case)).split_whitespace().next().expect("a word").to_string()
}

#[test]
fn the_stored_files_are_what_the_generator_makes() {
    let status = Command::new(env!("CARGO_BIN_EXE_vectors")).arg("--check").arg(repository()).status();
    assert!(status.expect("the generator runs").success(), "tests/vectors.sh --make makes the stored files again");
}

#[test]
fn every_refusal_of_every_call_is_there() {
    let refusals: [(Kind, &[u8]); 10] = [
        (Kind::Intensity, &[1, 2, 3]),
        (Kind::Pass, &[1, 2, 3, 4, 5, 6, 7, 8, 18, 19]),
        (Kind::Recolour, &[1, 2, 3, 14]),
        (Kind::Enhance, &[1, 2, 3, 4, 6, 7, 8, 9, 14, 18, 19]),
        (Kind::House, &[1, 2, 3, 4, 14]),
        (Kind::List, &[1, 2, 3, 4, 5, 6, 7, 8, 15, 16, 17, 18, 19]),
        (Kind::Passes, &[1, 2, 3, 4, 5, 6, 7, 8, 16, 18, 19]),
        (Kind::Read, &[1, 2, 10, 11, 12, 13]),
        (Kind::Write, &[1, 2, 3, 14]),
        (Kind::Convert, &[5, 6, 7, 8, 14, 15, 16, 17, 18, 19, 20]),
    ];
    for (kind, expected) in refusals {
        let (_, lines) = stored_of(kind);
        let number = |line: &String| line.strip_prefix('-')?.split(' ').next()?.parse().ok();
        let found: BTreeSet<u8> = lines.iter().filter_map(number).collect();
        assert_eq!(found, expected.iter().copied().collect(), "{kind:?}");
    }
}

/// Each level changes both counts and the plane of some case: so does the last one, with low 0 and with the limited
/// rule, which keeps nothing back. The affine rule changes no plane at the last one, where a stays and the greatest of
/// two values becomes b.
#[test]
fn every_level_shows() {
    let (cases, lines) = stored_of(Kind::Enhance);
    for last_level in 1..=7 {
        for rule in [0, 1, 2] {
            let (mut retoned, mut kept, mut planes) = (0, 0, 0);
            for (case, line) in cases.iter().zip(&lines) {
                if case.last_level == last_level && case.rule == rule && line.starts_with('+') {
                    let less = answers(&encode(&Case { last_level: last_level - 1, ..case.clone() }));
                    let (line, less): (Vec<&str>, Vec<&str>) = (line.split(' ').collect(), less.split(' ').collect());
                    retoned += usize::from(line[0] != less[0]);
                    kept += usize::from(line[1] != less[1]);
                    planes += usize::from(line[2] != less[2]);
                }
            }
            let expected = (true, rule != 1, rule != 2 || last_level < 7);
            assert_eq!((retoned > 0, kept > 0, planes > 0), expected, "level {last_level}, rule {rule}");
        }
    }
}

/// The line of an enhancement with the house setting begins as that of one with its numbers, and each number shows:
/// with a slightly lower or higher one, some line begins otherwise.
#[test]
fn every_number_of_the_house_setting_shows() {
    let (cases, lines) = stored_of(Kind::House);
    let written_out = |last_level: u8, area: u32, numbers: [u16; 2], neighbours: u8| -> usize {
        let begins = |case: &Case, line: &String| {
            let case = Case { kind: Kind::Enhance, last_level, area, rule: 0, numbers, neighbours, ..case.clone() };
            line.starts_with(&(answers(&encode(&case)).trim_end().to_string() + " "))
        };
        cases.iter().zip(&lines).filter(|(case, line)| begins(case, line)).count()
    };
    assert_eq!(written_out(7, 20, [80, 300], 4), cases.len());
    for (last_level, area, low, high, neighbours) in [
        (6, 20, 80, 300, 4),
        (7, 19, 80, 300, 4),
        (7, 21, 80, 300, 4),
        (7, 20, 79, 300, 4),
        (7, 20, 81, 300, 4),
        (7, 20, 80, 299, 4),
        (7, 20, 80, 303, 4),
        (7, 20, 80, 300, 8),
    ] {
        let same = written_out(last_level, area, [low, high], neighbours);
        assert!(same < cases.len(), "{last_level} {area} {low} {high} {neighbours}");
    }
    assert!(lines.iter().all(|line| line.ends_with(" 7 20 80 300 4")));
}

/// All rules retone; the plain rule keeps back by each of its limits; each number of the affine rule, the area and the
/// number of neighbours decide.
#[test]
fn every_part_of_a_pass_shows() {
    let (cases, lines) = stored_of(Kind::Pass);
    let accepted: Vec<(&Case, &String)> = cases.iter().zip(&lines).filter(|(_, line)| line.starts_with('+')).collect();
    let differs = |change: fn(&mut Case), rule: u8| {
        let changed = |&&(case, line): &&(&Case, &String)| {
            let mut other = case.clone();
            change(&mut other);
            case.rule == rule && answers(&encode(&other)).trim_end() != line.as_str()
        };
        accepted.iter().filter(changed).count()
    };
    assert!(differs(|case| case.area += 1, 0) > 10);
    assert!(differs(|case| case.area = 1, 1) > 10);
    assert!(differs(|case| case.numbers[0] = 0, 0) > 10);
    assert!(differs(|case| case.numbers[1] = 25_500, 0) > 10);
    assert!(differs(|case| case.numbers[0] = 1_000, 1) > 10);
    assert!(differs(|case| (case.rule, case.numbers) = (0, [0, 25_500]), 1) > 10);
    assert!(differs(|case| case.area += 1, 2) > 5);
    assert!(differs(|case| case.segments = 17 - case.segments, 2) > 10);
    assert!(differs(|case| case.numbers[0] = 0, 2) > 10);
    assert!(differs(|case| case.numbers[0] = case.numbers[1], 2) > 10);
    assert!(differs(|case| case.numbers[1] = case.numbers[0], 2) > 10);
    assert!(differs(|case| case.numbers[1] = 10_000, 2) > 10);
    for rule in 0..=2 {
        assert!(differs(|case| case.neighbours = 12 - case.neighbours, rule) > 10, "rule {rule}");
    }
    assert!(accepted.iter().any(|(case, _)| case.plane.len() == usize::from(case.marks) && case.w == 16));
    for (rule, many) in [(0, 9), (1, 9), (2, 2)] {
        assert!(accepted.iter().any(|(case, line)| case.rule == rule && counts(line)[0] > many), "rule {rule}");
    }
}

/// The two counts of a line that answers an accepted pass, list or enhancement.
fn counts(line: &str) -> [u64; 2] {
    let mut numbers = line[1..].split(' ').map(|word| word.parse().expect("a number"));
    [(); 2].map(|()| numbers.next().expect("two counts"))
}

/// Each call that counts has lines with both counts above 0, with each alone, and with neither; a limited pass or
/// enhancement keeps nothing back.
#[test]
fn both_counts_show() {
    for kind in [Kind::Pass, Kind::Enhance, Kind::List, Kind::Passes, Kind::House] {
        let (cases, lines) = stored_of(kind);
        let accepted = cases.iter().zip(&lines).filter(|(_, line)| line.starts_with('+'));
        let mut shown = BTreeSet::new();
        for (case, line) in accepted {
            let [retoned, kept] = counts(line);
            shown.insert((retoned > 0, kept > 0));
            if matches!(kind, Kind::Pass | Kind::Enhance) && case.rule == 1 {
                assert_eq!(kept, 0, "{case:?}");
            }
        }
        // An enhancement has always come to the whole plane.
        let neither = !matches!(kind, Kind::Enhance | Kind::House);
        let all = [(true, true), (true, false), (false, true), (false, false)];
        assert_eq!(shown, all.into_iter().filter(|&one| neither || one != (false, false)).collect(), "{kind:?}");
    }
}

/// In every accepted pass and enhancement both counts together are the components of sufficient area.
#[test]
fn both_counts_together_are_all_of_sufficient_area() {
    let rule = |case: &Case| rule_of(case.rule, case.segments, case.numbers);
    for kind in [Kind::Pass, Kind::Enhance] {
        let (cases, lines) = stored_of(kind);
        for (case, line) in cases.iter().zip(&lines).filter(|(_, line)| line.starts_with('+')) {
            let (w, h, area, neighbours) = (case.w as usize, case.h as usize, case.area, case.neighbours);
            let mut first = case.plane.clone();
            let mut passes = vec![Pass { a: case.a, b: case.b, area, rule: rule(case), neighbours }];
            if kind == Kind::Enhance {
                intensity(&case.bytes, w, h, &mut first).expect("accepted");
                let last_level = case.last_level.into();
                passes = level_by_level(&Settings { last_level, area, rule: rule(case), neighbours });
            }
            let [retoned, kept] = counts(line);
            assert_eq!(retoned + kept, sufficient_in_all(&passes, &first, w, h), "{case:?}");
        }
    }
}

/// The number that tells a rule in a list.
fn code(rule: Rule) -> u8 {
    match rule {
        Rule::Plain { .. } => 0,
        Rule::Limited { .. } => 1,
        Rule::Affine { .. } => 2,
    }
}

/// Some accepted list and some chain have passes of all three rules, and each rule follows each.
#[test]
fn rules_are_mixed() {
    let (cases, lines) = stored_of(Kind::List);
    let accepted = cases.iter().zip(&lines).filter(|(_, line)| line.starts_with('+'));
    let lists: Vec<Vec<u8>> = accepted
        .map(|(case, _)| list_passes(&case.bytes).expect("accepted").iter().map(|pass| code(pass.rule)).collect())
        .collect();
    let (cases, _) = stored_calls();
    let chains: Vec<Vec<u8>> = cases
        .split(|case| case.kind != Kind::Pass || !case.same_plane)
        .map(|chain| chain.iter().map(|case| case.rule).collect())
        .collect();
    for runs in [lists, chains] {
        let mixed = |run: &Vec<u8>| run.iter().collect::<BTreeSet<&u8>>().len() == 3;
        assert!(runs.iter().any(mixed));
        let pairs: BTreeSet<&[u8]> = runs.iter().flat_map(|run| run.windows(2)).collect();
        assert_eq!(pairs.len(), 9);
    }
}

/// Some accepted passes in memory, some list and some chain have passes with four neighbours and with eight, and each
/// number follows each.
#[test]
fn numbers_of_neighbours_are_mixed() {
    let numbers = |passes: Vec<Pass>| passes.iter().map(|pass| pass.neighbours).collect::<Vec<u8>>();
    let in_memory = accepted(Kind::Passes).map(|(case, _)| numbers(passes_of(&case.bytes))).collect();
    let in_files = accepted(Kind::List).map(|(case, _)| numbers(list_passes(&case.bytes).expect("accepted"))).collect();
    let (cases, lines) = stored_calls();
    let calls: Vec<(&Case, &String)> = cases.iter().zip(&lines).collect();
    let chains: Vec<Vec<u8>> = calls
        .split(|(case, line)| case.kind != Kind::Pass || !case.same_plane || line.starts_with('-'))
        .map(|chain| chain.iter().map(|(case, _)| case.neighbours).collect())
        .collect();
    for runs in [in_memory, in_files, chains] {
        let pairs: BTreeSet<&[u8]> = runs.iter().flat_map(|run| run.windows(2)).collect();
        assert_eq!(pairs, BTreeSet::from([&[4, 4][..], &[4, 8], &[8, 4], &[8, 8]]));
    }
}

/// At every level from 1 on some enhancement with eight neighbours is answered otherwise than with four; so are many
/// lists in memory and of version 2, and many lists of version 1 would be.
#[test]
fn eight_neighbours_show() {
    let (cases, lines) = stored_of(Kind::Enhance);
    for last_level in 1..=7 {
        let differs = |(case, line): &(&Case, &String)| {
            let four = Case { neighbours: 4, ..(*case).clone() };
            case.neighbours == 8 && case.last_level == last_level && answers(&encode(&four)).trim_end() != *line
        };
        assert!(cases.iter().zip(&lines).any(|pair| differs(&pair)), "level {last_level}");
    }
    let differs = |case: &Case, passes: &[Pass], line: &String, neighbours: u8| {
        let other: Vec<Pass> = passes.iter().map(|&pass| Pass { neighbours, ..pass }).collect();
        let case = Case { kind: Kind::Passes, bytes: passes_bytes(&other), ..case.clone() };
        line.starts_with('+') && answers(&encode(&case)).trim_end() != line
    };
    let would = |(case, line): &(Case, String)| differs(case, &passes_of(&case.bytes), line, 4);
    assert!(accepted(Kind::Passes).filter(would).count() > 20);
    for (version, neighbours) in [(1, 8), (2, 4)] {
        let would = |(case, line): &(Case, String)| {
            let passes = list_passes(&case.bytes).expect("accepted");
            case.bytes[3] == version && differs(case, &passes, line, neighbours)
        };
        assert!(accepted(Kind::List).filter(would).count() > 30, "version {version}");
    }
}

/// A list is answered as its passes in memory are.
#[test]
fn lists_are_answered_as_in_memory() {
    for (case, line) in accepted(Kind::List) {
        let passes = list_passes(&case.bytes).expect("accepted");
        let in_memory = Case { kind: Kind::Passes, bytes: passes_bytes(&passes), ..case };
        assert_eq!(answers(&encode(&in_memory)).trim_end(), line, "{in_memory:?}");
    }
}

/// The bytes that the line of an accepted conversion begins with, which are the list in the other version.
fn converted(line: &str) -> Vec<u8> {
    let (length, output) = line[1..].split_once(' ').expect("a length and an output");
    let length: usize = length.parse().expect("a number");
    (0..length).map(|at| u8::from_str_radix(&output[2 * at..2 * at + 2], 16).expect("a byte")).collect()
}

/// Every accepted conversion is turned back into its list, and leaves what is beyond it; those of both versions have no
/// passes, few and 320.
#[test]
fn conversions_go_there_and_back() {
    let mut counts = BTreeSet::new();
    for (case, line) in accepted(Kind::Convert) {
        let mut back = vec![0; case.bytes.len()];
        assert_eq!(convert(&converted(&line), &mut back), Ok(case.bytes.len()));
        assert_eq!(back, case.bytes);
        let beyond = &line.split(' ').nth(1).expect("an output")[2 * converted(&line).len()..];
        assert_eq!(beyond, "aa".repeat(beyond.len() / 2));
        counts.insert((case.bytes[3], list_passes(&case.bytes).expect("accepted").len()));
    }
    for version in [1, 2] {
        assert!([0, 1, 2, 320].iter().all(|&count| counts.contains(&(version, count))), "{counts:?}");
    }
}

/// Random lists are stored in both versions, which are conversions of each other, and have one line.
#[test]
fn both_editions_have_one_line() {
    let (cases, lines) = stored_calls();
    let calls: Vec<(&Case, &String)> = cases.iter().zip(&lines).collect();
    let mut editions = 0;
    for four in calls.windows(4) {
        if [0, 1, 2, 3].map(|at| four[at].0.kind) == [Kind::List, Kind::Convert, Kind::List, Kind::Convert] {
            let [(first, line), (up, upper), (second, other_line), (down, lower)] =
                [four[0], four[1], four[2], four[3]];
            if (first.bytes[3], &up.bytes, &down.bytes) == (1, &first.bytes, &second.bytes) {
                assert_eq!(line, other_line);
                assert_eq!((converted(upper), converted(lower)), (second.bytes.clone(), first.bytes.clone()));
                editions += usize::from(line.starts_with('+'));
            }
        }
    }
    assert!(editions > 10, "{editions}");
}

/// A chain starts with intensity and goes on with the same plane, through passes to recolouring.
#[test]
fn chains_go_on_with_the_same_plane() {
    let (cases, _) = stored_calls();
    let mut links = BTreeSet::new();
    for pair in cases.windows(2).filter(|pair| pair[1].same_plane) {
        assert!(pair[1].plane.is_empty());
        links.insert((pair[0].kind, pair[1].kind));
    }
    let (start, middle, end) = (Kind::Intensity, Kind::Pass, Kind::Recolour);
    assert_eq!(links, BTreeSet::from([(start, middle), (start, end), (middle, middle), (middle, end)]));
}

/// The reader sees both sides of its limits, and the program both frames and refusals.
#[test]
fn frames_are_read_and_refused() {
    let (cases, lines) = stored_of(Kind::Read);
    assert!(lines.iter().filter(|line| line.starts_with('+')).count() > 100);
    assert!(cases.iter().any(|case| case.limit == 6 && first_word(case) == "+3"));
    let (cases, lines) = stored("tests/vectors/program.in", "tests/vectors/program.out");
    let same = |case: &Case, line: &str| answers(&encode(case)).trim_end() == line;
    assert!(cases.iter().zip(&lines).all(|(case, line)| same(case, line)));
    let frames = lines.iter().filter(|line| line.starts_with("5036")).count();
    assert!(frames > 20 && frames < lines.len() - 20);
}

/// Frames with comments are read, and refused by every number; many a number sign makes a header malformed.
#[test]
fn comments_are_read_and_refused() {
    let (cases, lines) = stored_of(Kind::Read);
    let mut answers: BTreeMap<&str, usize> = BTreeMap::new();
    for (case, line) in cases.iter().zip(&lines).filter(|(case, _)| case.bytes.contains(&b'#')) {
        let offset = line.split(' ').nth(2).map(|offset| offset.parse().expect("a number"));
        match offset {
            Some(offset) if case.bytes[..offset].contains(&b'#') => *answers.entry("+").or_default() += 1,
            Some(_) => *answers.entry("raster").or_default() += 1,
            None => *answers.entry(line).or_default() += 1,
        }
    }
    for (answer, least) in
        [("+", 100), ("raster", 3), ("-10", 50), ("-1", 10), ("-2", 10), ("-11", 10), ("-12", 10), ("-13", 10)]
    {
        assert!(answers.get(answer).copied().unwrap_or(0) >= least, "{answer}: {answers:?}");
    }
}
