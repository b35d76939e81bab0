//! Cases of `convert`, and of `run_list` with both versions of a list.

use crate::affine::affine;
use crate::chance::random_any;
use crate::faults::{faulty, faulty_last, faulty_records, output_test, Test};
use crate::list::{list_head_tests, random_lists, EXAMPLE, LENGTHS};
use crate::slopes::{form_test, other_rules_tests, record_slopes_test, record_tests};
use crate::sound::sound;
use crate::versions::{by, head_tests, list_of, neighbours_test, odd_lists, record_2_tests, set_bytes};
use crate::versions::{BENT, FIRST, SECOND};
use mlhe_reference::cases::{Case, Kind};
use mlhe_reference::random::Random;
use mlhe_reference::{list_bytes_of, Pass, Rule, Version};

/// A pass by the limited rule.
const CLIPPED: Pass = Pass { a: 3, b: 200, area: 65_537, rule: Rule::Limited { k: 999 }, neighbours: 4 };

/// The conversion of this list, with an output of so many bytes.
fn convert(bytes: Vec<u8>, output: usize) -> Case {
    Case { output: output as u16, ..sound(Kind::Convert, 0, 0, bytes, Vec::new()) }
}

/// The conversion of these passes from this version, with an output of the length that it needs.
fn exact(version: Version, passes: &[Pass]) -> Case {
    convert(list_bytes_of(version, passes), version.other().length(passes.len()))
}

pub fn cases() -> Vec<Case> {
    let mut cases = Vec::new();
    for version in Version::BOTH {
        cases.extend(outputs(version));
        cases.extend(many(version));
        // The output has room for two passes of either version.
        let odd = [set_bytes(version, &[EXAMPLE, BENT], &[0, 1, 8, 255]), odd_lists(version)].concat();
        cases.extend(odd.into_iter().map(|list| convert(list, 40)));
    }
    cases.extend(eights());
    cases.extend(refused_up());
    cases.extend(refused_down());
    cases.extend(editions(&mut Random::new(140)));
    cases
}

/// Outputs of the length that is needed, longer, one byte short, as long as the list, and none.
fn outputs(version: Version) -> Vec<Case> {
    let mut cases = Vec::new();
    for passes in [&[][..], &[EXAMPLE], &[CLIPPED, BENT]] {
        let Case { output, bytes, .. } = exact(version, passes);
        let needed = usize::from(output);
        for output in [needed, needed + 9, needed - 1, bytes.len(), 0] {
            cases.push(convert(bytes.clone(), output));
        }
    }
    cases
}

/// Many passes, each another one, with outputs of the length that they need and of none.
fn many(version: Version) -> Vec<Case> {
    let pass = |number: usize| {
        let [low, high] = [number % 256, 255 - number / 256];
        let rule = match number % 3 {
            0 => Rule::Plain { low: number as u32, high: 25_500 - number as u32 },
            1 => Rule::Limited { k: number as u32 % 1_001 },
            _ => affine([number as u32 % 16 + 1, number as u32, 10_000 - number as u32]),
        };
        Pass { a: low.min(high) as u8, b: low.max(high) as u8, area: 1_023 * number as u32 + 1, rule, neighbours: 4 }
    };
    let passes: Vec<Pass> = (0..1_024).map(pass).collect();
    let mut cases = Vec::new();
    for length in LENGTHS {
        let case = exact(version, &passes[..length]);
        cases.extend([Case { output: 0, ..case.clone() }, case]);
    }
    cases
}

/// Eight neighbours in some record of version 2, which has no place in version 1, with outputs long and short.
fn eights() -> Vec<Case> {
    let lists = [
        vec![by(8, EXAMPLE)],
        vec![by(8, CLIPPED), BENT],
        vec![CLIPPED, by(8, BENT)],
        vec![EXAMPLE, EXAMPLE, by(8, EXAMPLE)],
        vec![by(8, BENT); 3],
    ];
    let mut cases = Vec::new();
    for passes in lists {
        let case = exact(Version::Two, &passes);
        cases.extend([Case { output: 0, ..case.clone() }, Case { output: case.output - 1, ..case.clone() }, case]);
    }
    let last = [vec![EXAMPLE; 319], vec![by(8, EXAMPLE)]].concat();
    cases.push(convert(list_bytes_of(Version::Two, &last), 0));
    cases
}

/// The first way to fail each test.
fn first_ways(tests: Vec<Test>) -> Vec<Test> {
    tests.into_iter().map(|(number, faults)| (number, faults[..1].to_vec())).collect()
}

/// Two passes by the affine rule.
fn two() -> [Pass; 2] {
    [BENT, Pass { rule: affine([16, 0, 0]), ..EXAMPLE }]
}

/// From version 1, whose second record starts at byte 19.
fn refused_up() -> Vec<Case> {
    let sound = exact(Version::One, &two());
    let mut first = vec![form_test::<7>()];
    first.extend([record_tests::<7>(), other_rules_tests::<7>(), vec![record_slopes_test::<7>()]].concat());
    let second = [vec![form_test::<19>()], record_tests::<19>(), vec![record_slopes_test::<19>()]].concat();
    let mut cases = faulty_last(&sound, &[list_head_tests(), first.clone()].concat(), &output_test());
    cases.extend(faulty(&sound, &first_ways(first), &[7, 8, 18]));
    cases.extend(faulty_last(&sound, &second, &output_test()));
    cases
}

/// From version 2. The second record has eight neighbours where the first record has another fault, and the other way
/// round.
fn refused_down() -> Vec<Case> {
    let sound = exact(Version::Two, &two());
    let (first, second) = (record_2_tests::<FIRST>(), record_2_tests::<SECOND>());
    let mut tests = [head_tests(), first.clone()].concat();
    tests.extend([(20, vec![(|case| case.bytes[SECOND + 12] = 8) as fn(&mut Case)]), output_test()]);
    let mut cases = faulty(&sound, &first_ways(tests), &[7, 8, 18]);
    let eight: Test = (20, vec![|case| case.bytes[FIRST + 12] = 8]);
    cases.extend(faulty_last(&sound, &second, &eight));
    cases.extend(faulty_records(&sound, &first, &[neighbours_test::<SECOND>()]));
    cases.extend(faulty_records(&sound, &[neighbours_test::<FIRST>()], &second));
    cases
}

/// Random lists of version 1, each run, converted, run as converted, and converted back.
fn editions(random: &mut Random) -> Vec<Case> {
    let mut cases = Vec::new();
    for (w, h, plane, passes) in random_lists(random, 12, random_any) {
        for version in Version::BOTH {
            cases.push(list_of(version, w, h, &passes, &plane));
            let case = exact(version, &passes);
            cases.push(Case { output: case.output + random.one_of(&[0, 0, 1, 5]), ..case });
        }
    }
    cases
}
