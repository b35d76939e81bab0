//! Cases of refusal 18, and of 17 as the affine rule leaves it.

use crate::affine::affine;
use crate::faults::{area_test, faulty_last, faulty_records, lengths_test, memory_test, output_test, plane_test};
use crate::faults::{size_tests, Test};
use crate::list::{list, list_head_tests, EXAMPLE, PARTS};
use crate::pass::ROW;
use crate::passes::passes;
use crate::sound::{enhance_grey, pass_on, ruled, FREE};
use mlhe_reference::cases::{Case, PASS};
use mlhe_reference::Pass;

/// N, smin and smax of the sound calls.
const SOUND: [u32; 3] = [2, 100, 10_000];

pub fn cases() -> Vec<Case> {
    let mut earlier = size_tests();
    earlier.extend([plane_test(), memory_test(), (5, vec![|case| (case.a, case.b) = (9, 8)]), area_test()]);
    let pass = ruled(pass_on(&ROW, 2, [0, 255], 1, 0, FREE), affine(SOUND));
    let mut cases = faulty_last(&pass, &earlier, &slopes_test());
    let mut earlier = size_tests();
    earlier.extend([lengths_test(), memory_test(), output_test()]);
    earlier.extend([(9, vec![(|case| case.last_level = 8) as fn(&mut Case)]), area_test()]);
    let enhance = ruled(enhance_grey(&ROW, 2, 7, 20, 0, FREE), affine(SOUND));
    cases.extend(faulty_last(&enhance, &earlier, &slopes_test()));
    cases.extend(in_lists());
    cases.extend(in_memory());
    cases.extend(forms());
    cases
}

fn slopes_test() -> Test {
    let faults: Vec<fn(&mut Case)> = vec![
        |case| case.segments = 0,
        |case| case.segments = 17,
        |case| case.segments = 255,
        |case| case.numbers = [301, 300],
        |case| case.numbers = [1, 0],
        |case| case.numbers[1] = 10_001,
        |case| case.numbers = [10_001; 2],
        |case| case.numbers[0] = 65_535,
    ];
    (18, faults)
}

/// The same in a record, or in a pass in memory, from this place on.
pub fn record_slopes_test<const AT: usize>() -> Test {
    let faults: Vec<fn(&mut Case)> = vec![
        |case| case.bytes[AT + 3] = 0,
        |case| case.bytes[AT + 3] = 17,
        |case| case.bytes[AT + 3] = 255,
        |case| case.bytes[AT + 8..AT + 12].copy_from_slice(&[0x2D, 0x01, 0x2C, 0x01]),
        |case| case.bytes[AT + 10..AT + 12].copy_from_slice(&[0x11, 0x27]),
    ];
    (18, faults)
}

/// 5 and 6 in a record with the affine rule, which are tested before 18.
pub fn record_tests<const AT: usize>() -> Vec<Test> {
    vec![
        (5, vec![|case| (case.bytes[AT], case.bytes[AT + 1]) = (9, 8)]),
        (6, vec![|case| case.bytes[AT + 4..AT + 8].fill(0), |case| case.bytes[AT + 6] = 16]),
    ]
}

/// 7 and 8 in a record, which gets another rule.
pub fn other_rules_tests<const AT: usize>() -> Vec<Test> {
    vec![
        (7, vec![|case| case.bytes[AT + 2..AT + 12].copy_from_slice(&[0, 0, 1, 0, 0, 0, 81, 0, 80, 0])]),
        (8, vec![|case| case.bytes[AT + 2..AT + 12].copy_from_slice(&[1, 0, 1, 0, 0, 0, 0xE9, 0x03, 0, 0])]),
    ]
}

/// 17 in a record with the affine rule: its rule becomes another, and its N is no zero byte.
pub fn form_test<const AT: usize>() -> Test {
    (17, vec![|case| case.bytes[AT + 2] = 3, |case| case.bytes[AT + 2] = 0, |case| case.bytes[AT + 2] = 1])
}

/// The two passes of a sound call.
fn two() -> [Pass; 2] {
    [Pass { rule: affine(SOUND), ..EXAMPLE }, Pass { rule: affine([16, 0, 0]), ..EXAMPLE }]
}

/// The first record of a list starts at byte 7, the second at byte 19.
fn in_lists() -> Vec<Case> {
    let sound = list(2, 2, &two(), &[10, 20, 200, 10]);
    let mut earlier = size_tests();
    earlier.extend([plane_test(), memory_test()]);
    earlier.extend(list_head_tests());
    earlier.extend(record_tests::<7>());
    let mut cases = faulty_last(&sound, &earlier, &record_slopes_test::<7>());
    cases.extend(faulty_last(&sound, &record_tests::<19>(), &record_slopes_test::<19>()));
    let others = |form: Test, tests: Vec<Test>, rules: Vec<Test>| [vec![form], tests, rules].concat();
    let first = others(form_test::<7>(), record_tests::<7>(), other_rules_tests::<7>());
    let second = others(form_test::<19>(), record_tests::<19>(), other_rules_tests::<19>());
    cases.extend(faulty_records(&sound, &first, &[record_slopes_test::<19>()]));
    cases.extend(faulty_records(&sound, &[record_slopes_test::<7>()], &second));
    cases
}

/// The second pass starts at byte 13.
fn in_memory() -> Vec<Case> {
    let sound = passes(2, 2, &two(), &[10, 20, 200, 10]);
    let mut earlier = size_tests();
    earlier.extend([plane_test(), memory_test()]);
    earlier.push((16, vec![|case| case.bytes = case.bytes.repeat(161)[..PASS * 321].to_vec()]));
    earlier.extend(record_tests::<0>());
    let mut cases = faulty_last(&sound, &earlier, &record_slopes_test::<0>());
    cases.extend(faulty_last(&sound, &record_tests::<PASS>(), &record_slopes_test::<PASS>()));
    let first = [record_tests::<0>(), other_rules_tests::<0>()].concat();
    let second = [record_tests::<PASS>(), other_rules_tests::<PASS>()].concat();
    cases.extend(faulty_records(&sound, &first, &[record_slopes_test::<PASS>()]));
    cases.extend(faulty_records(&sound, &[record_slopes_test::<0>()], &second));
    cases
}

/// Lists of one pass with each rule and some bytes after it: 17 for a rule above 2, and for a byte that is set where
/// the rule is 0 or 1; where it is 2, the byte is N.
fn forms() -> Vec<Case> {
    let sound = list(5, 1, &[Pass { rule: affine([1, 0, 1_000]), ..EXAMPLE }], &PARTS);
    let with = |rule: u8, byte: u8, numbers: [u8; 4]| {
        let mut case = sound.clone();
        (case.bytes[9], case.bytes[10]) = (rule, byte);
        case.bytes[15..19].copy_from_slice(&numbers);
        case
    };
    let thousand = [0, 0, 0xE8, 0x03];
    let mut cases = Vec::new();
    for byte in [0, 1, 16, 17, 255] {
        cases.extend([0, 2, 3, 255].map(|rule| with(rule, byte, thousand)));
        cases.extend([with(1, byte, [0, 0, 0, 0]), with(1, byte, thousand)]);
    }
    cases
}
