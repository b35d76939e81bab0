//! Cases of refusal 19, but for those of lists of bytes.

use crate::affine::affine;
use crate::faults::{area_test, faulty_last, faulty_records, lengths_test, memory_test, output_test, plane_test};
use crate::faults::{size_tests, Test};
use crate::list::EXAMPLE;
use crate::passes::passes;
use crate::slopes::{other_rules_tests, record_slopes_test, record_tests};
use crate::sound::{enhance_grey, pass_on, ruled, FREE};
use mlhe_reference::cases::{Case, PASS};
use mlhe_reference::Pass;

/// Example J's plane, of two columns.
pub const CORNERS: [u8; 4] = [10, 200, 200, 20];

pub fn cases() -> Vec<Case> {
    let eight = |case: Case| Case { neighbours: 8, ..ruled(case, affine([2, 100, 10_000])) };
    let mut earlier = size_tests();
    earlier.extend([plane_test(), memory_test(), (5, vec![|case| (case.a, case.b) = (9, 8)]), area_test()]);
    earlier.extend(rule_tests());
    let mut cases = faulty_last(&eight(pass_on(&CORNERS, 2, [0, 127], 1, 0, FREE)), &earlier, &neighbours_test());
    let mut earlier = size_tests();
    earlier.extend([lengths_test(), memory_test(), output_test()]);
    earlier.extend([(9, vec![(|case| case.last_level = 8) as fn(&mut Case)]), area_test()]);
    earlier.extend(rule_tests());
    cases.extend(faulty_last(&eight(enhance_grey(&CORNERS, 2, 7, 2, 0, FREE)), &earlier, &neighbours_test()));
    cases.extend(in_memory());
    cases
}

/// 7, 8 and 18.
fn rule_tests() -> Vec<Test> {
    vec![
        (7, vec![|case| (case.rule, case.segments, case.numbers) = (0, 0, [81, 80])]),
        (8, vec![|case| (case.rule, case.segments, case.numbers) = (1, 0, [1_001, 0])]),
        (18, vec![|case| case.segments = 0]),
        (18, vec![|case| case.numbers = [301, 300]]),
    ]
}

fn neighbours_test() -> Test {
    let faults: Vec<fn(&mut Case)> = vec![
        |case| case.neighbours = 0,
        |case| case.neighbours = 3,
        |case| case.neighbours = 5,
        |case| case.neighbours = 7,
        |case| case.neighbours = 9,
        |case| case.neighbours = 255,
    ];
    (19, faults)
}

/// The same in a pass in memory from this place on.
fn pass_neighbours_test<const AT: usize>() -> Test {
    let faults: Vec<fn(&mut Case)> = vec![
        |case| case.bytes[AT + 12] = 0,
        |case| case.bytes[AT + 12] = 3,
        |case| case.bytes[AT + 12] = 5,
        |case| case.bytes[AT + 12] = 7,
        |case| case.bytes[AT + 12] = 9,
        |case| case.bytes[AT + 12] = 255,
    ];
    (19, faults)
}

/// What is tested before it in a pass in memory.
fn earlier_tests<const AT: usize>() -> Vec<Test> {
    let mut tests = record_tests::<AT>();
    tests.extend(other_rules_tests::<AT>());
    tests.push(record_slopes_test::<AT>());
    tests
}

/// The second pass starts at byte 13.
fn in_memory() -> Vec<Case> {
    let rule = affine([2, 100, 10_000]);
    let sound = passes(2, 2, &[8, 4].map(|neighbours| Pass { rule, neighbours, ..EXAMPLE }), &CORNERS);
    let mut earlier = size_tests();
    earlier.extend([plane_test(), memory_test()]);
    earlier.push((16, vec![|case| case.bytes = case.bytes.repeat(161)[..PASS * 321].to_vec()]));
    earlier.extend(earlier_tests::<0>());
    let mut cases = faulty_last(&sound, &earlier, &pass_neighbours_test::<0>());
    cases.extend(faulty_last(&sound, &earlier_tests::<PASS>(), &pass_neighbours_test::<PASS>()));
    cases.extend(faulty_records(&sound, &earlier_tests::<0>(), &[pass_neighbours_test::<PASS>()]));
    let second = [earlier_tests::<PASS>(), vec![pass_neighbours_test::<PASS>()]].concat();
    cases.extend(faulty_records(&sound, &[pass_neighbours_test::<0>()], &second));
    cases
}
