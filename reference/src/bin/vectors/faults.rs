//! Faults: for each test of a call, ways to fail it.

use mlhe_reference::cases::{answers, encode, Case};

/// One test of a call: the number of its refusal and ways to fail it.
pub type Test = (u8, Vec<fn(&mut Case)>);

/// The sound call with these faults. The answer is checked: it is the refusal of this number. A list of version 1 that
/// is said to be of version 2 has not a wrong version, but a wrong length.
fn refused(sound: &Case, number: u8, faults: &[fn(&mut Case)]) -> Case {
    let mut case = sound.clone();
    faults.iter().for_each(|fault| fault(&mut case));
    let number = if number == 15 && case.bytes.starts_with(b"MLP\x02\0") { 16 } else { number };
    let line = answers(&encode(&case));
    let answered = line.trim_end().split(' ').next().map(str::to_string);
    assert_eq!(answered, Some(format!("-{number}")), "{case:?}");
    case
}

/// The sound call with every fault alone, and for every two tests with a fault of each, so that the order of the
/// tests shows. The tests come in their order. The answers are checked: the earlier test is the one that answers.
/// `apart` has the tests of which no call can fail two.
pub fn faulty(sound: &Case, tests: &[Test], apart: &[u8]) -> Vec<Case> {
    let mut made = vec![sound.clone()];
    assert!(!answers(&encode(sound)).starts_with('-'));
    for (place, (number, faults)) in tests.iter().enumerate() {
        made.extend(faults.iter().map(|&fault| refused(sound, *number, &[fault])));
        for (other, later) in &tests[place + 1..] {
            if number != other && !(apart.contains(number) && apart.contains(other)) {
                made.push(refused(sound, *number, &[later[0], faults[0]]));
                if faults.len() > 1 || later.len() > 1 {
                    made.push(refused(sound, *number, &[later[later.len() - 1], faults[faults.len() - 1]]));
                }
            }
        }
    }
    made
}

/// The sound call with every fault of the last test alone, and with its first fault behind that of each earlier test.
pub fn faulty_last(sound: &Case, earlier: &[Test], (last, faults): &Test) -> Vec<Case> {
    let mut made = vec![sound.clone()];
    assert!(!answers(&encode(sound)).starts_with('-'));
    made.extend(faults.iter().map(|&fault| refused(sound, *last, &[fault])));
    made.extend(earlier.iter().map(|(number, earlier)| refused(sound, *number, &[faults[0], earlier[0]])));
    made
}

/// The sound call with the first fault of a test before that of each later test.
pub fn faulty_before(sound: &Case, (first, faults): &Test, later: &[Test]) -> Vec<Case> {
    later.iter().map(|(_, later)| refused(sound, *first, &[later[0], faults[0]])).collect()
}

/// The sound call with a fault of each test of a first record and one of each test of a second. The answers are checked:
/// the first record is the one that answers.
pub fn faulty_records(sound: &Case, first: &[Test], second: &[Test]) -> Vec<Case> {
    let mut made = Vec::new();
    for (number, earlier) in first {
        for (_, later) in second {
            let mut case = sound.clone();
            earlier[0](&mut case);
            later[0](&mut case);
            assert!(answers(&encode(&case)).starts_with(&format!("-{number} ")), "{case:?}");
            made.push(case);
        }
    }
    made
}

pub fn size_tests() -> Vec<Test> {
    let sides: Vec<fn(&mut Case)> = vec![
        |case| case.w = 0,
        |case| case.h = 0,
        |case| case.h = 4_097,
        |case| (case.w, case.h) = (65_536, 65_536),
        |case| (case.w, case.h) = (u32::MAX, u32::MAX),
        |case| case.w = 4_097,
    ];
    vec![(1, sides), (2, vec![|case| (case.w, case.h) = (4_096, 257), |case| (case.w, case.h) = (1_025, 1_024)])]
}

pub fn plane_test() -> Test {
    (3, vec![|case| case.plane.push(7), |case| case.plane.truncate(3), |case| case.plane.clear()])
}

/// The plane and the frame.
pub fn lengths_test() -> Test {
    let (number, mut faults) = plane_test();
    faults.extend::<[fn(&mut Case); 2]>([|case| case.bytes.push(7), |case| case.bytes.truncate(11)]);
    (number, faults)
}

pub fn memory_test() -> Test {
    (4, vec![|case| case.marks = 3, |case| case.queue = 0, |case| case.queue = 3])
}

pub fn output_test() -> Test {
    (14, vec![|case| case.output -= 1, |case| case.output = 0])
}

pub fn area_test() -> Test {
    (6, vec![|case| case.area = 0, |case| case.area = 1_048_577, |case| case.area = u32::MAX])
}

pub fn rule_tests() -> Vec<Test> {
    vec![
        (7, vec![|case| case.numbers = [81, 80], |case| case.numbers = [0, 25_501], |case| case.numbers[1] = 65_535]),
        (
            8,
            vec![|case| (case.rule, case.numbers) = (1, [1_001, 0]), |case| (case.rule, case.numbers[0]) = (1, 65_535)],
        ),
    ]
}
