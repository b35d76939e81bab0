//! The table of refusals, row by row, and the orders of the tests. Each order is shown by all pairs of faults at once:
//! the earlier one answers. Every refusal leaves the lent bytes as they were.

use mlhe_reference::random::Random;
use mlhe_reference::{convert, enhance, intensity, list_bytes, list_bytes_of, pass, program, read, recolour, run_list};
use mlhe_reference::{run_passes, write, Counts, Frame, Pass, Rule, Settings, Version, GREATEST_PIXELS};

const FREE: Rule = Rule::Plain { low: 0, high: 25_500 };
const SOUND: Pass = Pass { a: 0, b: 255, area: 1, rule: FREE, neighbours: 4 };

/// Numbers of the affine rule that are refused.
const WRONG_SLOPES: [Rule; 7] = [
    Rule::Affine { segments: 0, smin: 100, smax: 300 },
    Rule::Affine { segments: 17, smin: 100, smax: 300 },
    Rule::Affine { segments: 255, smin: 100, smax: 300 },
    Rule::Affine { segments: 2, smin: 301, smax: 300 },
    Rule::Affine { segments: 2, smin: 1, smax: 0 },
    Rule::Affine { segments: 2, smin: 100, smax: 10_001 },
    Rule::Affine { segments: 2, smin: 10_001, smax: 10_001 },
];

/// Refusals of which a rule's numbers can have but one.
const APART: [(u8, u8); 3] = [(7, 8), (7, 18), (8, 18)];

/// A fault: its number and how it is made.
type Fault<Call> = (u8, fn(&mut Call));

/// Runs a sound call with each fault and with each pair of faults, given in the order of the tests. Faults of one pair
/// must not undo each other: the later one of the order is made first.
fn faults_answer_in_order<Call: Clone>(
    sound: &Call,
    faults: &[Fault<Call>],
    excluded: &[(u8, u8)],
    answer: impl Fn(&Call) -> Result<u64, u8>,
) {
    assert!(answer(sound).is_ok());
    for (place, (number, make)) in faults.iter().enumerate() {
        let mut call = sound.clone();
        make(&mut call);
        assert_eq!(answer(&call), Err(*number), "fault {place} alone");
        for (later, (other, make_other)) in faults.iter().enumerate().skip(place + 1) {
            if number == other || excluded.contains(&(*number, *other)) {
                continue;
            }
            let mut call = sound.clone();
            make_other(&mut call);
            make(&mut call);
            assert_eq!(answer(&call), Err(*number), "faults {place} and {later}: {number} and {other}");
        }
    }
}

/// The arguments of every call that is lent a plane. A call uses what it needs.
#[derive(Clone)]
struct Call {
    w: usize,
    h: usize,
    frame: usize,
    plane: usize,
    marks: usize,
    queue: usize,
    output: usize,
    list: Vec<u8>,
    pass: Pass,
    settings: Settings,
}

/// A sound call on 2 by 2 pixels with an output of exactly 12 bytes.
fn sound_call() -> Call {
    Call {
        w: 2,
        h: 2,
        frame: 12,
        plane: 4,
        marks: 4,
        queue: 4,
        output: 12,
        list: list_bytes(&[SOUND, SOUND]),
        pass: SOUND,
        settings: Settings { last_level: 7, area: 20, rule: FREE, neighbours: 8 },
    }
}

/// Distinct bytes to lend.
fn bytes(length: usize) -> Vec<u8> {
    (0..length).map(|i| (37 * i + 11) as u8).collect()
}

/// Runs a call on a lent plane and a lent output, and asserts that a refusal changes neither.
fn guarded(call: &Call, run: impl Fn(&mut [u8], &mut [u8]) -> Result<u64, u8>) -> Result<u64, u8> {
    let (mut plane, mut output) = (bytes(call.plane), bytes(call.output));
    let answer = run(&mut plane, &mut output);
    if answer.is_err() {
        assert_eq!(plane, bytes(call.plane));
        assert_eq!(output, bytes(call.output));
    }
    answer
}

fn run_intensity(call: &Call) -> Result<u64, u8> {
    guarded(call, |plane, _| intensity(&bytes(call.frame), call.w, call.h, plane).map(|()| 0))
}

fn run_pass(call: &Call) -> Result<u64, u8> {
    guarded(call, |plane, _| pass(plane, call.marks, call.queue, call.w, call.h, &call.pass).map(Counts::together))
}

fn run_recolour(call: &Call) -> Result<u64, u8> {
    let plane = bytes(call.plane);
    guarded(call, |_, output| recolour(&bytes(call.frame), call.w, call.h, &plane, output).map(|()| 0))
}

fn run_enhance(call: &Call) -> Result<u64, u8> {
    guarded(call, |plane, output| {
        let frame = bytes(call.frame);
        enhance(&frame, call.w, call.h, &call.settings, plane, call.marks, call.queue, output).map(Counts::together)
    })
}

fn run_list_call(call: &Call) -> Result<u64, u8> {
    guarded(call, |plane, _| run_list(&call.list, plane, call.marks, call.queue, call.w, call.h).map(Counts::together))
}

fn run_convert(call: &Call) -> Result<u64, u8> {
    guarded(call, |_, output| convert(&call.list, output).map(|length| length as u64))
}

fn run_write(call: &Call) -> Result<u64, u8> {
    guarded(call, |_, output| write(&bytes(call.frame), call.w, call.h, output).map(|length| length as u64))
}

const NO_WIDTH: Fault<Call> = (1, |call| call.w = 0);
const NO_HEIGHT: Fault<Call> = (1, |call| call.h = 0);
const GREAT_WIDTH: Fault<Call> = (1, |call| call.w = 4_097);
const GREAT_HEIGHT: Fault<Call> = (1, |call| call.h = 4_097);
const HUGE_SIDES: Fault<Call> = (1, |call| (call.w, call.h) = (usize::MAX, usize::MAX));
const MANY_PIXELS: Fault<Call> = (2, |call| (call.w, call.h) = (4_096, 257));
const LONG_PLANE: Fault<Call> = (3, |call| call.plane = 5);
const SHORT_PLANE: Fault<Call> = (3, |call| call.plane = 3);
const LONG_FRAME: Fault<Call> = (3, |call| call.frame = 13);
const SHORT_FRAME: Fault<Call> = (3, |call| call.frame = 11);
const SHORT_MARKS: Fault<Call> = (4, |call| call.marks = 3);
const SHORT_QUEUE: Fault<Call> = (4, |call| call.queue = 3);
const SHORT_OUTPUT: Fault<Call> = (14, |call| call.output -= 1);

#[test]
fn intensity_1_2_3() {
    let faults = [
        NO_WIDTH,
        NO_HEIGHT,
        GREAT_WIDTH,
        GREAT_HEIGHT,
        HUGE_SIDES,
        MANY_PIXELS,
        LONG_PLANE,
        SHORT_PLANE,
        LONG_FRAME,
        SHORT_FRAME,
    ];
    faults_answer_in_order(&sound_call(), &faults, &[], run_intensity);
}

#[test]
fn pass_1_to_8_18_19() {
    let faults: Vec<Fault<Call>> = vec![
        NO_WIDTH,
        NO_HEIGHT,
        GREAT_WIDTH,
        GREAT_HEIGHT,
        HUGE_SIDES,
        MANY_PIXELS,
        LONG_PLANE,
        SHORT_PLANE,
        SHORT_MARKS,
        SHORT_QUEUE,
        (5, |call| (call.pass.a, call.pass.b) = (9, 8)),
        (6, |call| call.pass.area = 0),
        (6, |call| call.pass.area = 1_048_577),
        (6, |call| call.pass.area = u32::MAX),
        (7, |call| call.pass.rule = Rule::Plain { low: 81, high: 80 }),
        (7, |call| call.pass.rule = Rule::Plain { low: 0, high: 25_501 }),
        (8, |call| call.pass.rule = Rule::Limited { k: 1_001 }),
        (18, |call| call.pass.rule = WRONG_SLOPES[0]),
        (18, |call| call.pass.rule = WRONG_SLOPES[3]),
        (18, |call| call.pass.rule = WRONG_SLOPES[5]),
        (19, |call| call.pass.neighbours = 0),
        (19, |call| call.pass.neighbours = 5),
        (19, |call| call.pass.neighbours = 255),
    ];
    faults_answer_in_order(&sound_call(), &faults, &APART, run_pass);
}

#[test]
fn recolour_1_2_3_14() {
    let faults = [NO_WIDTH, NO_HEIGHT, HUGE_SIDES, MANY_PIXELS, LONG_PLANE, SHORT_PLANE, LONG_FRAME, SHORT_FRAME];
    let faults: Vec<Fault<Call>> = faults.into_iter().chain([SHORT_OUTPUT, (14, |call| call.output = 0)]).collect();
    faults_answer_in_order(&sound_call(), &faults, &[], run_recolour);
}

#[test]
fn enhancement_1_2_3_4_14_9_6_7_8_18_19() {
    let faults: Vec<Fault<Call>> = vec![
        NO_WIDTH,
        NO_HEIGHT,
        GREAT_WIDTH,
        GREAT_HEIGHT,
        HUGE_SIDES,
        MANY_PIXELS,
        LONG_PLANE,
        SHORT_PLANE,
        LONG_FRAME,
        SHORT_FRAME,
        SHORT_MARKS,
        SHORT_QUEUE,
        SHORT_OUTPUT,
        (9, |call| call.settings.last_level = 8),
        (9, |call| call.settings.last_level = 255),
        (6, |call| call.settings.area = 0),
        (6, |call| call.settings.area = 1_048_577),
        (7, |call| call.settings.rule = Rule::Plain { low: 81, high: 80 }),
        (7, |call| call.settings.rule = Rule::Plain { low: 25_501, high: 25_501 }),
        (8, |call| call.settings.rule = Rule::Limited { k: 1_001 }),
        (18, |call| call.settings.rule = WRONG_SLOPES[1]),
        (18, |call| call.settings.rule = WRONG_SLOPES[4]),
        (18, |call| call.settings.rule = WRONG_SLOPES[6]),
        (19, |call| call.settings.neighbours = 0),
        (19, |call| call.settings.neighbours = 7),
        (19, |call| call.settings.neighbours = 9),
    ];
    faults_answer_in_order(&sound_call(), &faults, &APART, run_enhance);
}

/// The sound call with two passes as a list of this version, with an output as long as their conversion.
fn listed_call(version: Version) -> Call {
    Call { list: list_bytes_of(version, &[SOUND, SOUND]), output: version.other().length(2), ..sound_call() }
}

/// Faults of what a list is lent.
const LENT_FAULTS: [Fault<Call>; 8] =
    [NO_WIDTH, GREAT_HEIGHT, HUGE_SIDES, MANY_PIXELS, LONG_PLANE, SHORT_PLANE, SHORT_MARKS, SHORT_QUEUE];

/// Faults of the head of a list of two passes of either version, in the order of the tests. A list that is said to be
/// of the other version has a wrong length.
fn head_faults() -> Vec<Fault<Call>> {
    vec![
        (16, |call| call.list.truncate(6)),
        (16, |call| call.list.clear()),
        (15, |call| call.list[0] = b'm'),
        (15, |call| call.list[1] = b'P'),
        (15, |call| call.list[2] = b'Q'),
        (15, |call| call.list[3] = 0),
        (15, |call| call.list[3] = 3),
        (15, |call| call.list[4] = 1),
        (16, |call| call.list[3] = 3 - call.list[3]),
        (16, |call| call.list[5] = 1),
        (16, |call| call.list[5] = 3),
        (16, |call| call.list[6] = 4),
        (16, |call| call.list.push(0)),
        (16, |call| call.list.truncate(30)),
    ]
}

/// Faults of the first record, which starts at byte 7.
fn first_record_faults() -> Vec<Fault<Call>> {
    vec![
        (17, |call| call.list[7 + 2] = 3),
        (17, |call| call.list[7 + 3] = 1),
        (17, |call| (call.list[7 + 2], call.list[7 + 10], call.list[7 + 11]) = (1, 1, 0)),
        (17, |call| (call.list[7 + 2], call.list[7 + 10], call.list[7 + 11]) = (1, 0, 1)),
        (5, |call| (call.list[7], call.list[7 + 1]) = (9, 8)),
        (6, |call| call.list[7 + 4] = 0),
        (6, |call| call.list[7 + 6] = 16),
        (6, |call| call.list[7 + 7] = 1),
        (7, |call| (call.list[7 + 8], call.list[7 + 10], call.list[7 + 11]) = (81, 80, 0)),
        (7, |call| call.list[7 + 10] += 1),
        (8, |call| call.list[7 + 2..7 + 12].copy_from_slice(&[1, 0, 1, 0, 0, 0, 0xE9, 0x03, 0, 0])),
        (18, |call| call.list[7 + 2..7 + 12].copy_from_slice(&[2, 0, 1, 0, 0, 0, 100, 0, 0x2C, 0x01])),
        (18, |call| call.list[7 + 2..7 + 12].copy_from_slice(&[2, 17, 1, 0, 0, 0, 100, 0, 0x2C, 0x01])),
        (18, |call| call.list[7 + 2..7 + 12].copy_from_slice(&[2, 2, 1, 0, 0, 0, 0x2D, 0x01, 0x2C, 0x01])),
        (18, |call| call.list[7 + 2..7 + 12].copy_from_slice(&[2, 2, 1, 0, 0, 0, 100, 0, 0x11, 0x27])),
    ]
}

/// Faults of the second record, which starts at byte 19 in version 1 and at byte 23 in version 2.
fn second_record_faults<const AT: usize>() -> Vec<Fault<Call>> {
    vec![
        (17, |call| call.list[AT + 2] = 255),
        (17, |call| call.list[AT + 3] = 128),
        (5, |call| (call.list[AT], call.list[AT + 1]) = (255, 0)),
        (6, |call| call.list[AT + 4] = 0),
        (7, |call| call.list[AT + 11] = 255),
        (8, |call| call.list[AT + 2..AT + 12].copy_from_slice(&[1, 0, 1, 0, 0, 0, 0xFF, 0xFF, 0, 0])),
        (18, |call| call.list[AT + 2..AT + 12].copy_from_slice(&[2, 255, 1, 0, 0, 0, 0, 0, 0, 0])),
        (18, |call| call.list[AT + 2..AT + 12].copy_from_slice(&[2, 16, 1, 0, 0, 0, 0xFF, 0xFF, 0xFF, 0xFF])),
    ]
}

/// Faults of the three zero bytes of a record of version 2.
fn zeros_faults<const AT: usize>() -> Vec<Fault<Call>> {
    vec![
        (17, |call| call.list[AT + 13] = 1),
        (17, |call| call.list[AT + 14] = 8),
        (17, |call| call.list[AT + 15] = 255),
        (17, |call| call.list[AT + 13..AT + 16].fill(4)),
    ]
}

/// Faults of the number of neighbours of a record of version 2.
fn neighbours_faults<const AT: usize>() -> Vec<Fault<Call>> {
    vec![
        (19, |call| call.list[AT + 12] = 0),
        (19, |call| call.list[AT + 12] = 6),
        (19, |call| call.list[AT + 12] = 255),
    ]
}

/// A list call with faults of the first record answers the first one's number, whatever is wrong in the second record.
fn first_record_answers(
    sound: &Call,
    first: &[Fault<Call>],
    second: &[Fault<Call>],
    run: fn(&Call) -> Result<u64, u8>,
) {
    for (number, make) in first {
        for (_, make_other) in second {
            let mut call = sound.clone();
            make(&mut call);
            make_other(&mut call);
            assert_eq!(run(&call), Err(*number));
        }
    }
}

/// 17 and 18 meet in no record of version 1: a record with the affine rule never gets 17.
#[test]
fn list_of_version_1_1_to_4_16_15_16_and_each_record_17_5_6_7_8_18() {
    let apart = [&APART[..], &[(17, 18)]].concat();
    let sound = listed_call(Version::One);
    for record in [first_record_faults(), second_record_faults::<19>()] {
        let faults = [LENT_FAULTS.to_vec(), head_faults(), record].concat();
        faults_answer_in_order(&sound, &faults, &apart, run_list_call);
    }
    first_record_answers(&sound, &first_record_faults(), &second_record_faults::<19>(), run_list_call);
}

/// In a record of version 2 they meet by the three zero bytes.
#[test]
fn list_of_version_2_1_to_4_16_15_16_and_each_record_17_5_6_7_8_18_19() {
    let apart = [&APART[..], &[(17, 18)]].concat();
    let sound = listed_call(Version::Two);
    let first = (zeros_faults::<7>(), first_record_faults(), neighbours_faults::<7>());
    let second = (zeros_faults::<23>(), second_record_faults::<23>(), neighbours_faults::<23>());
    for (zeros, record, neighbours) in [&first, &second] {
        let before = [LENT_FAULTS.to_vec(), head_faults()].concat();
        let faults = [&before[..], record, neighbours].concat();
        faults_answer_in_order(&sound, &faults, &apart, run_list_call);
        let others: Vec<Fault<Call>> = record.iter().copied().filter(|&(number, _)| number != 17).collect();
        let faults = [&before[..], zeros, &others, neighbours].concat();
        faults_answer_in_order(&sound, &faults, &APART, run_list_call);
    }
    let all = |(zeros, record, neighbours): (Vec<_>, Vec<_>, Vec<_>)| [zeros, record, neighbours].concat();
    first_record_answers(&sound, &all(first), &all(second), run_list_call);
}

#[test]
fn converting_up_16_15_16_each_record_17_5_6_7_8_18_then_14() {
    let apart = [&APART[..], &[(17, 18)]].concat();
    let sound = listed_call(Version::One);
    assert_eq!(run_convert(&sound), Ok(39));
    let short: Vec<Fault<Call>> = vec![SHORT_OUTPUT, (14, |call| call.output = 0)];
    for record in [first_record_faults(), second_record_faults::<19>()] {
        faults_answer_in_order(&sound, &[head_faults(), record, short.clone()].concat(), &apart, run_convert);
    }
    first_record_answers(&sound, &first_record_faults(), &second_record_faults::<19>(), run_convert);
}

/// Eight neighbours in the one record come after all faults of the other, and before a short output.
#[test]
fn converting_down_16_15_16_each_record_17_5_6_7_8_18_19_then_20_14() {
    let apart = [&APART[..], &[(17, 18)]].concat();
    let sound = listed_call(Version::Two);
    assert_eq!(run_convert(&sound), Ok(31));
    let first = (zeros_faults::<7>(), first_record_faults(), neighbours_faults::<7>());
    let second = (zeros_faults::<23>(), second_record_faults::<23>(), neighbours_faults::<23>());
    let eights: [Fault<Call>; 2] = [(20, |call| call.list[23 + 12] = 8), (20, |call| call.list[7 + 12] = 8)];
    for ((zeros, record, neighbours), eight) in [&first, &second].into_iter().zip(eights) {
        let after = [&neighbours[..], &[eight, SHORT_OUTPUT, (14, |call| call.output = 0)]].concat();
        let faults = [&head_faults()[..], record, &after].concat();
        faults_answer_in_order(&sound, &faults, &apart, run_convert);
        let others: Vec<Fault<Call>> = record.iter().copied().filter(|&(number, _)| number != 17).collect();
        let faults = [&head_faults()[..], zeros, &others, &after].concat();
        faults_answer_in_order(&sound, &faults, &APART, run_convert);
    }
    let all = |(zeros, record, neighbours): (Vec<_>, Vec<_>, Vec<_>)| [zeros, record, neighbours].concat();
    first_record_answers(&sound, &all(first), &all(second), run_convert);
}

/// Every number of neighbours, with the three zero bytes kept and with each of them set.
#[test]
fn the_last_bytes_of_a_record_of_version_2() {
    for neighbours in 0..=255 {
        let mut call = listed_call(Version::Two);
        call.list[23 + 12] = neighbours;
        let (run, converted) = match neighbours {
            4 => (Ok(2), Ok(31)),
            8 => (Ok(2), Err(20)),
            _ => (Err(19), Err(19)),
        };
        assert_eq!((run_list_call(&call), run_convert(&call)), (run, converted), "{neighbours} neighbours");
        for place in 13..16 {
            let mut call = call.clone();
            call.list[23 + place] = neighbours.max(1);
            assert_eq!((run_list_call(&call), run_convert(&call)), (Err(17), Err(17)), "byte {place}");
        }
    }
}

/// A rule above 2 gets 17 whatever the byte after it is, and so does that byte where it is set and the rule is 0 or 1.
/// Where the rule is 2 it is N: 18 for 0 and above 16, and never 17.
#[test]
fn the_byte_after_the_rule() {
    let mut call = sound_call();
    call.list = list_bytes(&[Pass { rule: Rule::Limited { k: 0 }, ..SOUND }]);
    for (rule, byte) in (0..=255).flat_map(|rule| [0, 1, 2, 15, 16, 17, 254, 255].map(|byte| (rule, byte))) {
        (call.list[7 + 2], call.list[7 + 3]) = (rule, byte);
        let expected = match (rule, byte) {
            (0 | 1, 0) | (2, 1..=16) => Ok(1),
            (2, _) => Err(18),
            _ => Err(17),
        };
        assert_eq!(run_list_call(&call), expected, "rule {rule}, byte {byte}");
    }
    // The second number is set: low and high, or smin and smax, but nothing of the limited rule.
    call.list[7 + 10] = 1;
    for (rule, byte, expected) in [(0, 0, Ok(1)), (1, 0, Err(17)), (2, 1, Ok(1)), (2, 0, Err(18)), (3, 1, Err(17))] {
        (call.list[7 + 2], call.list[7 + 3]) = (rule, byte);
        assert_eq!(run_list_call(&call), expected, "rule {rule}, byte {byte}");
    }
}

#[test]
fn a_list_of_no_passes() {
    for version in Version::BOTH {
        let mut call = sound_call();
        (call.list, call.output) = (list_bytes_of(version, &[]), 7);
        assert_eq!((run_list_call(&call), run_convert(&call)), (Ok(0), Ok(7)));
        (call.queue, call.output) = (3, 6);
        assert_eq!((run_list_call(&call), run_convert(&call)), (Err(4), Err(14)));
    }
}

#[test]
fn lists_have_at_most_320_passes() {
    let still = Pass { a: 7, b: 7, ..SOUND };
    for (length, accepted) in [(319, true), (320, true), (321, false), (1_024, false), (65_535, false)] {
        let passes = vec![still; length];
        let expected = |answer| if accepted { Ok(answer) } else { Err(16) };
        for version in Version::BOTH {
            let mut call = sound_call();
            (call.list, call.output) = (list_bytes_of(version, &passes), 5_127);
            assert_eq!(run_list_call(&call), expected(0));
            assert_eq!(run_convert(&call), expected(version.other().length(length) as u64));
        }
        assert_eq!(run_passes(&passes, &mut bytes(4), 4, 4, 2, 2).map(Counts::together), expected(0));
    }
}

/// 1 to 4, 16, then each pass 5, 6, 7, 8, 18, 19.
#[test]
fn passes_in_memory() {
    let run = |passes: &[Pass], plane: usize, marks: usize, w: usize| {
        let mut lent = bytes(plane);
        let answer = run_passes(passes, &mut lent, marks, 4, w, 2).map(Counts::together);
        assert!(answer.is_ok() || lent == bytes(plane));
        answer
    };
    let wrong = [
        (5, Pass { a: 9, b: 8, area: 0, ..SOUND }),
        (5, Pass { a: 9, b: 8, rule: WRONG_SLOPES[0], ..SOUND }),
        (6, Pass { area: 0, rule: Rule::Plain { low: 1, high: 0 }, ..SOUND }),
        (6, Pass { area: 1_048_577, rule: Rule::Limited { k: 1_001 }, ..SOUND }),
        (6, Pass { area: 0, rule: WRONG_SLOPES[3], ..SOUND }),
        (7, Pass { rule: Rule::Plain { low: 81, high: 80 }, ..SOUND }),
        (8, Pass { rule: Rule::Limited { k: 1_001 }, ..SOUND }),
        (18, Pass { rule: WRONG_SLOPES[2], ..SOUND }),
        (18, Pass { rule: WRONG_SLOPES[5], ..SOUND }),
        (6, Pass { area: 0, neighbours: 3, ..SOUND }),
        (7, Pass { rule: Rule::Plain { low: 81, high: 80 }, neighbours: 5, ..SOUND }),
        (8, Pass { rule: Rule::Limited { k: 1_001 }, neighbours: 7, ..SOUND }),
        (18, Pass { rule: WRONG_SLOPES[1], neighbours: 9, ..SOUND }),
        (19, Pass { neighbours: 255, ..SOUND }),
    ];
    assert_eq!(run(&[SOUND], 4, 4, 2), Ok(1));
    assert_eq!(run(&[SOUND, Pass { neighbours: 8, ..SOUND }], 4, 4, 2), Ok(2));
    assert_eq!(run(&[], 4, 4, 2), Ok(0));
    assert_eq!(run(&[], 4, 3, 2), Err(4));
    assert_eq!(run(&[], 5, 3, 2), Err(3));
    assert_eq!(run(&[], 5, 3, 0), Err(1));
    for (number, pass) in wrong {
        assert_eq!(run(&[pass], 4, 4, 2), Err(number));
        assert_eq!(run(&[SOUND, pass], 4, 4, 2), Err(number));
        assert_eq!(run(&[SOUND, pass], 4, 3, 2), Err(4));
        for (_, later) in wrong {
            assert_eq!(run(&[SOUND, pass, later], 4, 4, 2), Err(number));
        }
        assert_eq!(run(&[pass; 321], 4, 4, 2), Err(16));
    }
}

#[test]
fn writing_1_2_3_14() {
    let mut sound = sound_call();
    sound.output = 23;
    let faults = [
        NO_WIDTH,
        NO_HEIGHT,
        GREAT_WIDTH,
        GREAT_HEIGHT,
        HUGE_SIDES,
        MANY_PIXELS,
        LONG_FRAME,
        SHORT_FRAME,
        SHORT_OUTPUT,
    ];
    assert_eq!(run_write(&sound), Ok(23));
    faults_answer_in_order(&sound, &faults, &[], run_write);
}

#[test]
fn the_largest_sizes_are_accepted() {
    for (w, h) in [(4_096, 256), (256, 4_096), (1_024, 1_024)] {
        let frame = vec![9; 3 * w * h];
        let mut plane = vec![0; w * h];
        assert_eq!(intensity(&frame, w, h, &mut plane), Ok(()));
        assert!(plane.iter().all(|&v| v == 9));
        let affine = Pass { area: 1_048_576, rule: Rule::Affine { segments: 1, smin: 0, smax: 10_000 }, ..SOUND };
        let mut stretched = plane.clone();
        assert_eq!(pass(&mut stretched, w * h, w * h, w, h, &affine), Ok(Counts { retoned: 1, kept: 0 }));
        assert!(stretched.iter().all(|&v| v == 255));
        let greatest = Pass { area: 1_048_576, rule: Rule::Limited { k: 1_000 }, ..SOUND };
        assert_eq!(pass(&mut plane, w * h, w * h, w, h, &greatest), Ok(Counts { retoned: 1, kept: 0 }));
        assert!(plane.iter().all(|&v| v == 255));
    }
    let mut plane = [1, 2];
    assert_eq!(pass(&mut plane, 9, 2, 2, 1, &Pass { area: 1_048_576, ..SOUND }), Ok(Counts::default()));
    let greatest = Pass { rule: Rule::Plain { low: 25_500, high: 25_500 }, ..SOUND };
    assert_eq!(pass(&mut plane, 9, 2, 2, 1, &greatest), Ok(Counts { retoned: 0, kept: 1 }));
}

/// Every fault of the affine rule's numbers, and the numbers at their limits.
#[test]
fn numbers_of_the_affine_rule() {
    let run = |rule: Rule| pass(&mut [3, 9], 2, 2, 2, 1, &Pass { rule, ..SOUND }).map(Counts::together);
    for rule in WRONG_SLOPES {
        assert_eq!(run(rule), Err(18), "{rule:?}");
    }
    for segments in 1..=16 {
        for (smin, smax) in [(0, 0), (0, 10_000), (300, 300), (10_000, 10_000)] {
            assert_eq!(run(Rule::Affine { segments, smin, smax }), Ok(1));
        }
    }
}

/// 4 and 8 are accepted, and no other number.
#[test]
fn numbers_of_neighbours() {
    for neighbours in 0..=255 {
        let expected = if neighbours == 4 || neighbours == 8 { Ok(1) } else { Err(19) };
        let mut call = sound_call();
        (call.pass.neighbours, call.settings.neighbours, call.settings.last_level) = (neighbours, neighbours, 0);
        assert_eq!(run_pass(&call), expected);
        assert_eq!(run_enhance(&call), expected);
        let passes = [Pass { neighbours, ..SOUND }];
        assert_eq!(run_passes(&passes, &mut bytes(4), 4, 4, 2, 2).map(Counts::together), expected);
    }
}

/// Bytes beyond the needed ones stay.
#[test]
fn longer_outputs_keep_their_ends() {
    let mut output = [7; 9];
    assert_eq!(convert(b"MLP\x01\0\0\0", &mut output), Ok(7));
    assert_eq!(&output, b"MLP\x02\0\0\0\x07\x07");
    let mut output = [7; 5];
    recolour(&[1, 2, 3], 1, 1, &[2], &mut output).expect("accepted");
    assert_eq!(output, [1, 2, 3, 7, 7]);
    let mut output = [7; 16];
    assert_eq!(write(&[1, 2, 3], 1, 1, &mut output), Ok(14));
    assert_eq!(&output, b"P6\n1 1\n255\n\x01\x02\x03\x07\x07");
    let (mut plane, mut output) = ([0], [7; 4]);
    enhance(&[1, 2, 3], 1, 1, &Settings::HOUSE, &mut plane, 1, 1, &mut output).expect("accepted");
    assert_eq!((plane, output), ([2], [1, 2, 3, 7]));
}

#[test]
fn headers() {
    let at = |bytes: &[u8]| read(bytes, GREATEST_PIXELS);
    let one = |offset: usize| Ok(Frame { w: 1, h: 1, offset });
    assert_eq!(at(b"P6\n1 1\n255\nRGB"), one(11));
    assert_eq!(at(b"P6 \t\n\x0b\x0c\r1\r000001\x0c0255\x0bRGB"), one(22));
    assert_eq!(at(b"P6 01 1 255 RGB"), one(12));
    assert_eq!(at(b"P6 1 1 255\r\nRGB"), Err(13));
    assert_eq!(at(b"P6 1 1 255\r\nGB"), one(11));
    let malformed: &[&[u8]] = &[
        b"",
        b"P",
        b"P6",
        b"P5 1 1 255 RGB",
        b"p6 1 1 255 RGB",
        b" P6 1 1 255 RGB",
        b"P61 1 255 RGB",
        b"P6x1 1 255 RGB",
        b"P6 ",
        b"P6 1",
        b"P6 1 ",
        b"P6 1 1",
        b"P6 1 1 ",
        b"P6 1 1 255",
        b"P6 1 1 255R",
        b"P6 1 1 255#",
        b"P6 -1 1 255 RGB",
        b"P6 +1 1 255 RGB",
        b"P6 1,1 255 RGB",
        b"P6 1 1 0000255 RGB",
        b"P6 1000000 1 255 RGB",
        b"P6 0000001 1 255 RGB",
        b"P6 1 x 255 RGB",
        b"P6 1 1 \x08255 RGB",
        b"P6 1 1\x0e255 RGB",
        b"P6 1 1\x00255 RGB",
        b"P6 1 1:255 RGB",
        b"P6 1 1/255 RGB",
    ];
    for bytes in malformed {
        assert_eq!(at(bytes), Err(10), "{}", String::from_utf8_lossy(bytes));
    }
}

/// A comment counts as one whitespace byte, between P6 and the third number.
#[test]
fn comments() {
    let at = |bytes: &[u8]| read(bytes, GREATEST_PIXELS);
    let accepted: &[(&[u8], [usize; 3])] = &[
        (b"P6 # a\n1 1 255 RGB", [1, 1, 15]),
        (b"P6#\n1 1 255 RGB", [1, 1, 12]),
        (b"P6 3# x\n2 255 012345678901234567", [3, 2, 14]),
        (b"P6 1 2#\r255 RGBRGB", [1, 2, 12]),
        (b"P6#1\n#2\r\n#\n\r1#\n1 # 255\n255 RGB", [1, 1, 27]),
        (b"P6 #\x00\t\x0b\x0c #P6 1 1 255 \xff\n1 1 255 RGB", [1, 1, 31]),
        (b"P6 000001#\n000002#\n000255 RGBRGB", [1, 2, 26]),
        // After the header there is raster.
        (b"P6 1 1 255 #\n#", [1, 1, 11]),
    ];
    for &(bytes, [w, h, offset]) in accepted {
        assert_eq!(at(bytes), Ok(Frame { w, h, offset }), "{}", String::from_utf8_lossy(bytes));
    }
    let refused: &[(&[u8], u8)] = &[
        // One that never ends, or has no number behind it.
        (b"P6#", 10),
        (b"P6 # 1 1 255 RGB", 10),
        (b"P6 1#1 255 RGB", 10),
        (b"P6 1 1 #", 10),
        (b"P6 1 1 #\x0b\x0c\t 255 RGB", 10),
        (b"P6 #\n", 10),
        (b"P6 1 1#\n", 10),
        (b"P6 #\nx1 1 255 RGB", 10),
        (b"P6 #\n0000001 1 255 RGB", 10),
        // After the third number, before P6 and in it.
        (b"P6 1 1 255#", 10),
        (b"P6 1 1 255# RGB", 10),
        (b"P6 1 1 255#\nRGB", 10),
        (b"#\nP6 1 1 255 RGB", 10),
        (b"P#\n6 1 1 255 RGB", 10),
        // It ends at the first line end, and stands between two numbers.
        (b"P6 #\r2 2\n1 1 255 RGB", 11),
        (b"P6 12#x\n3456 255 RGB", 12),
        (b"P6 3# x\n2 24 ", 11),
        // The numbers behind comments are judged as ever.
        (b"P6#\n0#\n1#\n15 ", 1),
        (b"P6#\n4096#\n257#\n15 ", 2),
        (b"P6#\n1#\n1#\n15 RG", 11),
        (b"P6#\n1#\n1#\n255 RG", 12),
        (b"P6#\n1#\n1#\n255 RGBB", 13),
        (b"P6 1 1 255\n#x\nRGB", 13),
    ];
    for (bytes, number) in refused {
        assert_eq!(at(bytes), Err(*number), "{}", String::from_utf8_lossy(bytes));
    }
}

/// With a space in place of each comment a file reads alike, whatever is wrong with it.
#[test]
fn a_comment_counts_as_one_whitespace_byte() {
    let mut random = Random::new(7);
    let mut accepted = 0;
    for _ in 0..20_000 {
        let (mut commented, mut plain) = (b"P6".to_vec(), b"P6".to_vec());
        for usual in ["2", "1", "255"] {
            for _ in 0..random.one_of(&[0, 1, 1, 1, 2, 2, 3, 3, 4]) {
                let length = random.below(6);
                let comment = [random.open_comment(length), vec![random.one_of(b"\n\r")]].concat();
                let white = [random.one_of(b" \t\n\x0b\x0c\r")];
                let is_comment = random.below(2) == 0;
                commented.extend(if is_comment { &comment[..] } else { &white });
                plain.extend(if is_comment { b" " } else { &white });
            }
            let number =
                random.one_of(&[usual, usual, usual, usual, usual, "0", "256", "4097", "000001", "0000001", "x"]);
            commented.extend(number.bytes());
            plain.extend(number.bytes());
        }
        let end = random.one_of(&[&b" #aaaaa"[..], b"\n#\n#\n#\n", b"\rRGBRG", b" RGBRGBR", b"", b"x"]);
        commented.extend(end);
        plain.extend(end);
        let longer = commented.len() - plain.len();
        let expected = read(&plain, GREATEST_PIXELS).map(|frame| Frame { offset: frame.offset + longer, ..frame });
        assert_eq!(read(&commented, GREATEST_PIXELS), expected, "{}", commented.escape_ascii());
        accepted += usize::from(expected.is_ok() && longer > 0);
    }
    assert!(accepted > 500, "{accepted}");
}

/// 10, 1, 2, 11, 12, 13: each pair of faults that can meet.
#[test]
fn reading_10_1_2_11_12_13() {
    let cases: &[(&[u8], u8)] = &[
        (b"P5 1 1 255 RGB", 10),
        (b"P6 0 1 255", 10),
        (b"P6 4096 257 15", 10),
        (b"P6 1 1 15", 10),
        (b"P6 0 1 255 ", 1),
        (b"P6 1 0 255 ", 1),
        (b"P6 4097 1 255 ", 1),
        (b"P6 1 4097 255 ", 1),
        (b"P6 999999 999999 255 ", 1),
        (b"P6 0 1 15 ", 1),
        (b"P6 0 1 255 x", 1),
        (b"P6 4096 257 255 ", 2),
        (b"P6 4096 4096 254 ", 2),
        (b"P6 1 1 15 ", 11),
        (b"P6 1 1 0 RG", 11),
        (b"P6 1 1 256 RGBB", 11),
        (b"P6 1 1 999999 RGB", 11),
        (b"P6 1 1 255 ", 12),
        (b"P6 1 1 255 RG", 12),
        (b"P6 4096 256 255 RG", 12),
        (b"P6 1 1 255 RGBR", 13),
    ];
    for (bytes, number) in cases {
        assert_eq!(read(bytes, GREATEST_PIXELS), Err(*number), "{}", String::from_utf8_lossy(bytes));
    }
    assert_eq!(read(b"P6 129 128 254 ", 16_384), Err(2));
    assert_eq!(read(b"P6 128 128 254 ", 16_384), Err(11));
    assert_eq!(read(b"P6 1 1 255 RGB", 0), Err(2));
}

#[test]
fn the_program_refuses() {
    let cases: &[(&[u8], &[u8])] = &[
        (b"", b"refused 10\n"),
        (b"P6 0 1 255 ", b"refused 1\n"),
        (b"P6 129 128 254 ", b"refused 2\n"),
        (b"P6 1 1 254 ", b"refused 11\n"),
        (b"P6 1 1 255 ", b"refused 12\n"),
        (b"P6 1 1 255 RGBB", b"refused 13\n"),
    ];
    for (input, output) in cases {
        assert_eq!(program(input), *output);
    }
}

#[test]
fn long_input_of_the_program_comes_first() {
    assert_eq!(program(&vec![b'x'; 65_536]), b"refused 10\n");
    assert_eq!(program(&vec![b'x'; 65_537]), b"refused 13\n");
    let mut longest = b"P6 128".to_vec();
    longest.resize(65_536 - 3 * 16_384 - 8, b' ');
    longest.extend(b"128 255 ");
    longest.resize(65_536, 9);
    assert_eq!(program(&longest).len(), 15 + 3 * 16_384);
    longest.insert(6, b' ');
    assert_eq!(program(&longest), b"refused 13\n");
}

#[test]
fn a_comment_may_fill_the_input_of_the_program() {
    let mut longest = b"P6 128#".to_vec();
    longest.resize(65_536 - 3 * 16_384 - 9, b'1');
    longest.extend(b"\n128 255 ");
    longest.resize(65_536, 9);
    assert_eq!(program(&longest).len(), 15 + 3 * 16_384);
    longest.insert(7, b'1');
    assert_eq!(program(&longest), b"refused 13\n");
    let mut unended = b"P6 #".to_vec();
    unended.resize(65_536, b' ');
    assert_eq!(program(&unended), b"refused 10\n");
    unended.push(b'\n');
    assert_eq!(program(&unended), b"refused 13\n");
}

/// The small inputs of the table of refusals, in its order.
#[test]
fn the_table() {
    let mut one = [0];
    assert_eq!(intensity(&[], 0, 1, &mut []), Err(1));
    assert_eq!(intensity(&[], 4_096, 257, &mut []), Err(2));
    assert_eq!(pass(&mut [0; 3], 3, 3, 2, 1, &SOUND), Err(3));
    assert_eq!(pass(&mut [0; 4], 4, 3, 2, 2, &SOUND), Err(4));
    assert_eq!(pass(&mut one, 1, 1, 1, 1, &Pass { a: 9, b: 8, ..SOUND }), Err(5));
    assert_eq!(pass(&mut one, 1, 1, 1, 1, &Pass { area: 0, ..SOUND }), Err(6));
    assert_eq!(pass(&mut one, 1, 1, 1, 1, &Pass { rule: Rule::Plain { low: 81, high: 80 }, ..SOUND }), Err(7));
    assert_eq!(pass(&mut one, 1, 1, 1, 1, &Pass { rule: Rule::Limited { k: 1_001 }, ..SOUND }), Err(8));
    let eight = Settings { last_level: 8, ..Settings::HOUSE };
    assert_eq!(enhance(&[0; 3], 1, 1, &eight, &mut one, 1, 1, &mut [0; 3]), Err(9));
    assert_eq!(read(b"P5 1 1 255", GREATEST_PIXELS), Err(10));
    assert_eq!(read(b"P6 1 1 15 ", GREATEST_PIXELS), Err(11));
    assert_eq!(read(b"P6 1 1 255 ..", GREATEST_PIXELS), Err(12));
    assert_eq!(read(b"P6 1 1 255 ....", GREATEST_PIXELS), Err(13));
    assert_eq!(recolour(&[0; 3], 1, 1, &[0], &mut [0; 2]), Err(14));
    assert_eq!(run_list(b"MLQ\x01\0\0\0", &mut one, 1, 1, 1, 1), Err(15));
    assert_eq!(run_list(b"MLP", &mut one, 1, 1, 1, 1), Err(16));
    let mut list = list_bytes(&[SOUND]);
    list[9] = 3;
    assert_eq!(run_list(&list, &mut one, 1, 1, 1, 1), Err(17));
    assert_eq!(pass(&mut one, 1, 1, 1, 1, &Pass { rule: WRONG_SLOPES[0], ..SOUND }), Err(18));
    assert_eq!(pass(&mut one, 1, 1, 1, 1, &Pass { neighbours: 5, ..SOUND }), Err(19));
    let eight = list_bytes_of(Version::Two, &[Pass { neighbours: 8, ..SOUND }]);
    assert_eq!(convert(&eight, &mut [0; 19]), Err(20));
}
