//! Cases of `run_list` with lists of version 2, and odd lists of both versions, which `convert` is given too.

use crate::affine::affine;
use crate::chance::{random_any, random_wires};
use crate::eight::PICTURES;
use crate::faults::{faulty_before, faulty_last, faulty_records, memory_test, plane_test, size_tests, Test};
use crate::list::{random_lists, EXAMPLE, LENGTHS, PARTS, STILL};
use crate::neighbours::CORNERS;
use crate::passes::passes;
use crate::slopes::{form_test, other_rules_tests, record_slopes_test, record_tests};
use crate::sound::sound;
use mlhe_reference::cases::{answers, encode, Case, Kind};
use mlhe_reference::pictures::drawn;
use mlhe_reference::random::Random;
use mlhe_reference::{level_by_level, list_bytes_of, Pass, Rule, Settings, Version};

/// The places of the first two records of a list of version 2.
pub const FIRST: usize = 7;
pub const SECOND: usize = 23;

/// Example E as a pass by the affine rule.
pub const BENT: Pass = Pass { rule: Rule::Affine { segments: 2, smin: 100, smax: 10_000 }, ..EXAMPLE };

/// The pass with so many neighbours.
pub fn by(neighbours: u8, pass: Pass) -> Pass {
    Pass { neighbours, ..pass }
}

/// A sound call that runs these passes as a list of this version.
pub fn list_of(version: Version, w: usize, h: usize, passes: &[Pass], plane: &[u8]) -> Case {
    sound(Kind::List, w, h, list_bytes_of(version, passes), plane.to_vec())
}

/// The same of version 2.
fn list_2(w: usize, h: usize, passes: &[Pass], plane: &[u8]) -> Case {
    list_of(Version::Two, w, h, passes, plane)
}

pub fn cases() -> Vec<Case> {
    let mut cases = written();
    cases.extend(LENGTHS.map(many));
    cases.extend(pictured());
    cases.extend(mixed(&mut Random::new(130)));
    let over_corners = |bytes: Vec<u8>| sound(Kind::List, 2, 2, bytes, CORNERS.to_vec());
    cases.extend(set_bytes(Version::One, &[BENT, EXAMPLE], &[3, 8]).into_iter().map(over_corners));
    cases.extend(set_bytes(Version::Two, &[BENT, EXAMPLE], &[0, 3, 8, 255]).into_iter().map(over_corners));
    cases.extend(odd_lists(Version::Two).into_iter().map(over_corners));
    cases.extend(refused());
    cases
}

/// A list of many passes, of which the last one tells.
fn many(length: usize) -> Case {
    list_2(2, 2, &[vec![STILL; length - 1], vec![by(8, EXAMPLE)]].concat(), &CORNERS)
}

/// Example Q, example J with eight, no passes, and an enhancement.
fn written() -> Vec<Case> {
    let (w, crossing) = drawn(PICTURES[14]);
    let settings = Settings { last_level: 7, area: 2, rule: EXAMPLE.rule, neighbours: 8 };
    vec![
        list_2(5, 1, &[EXAMPLE], &PARTS),
        list_2(5, 1, &[by(8, EXAMPLE)], &PARTS),
        list_2(5, 1, &[], &PARTS),
        list_2(2, 2, &[EXAMPLE], &CORNERS),
        list_2(2, 2, &[by(8, EXAMPLE)], &CORNERS),
        list_2(2, 2, &[by(8, BENT), EXAMPLE], &CORNERS),
        list_2(2, 2, &[EXAMPLE, by(8, BENT)], &CORNERS),
        list_2(w, w, &level_by_level(&settings), &crossing),
        // A list of no passes asks for marks and queue all the same.
        Case { marks: 4, ..list_2(5, 1, &[], &PARTS) },
    ]
}

/// Whether passes on a plane are answered otherwise than with four neighbours throughout.
fn tells(w: usize, h: usize, list: &[Pass], plane: &[u8]) -> bool {
    let four: Vec<Pass> = list.iter().map(|&pass| by(4, pass)).collect();
    let [these, four] = [list, &four].map(|list| answers(&encode(&passes(w, h, list, plane))));
    these != four
}

/// The dark pixels of each picture whose corners tell, with eight neighbours.
fn pictured() -> Vec<Case> {
    let mut cases = Vec::new();
    for picture in PICTURES {
        let (w, plane) = drawn(picture);
        if tells(w, plane.len() / w, &[by(8, EXAMPLE)], &plane) {
            cases.push(list_2(w, plane.len() / w, &[by(8, EXAMPLE)], &plane));
        }
    }
    cases
}

/// Random lists with four neighbours and with eight, on planes where eight tell.
fn mixed(random: &mut Random) -> Vec<Case> {
    let mut cases = Vec::new();
    while cases.len() < 16 {
        for (w, h, _, mut passes) in random_lists(random, 1, random_any) {
            let plane = random_wires(random, w, w * h);
            passes.iter_mut().for_each(|pass| pass.neighbours = random.one_of(&[4, 8]));
            if tells(w, h, &passes, &plane) {
                cases.push(list_2(w, h, &passes, &plane));
            }
        }
    }
    cases
}

/// The list with these bytes from this place on.
fn with(list: &[u8], at: usize, bytes: &[u8]) -> Vec<u8> {
    [&list[..at], bytes, &list[at + bytes.len()..]].concat()
}

/// The list of these passes with each byte of its head and of its last record set in turn to these values.
pub fn set_bytes(version: Version, passes: &[Pass], values: &[u8]) -> Vec<Vec<u8>> {
    let list = list_bytes_of(version, passes);
    let mut lists = Vec::new();
    for at in (0..FIRST).chain(version.length(passes.len() - 1)..list.len()) {
        lists.extend(values.iter().filter(|&&value| value != list[at]).map(|&value| with(&list, at, &[value])));
    }
    lists
}

/// Lists of this version with a length that is not theirs: one byte off, the other version's, or less than a head; and
/// such as have a wrong mark, version or count beside.
pub fn odd_lists(version: Version) -> Vec<Vec<u8>> {
    let mut lists = Vec::new();
    for passes in [&[][..], &[EXAMPLE], &[EXAMPLE, BENT]] {
        let (list, other) = (list_bytes_of(version, passes), list_bytes_of(version.other(), passes));
        lists.push(list[..list.len() - 1].to_vec());
        lists.push([&list[..], &[0]].concat());
        lists.push(with(&other, 3, &[list[3]]));
    }
    let two = list_bytes_of(version, &[EXAMPLE, BENT]);
    lists.extend([0, 4, 5].map(|length| two[..length].to_vec()));
    let longer = [&two[..], &[0]].concat();
    for (at, bytes) in [(2, &b"Q"[..]), (3, b"\x00"), (3, b"\x03"), (4, b"\x01"), (5, b"\x03"), (5, b"\x41\x01")] {
        lists.push(with(&longer, at, bytes));
    }
    // Three records of version 2 are as long as four of version 1.
    let (head, passes) = match version {
        Version::One => ([1, 0, 4], vec![EXAMPLE; 3]),
        Version::Two => ([2, 0, 3], vec![Pass { a: 8, b: 0, ..EXAMPLE }; 4]),
    };
    lists.push(with(&list_bytes_of(version.other(), &passes), 3, &head));
    lists
}

/// The head of a list of version 2 of two passes.
pub fn head_tests() -> Vec<Test> {
    vec![
        (16, vec![|case| case.bytes.truncate(6)]),
        (15, vec![|case| case.bytes[3] = 3]),
        (16, vec![|case| case.bytes.truncate(31)]),
    ]
}

/// 17 by the rule and 17 by the zero bytes, 5, 6, 7, 8, 18 and 19 in a record of version 2 with the affine rule, from
/// this place on.
pub fn record_2_tests<const AT: usize>() -> Vec<Test> {
    let mut tests = vec![form_test::<AT>(), zeros_test::<AT>()];
    tests.extend(record_tests::<AT>());
    tests.extend(other_rules_tests::<AT>());
    tests.extend([record_slopes_test::<AT>(), neighbours_test::<AT>()]);
    tests
}

fn zeros_test<const AT: usize>() -> Test {
    let faults: Vec<fn(&mut Case)> =
        vec![|case| case.bytes[AT + 13] = 1, |case| case.bytes[AT + 14] = 4, |case| case.bytes[AT + 15] = 8, |case| {
            (case.bytes[AT + 14], case.bytes[AT + 15]) = (255, 255)
        }];
    (17, faults)
}

pub fn neighbours_test<const AT: usize>() -> Test {
    let faults: Vec<fn(&mut Case)> = vec![
        |case| case.bytes[AT + 12] = 6,
        |case| case.bytes[AT + 12] = 0,
        |case| case.bytes[AT + 12] = 5,
        |case| case.bytes[AT + 12] = 12,
        |case| case.bytes[AT + 12] = 255,
    ];
    (19, faults)
}

fn refused() -> Vec<Case> {
    let sound = list_2(2, 2, &[by(8, BENT), Pass { rule: affine([16, 0, 0]), ..EXAMPLE }], &CORNERS);
    let (first, second) = (record_2_tests::<FIRST>(), record_2_tests::<SECOND>());
    let mut lent = size_tests();
    lent.extend([plane_test(), memory_test()]);
    lent.extend(head_tests());
    let mut cases = faulty_last(&sound, &lent, &zeros_test::<FIRST>());
    cases.extend(faulty_before(&sound, &zeros_test::<FIRST>(), &first[2..]));
    cases.extend(faulty_last(&sound, &[&lent, &first[..7]].concat(), &neighbours_test::<FIRST>()));
    cases.extend(faulty_last(&sound, &second[..7], &neighbours_test::<SECOND>()));
    cases.extend(faulty_records(&sound, &first, &[zeros_test::<SECOND>()]));
    cases.extend(faulty_records(&sound, &[zeros_test::<FIRST>()], &second));
    cases.extend(faulty_records(&sound, &[neighbours_test::<FIRST>()], &second));
    cases
}
