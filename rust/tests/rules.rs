//! The tone rules: the affine one by examples, all of them in one list, and their numbers in lists and C calls.

use mlhe::{ffi, Counts, Frame, Memory, Pass, PassList, Plane, Refusal, Rule, Settings};

const ROW: [u8; 4] = [10, 10, 20, 30];
const RETONED: Counts = Counts { retoned: 1, kept: 0 };
const KEPT: Counts = Counts { retoned: 0, kept: 1 };
const PLAIN: Rule = Rule::Plain { low: 0, high: 25_500 };
const LIMITED: Rule = Rule::Limited { k: 10 };
const AFFINE: Rule = affine(2, 100, 10_000);

const fn affine(segments: u8, smin: u16, smax: u16) -> Rule {
    Rule::Affine { segments, smin, smax }
}

/// What passes with area 1 leave of a row, and the counts of each.
fn passed(row: &[u8], passes: &[(u8, u8, Rule)]) -> (Vec<u8>, Vec<Counts>) {
    let mut plane = Plane::new(row.len(), 1, row.to_vec()).unwrap();
    let mut pass = |&(a, b, rule)| plane.pass(&Pass::new(a, b, 1, rule), &mut Memory::new()).unwrap();
    let counts = passes.iter().map(&mut pass).collect();
    (plane.into_values(), counts)
}

#[test]
fn affine_tones() {
    let left = |row: &[u8], rule| passed(row, &[(0, 255, rule)]);
    assert_eq!(left(&ROW, AFFINE), (vec![128, 128, 191, 255], vec![RETONED]));
    assert_eq!(left(&ROW, affine(2, 100, 300)), (ROW.to_vec(), vec![KEPT]));
    // One line; and lines that are too steep, scaled to fit.
    assert_eq!(left(&ROW, affine(1, 0, 10_000)), (vec![85, 85, 170, 255], vec![RETONED]));
    assert_eq!(left(&ROW, affine(2, 10_000, 10_000)), (vec![85, 85, 170, 255], vec![RETONED]));
    // A component of one value is retoned where one line reaches the upper end, and an interval of one value kept.
    assert_eq!(left(&[7, 7], affine(1, 0, 10_000)), (vec![255, 255], vec![RETONED]));
    assert_eq!(left(&[7, 7], affine(2, 0, 10_000)), (vec![7, 7], vec![KEPT]));
    assert_eq!(passed(&[7, 7], &[(7, 7, affine(1, 0, 10_000))]), (vec![7, 7], vec![KEPT]));
}

/// A frame of one value is retoned or kept at every level, as the slopes allow.
#[test]
fn affine_levels() {
    let frame = Frame::new(8, 8, vec![100; 192]).unwrap();
    let enhanced = |rule| frame.enhanced(&Settings::house().with_rule(rule), &mut Memory::new()).unwrap();
    assert_eq!(enhanced(affine(1, 0, 10_000)).counts, Counts { retoned: 8, kept: 0 });
    assert_eq!(enhanced(affine(1, 0, 10_000)).plane.values(), [255; 64]);
    assert_eq!(enhanced(affine(1, 0, 100)).counts, Counts { retoned: 0, kept: 8 });
    assert_eq!(enhanced(affine(1, 0, 100)).plane.values(), [100; 64]);
}

#[test]
fn a_list_of_all_rules() {
    let passes = [(0, 255, AFFINE), (128, 255, affine(16, 0, 300)), (0, 200, PLAIN), (100, 200, LIMITED)];
    assert_eq!(passed(&ROW, &passes), (vec![134, 134, 200, 255], vec![RETONED, KEPT, RETONED, RETONED]));
    let list = PassList::new(&passes.map(|(a, b, rule)| Pass::new(a, b, 1, rule))).unwrap();
    let records = [
        [0, 255, 2, 2, 1, 0, 0, 0, 100, 0, 0x10, 0x27],
        [128, 255, 2, 16, 1, 0, 0, 0, 0, 0, 0x2C, 1],
        [0, 200, 0, 0, 1, 0, 0, 0, 0, 0, 0x9C, 0x63],
        [100, 200, 1, 0, 1, 0, 0, 0, 10, 0, 0, 0],
    ];
    let bytes = [&b"MLP\x01\0\x04\0"[..], &records.concat()].concat();
    assert_eq!(list.bytes(), bytes);
    assert_eq!(PassList::from_bytes(&bytes).unwrap().passes(), list.passes());
    let mut plane = Plane::new(4, 1, ROW.to_vec()).unwrap();
    assert_eq!(plane.run(&list, &mut Memory::new()), Counts { retoned: 3, kept: 1 });
    assert_eq!(plane.values(), [134, 134, 200, 255]);
}

/// 17 of a record comes before its other numbers, and 18 after them.
#[test]
fn records_of_lists() {
    let answer = |[a, b, area]: [u8; 3], [code, segments]: [u8; 2], [first, second]: [u16; 2]| {
        let [f, s] = [first.to_le_bytes(), second.to_le_bytes()];
        let record = [a, b, code, segments, area, 0, 0, 0, f[0], f[1], s[0], s[1]];
        PassList::from_bytes(&[&b"MLP\x01\0\x01\0"[..], &record].concat()).map(|_| ())
    };
    let sound = [0, 255, 1];
    for [code, segments] in [[0, 1], [1, 1], [3, 0], [3, 1], [255, 0], [0, 255]] {
        assert_eq!(answer([9, 8, 0], [code, segments], [0, 0]), Err(Refusal::Rule), "{code} {segments}");
    }
    assert_eq!(answer([9, 8, 0], [1, 0], [0, 1]), Err(Refusal::Rule));
    for (segments, slopes) in [(0, [0, 0]), (17, [0, 0]), (255, [0, 0]), (1, [5, 4]), (16, [0, 10_001])] {
        assert_eq!(answer(sound, [2, segments], slopes), Err(Refusal::Slopes), "{segments} {slopes:?}");
        assert_eq!(answer([9, 8, 0], [2, segments], slopes), Err(Refusal::Interval));
        assert_eq!(answer([0, 255, 0], [2, segments], slopes), Err(Refusal::Area));
    }
    for (segments, slopes) in [(1, [0, 0]), (16, [10_000, 10_000])] {
        assert_eq!(answer(sound, [2, segments], slopes), Ok(()));
    }
}

/// What `mlhe_pass` answers, on the row 10 20 with so many counts. A refusal has changed nothing.
fn c_pass([a, b, area]: [u8; 3], rule: &[u16], lent: usize) -> i64 {
    let (mut plane, mut marks, mut queue, mut counts) = ([10, 20], [3; 2], [4; 2], [7; 2]);
    let (p, m, q, c) = (plane.as_mut_ptr(), marks.as_mut_ptr(), queue.as_mut_ptr(), counts.as_mut_ptr());
    let (r, length) = (rule.as_ptr(), rule.len());
    // SAFETY: each pointer goes with at most as many elements as there are.
    let answer = unsafe { ffi::mlhe_pass(p, 2, m, 2, q, 2, 2, 1, a, b, area.into(), r, length, c, lent) };
    assert!(answer == 0 || (plane, marks, queue, counts) == ([10, 20], [3; 2], [4; 2], [7; 2]), "{rule:?}");
    answer
}

/// The same of `mlhe_enhance`.
fn c_enhance([last, area]: [u8; 2], rule: &[u16], lent: usize) -> i64 {
    let frame = [10, 10, 10, 20, 20, 20];
    let (mut plane, mut marks, mut queue, mut output, mut counts) = ([5, 6], [3; 2], [4; 2], [9; 6], [7; 2]);
    let (p, m, q, c) = (plane.as_mut_ptr(), marks.as_mut_ptr(), queue.as_mut_ptr(), counts.as_mut_ptr());
    let (f, o, r, length) = (frame.as_ptr(), output.as_mut_ptr(), rule.as_ptr(), rule.len());
    let area = area.into();
    // SAFETY: each pointer goes with at most as many elements as there are.
    let answer = unsafe { ffi::mlhe_enhance(f, 6, 2, 1, last, area, r, length, p, 2, m, 2, q, 2, o, 6, c, lent) };
    let as_before = (plane, marks, queue, output, counts) == ([5, 6], [3; 2], [4; 2], [9; 6], [7; 2]);
    assert!(answer == 0 || as_before, "{rule:?}");
    answer
}

/// 17 comes before the other numbers: no such code, a number set that has to be 0, neither four numbers nor five.
#[test]
fn numbers_of_no_rule() {
    let wrong: [&[u16]; 17] = [
        &[],
        &[0],
        &[0, 0, 25_500],
        &[2, 0, 10_000],
        &[0, 0, 25_500, 0, 4, 0],
        &[2, 0, 10_000, 1, 8, 0],
        &[3, 0, 0, 0, 4],
        &[0, 0, 25_500, 1, 8],
        &[3, 0, 0, 0],
        &[255, 0, 0, 0],
        &[256, 0, 0, 0],
        &[258, 0, 0, 1],
        &[65_535, 0, 0, 0],
        &[0, 0, 25_500, 1],
        &[0, 0, 25_500, 256],
        &[1, 0, 0, 1],
        &[1, 0, 1, 0],
    ];
    for rule in wrong {
        assert_eq!(c_pass([9, 8, 0], rule, 0), -17, "{rule:?}");
        assert_eq!(c_enhance([8, 0], rule, 0), -17, "{rule:?}");
    }
}

/// 18 comes after the other numbers, and before 14 for counts that are too short.
#[test]
fn segments_and_slopes() {
    let wrong = [[2, 0, 0, 0], [2, 0, 0, 17], [2, 0, 0, 256], [2, 0, 0, 257], [2, 5, 4, 1], [2, 0, 10_001, 16]];
    for rule in wrong {
        assert_eq!([c_pass([9, 8, 0], &rule, 0), c_pass([0, 255, 0], &rule, 0)], [-5, -6], "{rule:?}");
        assert_eq!([c_enhance([8, 0], &rule, 0), c_enhance([7, 0], &rule, 0)], [-9, -6], "{rule:?}");
        for lent in 0..=2 {
            assert_eq!([c_pass([0, 255, 1], &rule, lent), c_enhance([7, 1], &rule, lent)], [-18; 2], "{rule:?}");
        }
    }
    for rule in [[2, 0, 0, 1], [2, 10_000, 10_000, 16]] {
        for (lent, expected) in [(0, -14), (1, -14), (2, 0)] {
            assert_eq!([c_pass([0, 255, 1], &rule, lent), c_enhance([7, 1], &rule, lent)], [expected; 2], "{rule:?}");
        }
    }
}
