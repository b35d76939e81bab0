//! Lists of bytes of version 1 and of version 2: what they stand for, and the converter from the one to the other.

use mlhe_reference::random::Random;
use mlhe_reference::{convert, level_by_level, list_bytes_of, list_passes, run_list, run_passes};
use mlhe_reference::{Counts, Pass, Refusal, Rule, Settings, Version};

/// Example Q.
const Q: [u8; 19] =
    [0x4D, 0x4C, 0x50, 0x01, 0x00, 0x01, 0x00, 0x00, 0x7F, 0x00, 0x00, 0x01, 0x00, 0x00, 0x00, 0x00, 0x00, 0x9C, 0x63];

/// The same of version 2.
const Q_2: [u8; 23] = [
    0x4D, 0x4C, 0x50, 0x02, 0x00, 0x01, 0x00, 0x00, 0x7F, 0x00, 0x00, 0x01, 0x00, 0x00, 0x00, 0x00, 0x00, 0x9C, 0x63,
    0x04, 0x00, 0x00, 0x00,
];

/// The pass of example Q.
const DARK: Pass = Pass { a: 0, b: 127, area: 1, rule: Rule::Plain { low: 0, high: 25_500 }, neighbours: 4 };

/// The plane of w columns that a list leaves, and both counts.
fn listed(list: &[u8], plane: &[u8], w: usize) -> Result<(Vec<u8>, Counts), Refusal> {
    let n = plane.len();
    let mut last = plane.to_vec();
    run_list(list, &mut last, n, n, w, n / w).map(|counts| (last, counts))
}

/// The list in the other version.
fn converted(list: &[u8]) -> Result<Vec<u8>, Refusal> {
    let mut output = vec![170; 2 * list.len() + 9];
    let answer = convert(list, &mut output);
    let length = answer.unwrap_or(0);
    assert!(output[length..].iter().all(|&byte| byte == 170));
    output.truncate(length);
    answer.map(|_| output)
}

/// A random pass, which is sound.
fn random_pass(random: &mut Random, neighbours: &[u8]) -> Pass {
    let (x, y) = (random.byte(), random.byte());
    let rule = match random.below(3) {
        0 => Rule::Plain { low: random.below(300) as u32, high: random.between(300, 25_500) as u32 },
        1 => Rule::Limited { k: random.below(1_001) as u32 },
        _ => Rule::Affine {
            segments: random.between(1, 16) as u32,
            smin: random.below(400) as u32,
            smax: random.between(400, 10_000) as u32,
        },
    };
    let area = random.one_of(&[1, 1, 1, 2, 3, 255, 256, 65_536, 1_048_576]);
    Pass { a: x.min(y), b: x.max(y), area, rule, neighbours: random.one_of(neighbours) }
}

fn random_passes(random: &mut Random, neighbours: &[u8]) -> Vec<Pass> {
    (0..random.below(6)).map(|_| random_pass(random, neighbours)).collect()
}

#[test]
fn q_of_version_2() {
    let done = (vec![64, 127, 200, 10, 10], Counts { retoned: 1, kept: 1 });
    assert_eq!(listed(&Q, &[10, 20, 200, 10, 10], 5), Ok(done.clone()));
    assert_eq!(listed(&Q_2, &[10, 20, 200, 10, 10], 5), Ok(done));
    assert_eq!((list_bytes_of(Version::Two, &[DARK]), list_passes(&Q_2)), (Q_2.to_vec(), Ok(vec![DARK])));
}

#[test]
fn q_up_and_down_again() {
    let mut up = [170; 23];
    assert_eq!(convert(&Q, &mut up), Ok(23));
    assert_eq!(up, Q_2);
    let mut down = [170; 20];
    assert_eq!(convert(&up, &mut down), Ok(19));
    assert_eq!((&down[..19], down[19]), (&Q[..], 170));
}

/// Example J: with eight the dark pixels belong together.
#[test]
fn j_in_a_list() {
    let plane = [10, 200, 200, 20];
    let eight = list_bytes_of(Version::Two, &[Pass { neighbours: 8, ..DARK }]);
    assert_eq!(eight, [&Q_2[..19], &[8, 0, 0, 0]].concat());
    assert_eq!(listed(&eight, &plane, 2), Ok((vec![64, 200, 200, 127], Counts { retoned: 1, kept: 0 })));
    for four in [&Q[..], &Q_2] {
        assert_eq!(listed(four, &plane, 2), Ok((plane.to_vec(), Counts { retoned: 0, kept: 2 })));
    }
    assert_eq!(converted(&eight), Err(20));
}

/// The head tells which of two lists of one length it is: three records of version 2 are as long as four of version 1.
#[test]
fn lists_of_one_length() {
    let (four, three) = (list_bytes_of(Version::One, &[DARK; 4]), list_bytes_of(Version::Two, &[DARK; 3]));
    assert_eq!((four.len(), three.len()), (55, 55));
    assert_eq!((list_passes(&four), list_passes(&three)), (Ok(vec![DARK; 4]), Ok(vec![DARK; 3])));
    for (list, version, count, refusal) in [(&four, 2, 4, 16), (&four, 2, 3, 17), (&three, 1, 3, 16), (&three, 1, 4, 5)]
    {
        let mut other = list.clone();
        (other[3], other[5]) = (version, count);
        assert_eq!((list_passes(&other), converted(&other)), (Err(refusal), Err(refusal)));
    }
}

/// 15 for every version but 1 and 2, whatever the length is.
#[test]
fn other_versions() {
    for version in (0..=u16::MAX).filter(|version| !(1..=2).contains(version)) {
        for length in [7, 18, 19, 23, 24] {
            let mut list = Q_2.to_vec();
            list.resize(length, 0);
            list[3..5].copy_from_slice(&version.to_le_bytes());
            assert_eq!((list_passes(&list), converted(&list)), (Err(15), Err(15)), "version {version}");
        }
    }
}

/// Lists of both versions read back as they were written, with eight neighbours too.
#[test]
fn lists_read_back() {
    let mut random = Random::new(61);
    for _ in 0..2_000 {
        let passes = random_passes(&mut random, &[4, 8]);
        let list = list_bytes_of(Version::Two, &passes);
        assert_eq!(list.len(), 7 + 16 * passes.len());
        assert_eq!(list_passes(&list).as_ref(), Ok(&passes));
        let four: Vec<Pass> = passes.iter().map(|&pass| Pass { neighbours: 4, ..pass }).collect();
        let list = list_bytes_of(Version::One, &four);
        assert_eq!(list.len(), 7 + 12 * four.len());
        assert_eq!(list_passes(&list), Ok(four));
    }
}

/// A conversion has the same passes, is as the writer writes it, and is turned back into the list byte for byte.
#[test]
fn conversions() {
    let mut random = Random::new(62);
    for _ in 0..2_000 {
        let passes = random_passes(&mut random, &[4]);
        for version in Version::BOTH {
            let list = list_bytes_of(version, &passes);
            let other = converted(&list).expect("accepted");
            assert_eq!(other, list_bytes_of(version.other(), &passes));
            assert_eq!(other.len(), version.other().length(passes.len()));
            assert_eq!(converted(&other), Ok(list));
        }
        let mixed: Vec<Pass> = passes.iter().map(|&pass| Pass { neighbours: random.one_of(&[4, 8]), ..pass }).collect();
        let list = list_bytes_of(Version::Two, &mixed);
        let by_four = mixed.iter().all(|pass| pass.neighbours == 4);
        assert_eq!(converted(&list).is_ok(), by_four);
        assert!(by_four || converted(&list) == Err(20));
    }
}

/// Both versions of a list run to equal planes and counts, and so do its passes in memory, with eight neighbours too.
#[test]
fn both_editions_run_alike() {
    let mut random = Random::new(63);
    let mut told = 0;
    for _ in 0..2_000 {
        let (w, h) = (random.between(1, 6), random.between(1, 5));
        let values = [random.byte(), random.byte(), random.byte()];
        let plane: Vec<u8> = (0..w * h).map(|_| random.one_of(&values).saturating_add(random.below(3) as u8)).collect();
        let four = random_passes(&mut random, &[4]);
        let [one, two] = Version::BOTH.map(|version| list_bytes_of(version, &four));
        let done = listed(&one, &plane, w).expect("accepted");
        assert_eq!(listed(&two, &plane, w).as_ref(), Ok(&done));

        let eight: Vec<Pass> = four.iter().map(|&pass| Pass { neighbours: 8, ..pass }).collect();
        let mut last = plane.clone();
        let counts = run_passes(&eight, &mut last, w * h, w * h, w, h).expect("accepted");
        let by_eight = listed(&list_bytes_of(Version::Two, &eight), &plane, w);
        assert_eq!(by_eight, Ok((last, counts)));
        told += usize::from(by_eight != Ok(done));
    }
    assert!(told > 200, "{told} of 2,000");
}

/// An output that is long enough decides nothing but 14: other refusals are those of the list, or 20.
#[test]
fn damaged_lists_are_converted_as_they_are_run() {
    let mut random = Random::new(64);
    let mut answers = [0; 21];
    for _ in 0..40_000 {
        let version = random.one_of(&Version::BOTH);
        let passes = random_passes(&mut random, if version == Version::One { &[4] } else { &[4, 4, 8] });
        let mut list = list_bytes_of(version, &passes);
        for _ in 0..random.below(3) {
            let at = random.below(list.len());
            list[at] = random.one_of(&[0, 1, 2, 3, 4, 6, 8, 255]);
        }
        if random.below(8) == 0 {
            list.truncate(random.below(list.len() + 1));
        }
        let run = listed(&list, &[10, 200, 200, 20], 2).map(|_| ());
        let converted = converted(&list).map(|_| ());
        assert!(converted == run || (run, converted) == (Ok(()), Err(20)), "{list:?}");
        answers[converted.err().map_or(0, usize::from)] += 1;
        let room = random.below(60);
        let mut output = vec![170; room];
        let expected = converted.and_then(|()| {
            let count = list_passes(&list)?.len();
            let needed = if list[3] == 1 { 7 + 16 * count } else { 7 + 12 * count };
            if room < needed {
                Err(14)
            } else {
                Ok(needed)
            }
        });
        assert_eq!(convert(&list, &mut output), expected);
        assert!(expected.is_ok() || output.iter().all(|&byte| byte == 170));
    }
    for number in [0, 5, 6, 7, 8, 15, 16, 17, 18, 19, 20] {
        assert!(answers[number] > 50, "{number}: {answers:?}");
    }
}

/// The whole recursion with eight neighbours is a list of version 2.
#[test]
fn the_recursion_as_a_list_of_version_2() {
    let settings = Settings { last_level: 7, area: 2, rule: DARK.rule, neighbours: 8 };
    let list = list_bytes_of(Version::Two, &level_by_level(&settings));
    assert_eq!(list.len(), 7 + 16 * 255);
    let plane = [10, 200, 200, 20];
    let mut last = plane;
    let counts = run_passes(&level_by_level(&settings), &mut last, 4, 4, 2, 2).expect("accepted");
    assert_eq!(listed(&list, &plane, 2), Ok((last.to_vec(), counts)));
}
