//! Lists of version 1 and of version 2: what is read and written, what converts to what, and what is refused.

use mlhe::{lent, Counts, Memory, Pass, PassList, Plane, Refusal, Rule};

const PLAIN: Rule = Rule::Plain { low: 0, high: 25_500 };
const DARK: Pass = Pass::new(0, 127, 1, PLAIN);

/// The example of the requirements, in both versions.
const FIRST: &[u8; 19] = b"MLP\x01\0\x01\0\0\x7f\0\0\x01\0\0\0\0\0\x9c\x63";
const SECOND: &[u8; 23] = b"MLP\x02\0\x01\0\0\x7f\0\0\x01\0\0\0\0\0\x9c\x63\x04\0\0\0";

/// Passes of all rules.
fn passes() -> [Pass; 4] {
    let affine = Rule::Affine { segments: 2, smin: 100, smax: 10_000 };
    [(0, 255, 1, affine), (0, 200, 3, PLAIN), (100, 200, 1_048_576, Rule::Limited { k: 10 }), (7, 7, 1, PLAIN)]
        .map(|(a, b, area, rule)| Pass::new(a, b, area, rule))
}

/// A list of version 2 with one record.
fn record(changes: &[(usize, u8)]) -> Vec<u8> {
    let mut bytes = SECOND.to_vec();
    changes.iter().for_each(|&(at, byte)| bytes[at] = byte);
    bytes
}

/// What the library answers to these bytes, as a list and to be converted with no output: never 14, for all else comes
/// before.
fn refused(bytes: &[u8]) -> Refusal {
    let refusal = PassList::from_bytes(bytes).unwrap_err();
    assert_eq!(lent::convert_list(bytes, &mut []), Err(refusal), "{bytes:?}");
    refusal
}

/// What a list leaves of a row or a square, and its counts.
fn run(list: &PassList, w: usize, values: &[u8]) -> (Vec<u8>, Counts) {
    let mut plane = Plane::new(w, values.len() / w, values.to_vec()).unwrap();
    let counts = plane.run(list, &mut Memory::new());
    (plane.into_values(), counts)
}

#[test]
fn either_version_converts_to_the_other() {
    for (from, to) in [(&FIRST[..], &SECOND[..]), (SECOND, FIRST), (b"MLP\x01\0\0\0", b"MLP\x02\0\0\0")] {
        let mut output = [7; 30];
        assert_eq!(lent::convert_list(from, &mut output), Ok(to.len()));
        assert_eq!((&output[..to.len()], &output[to.len()..]), (to, &[7; 30][to.len()..]));
        // Nothing is written where the output is one byte short, and all where it is just long enough.
        let mut output = [7; 30];
        assert_eq!(lent::convert_list(from, &mut output[..to.len() - 1]), Err(Refusal::Output));
        assert_eq!(output, [7; 30]);
        assert_eq!(lent::convert_list(from, &mut output[..to.len()]), Ok(to.len()));
        assert_eq!(&output[..to.len()], to);
    }
}

#[test]
fn converted_lists_run_alike() {
    let list = PassList::new(&passes()).unwrap();
    let second = list.converted().unwrap();
    assert_eq!((list.version(), second.version()), (1, 2));
    assert_eq!((list.bytes().len(), second.bytes().len()), (7 + 12 * 4, 7 + 16 * 4));
    assert_eq!((list.passes(), second.passes()), (&passes()[..], &passes()[..]));
    assert_ne!(list, second);
    assert_eq!(second.converted().as_ref(), Ok(&list));
    assert_eq!(PassList::from_bytes(second.bytes()).as_ref(), Ok(&second));
    for row in [&[10, 10, 20, 30][..], &[7, 7, 200, 7, 90], &[0]] {
        assert_eq!(run(&list, row.len(), row), run(&second, row.len(), row));
    }
    let empty = PassList::new(&[]).unwrap();
    assert_eq!((empty.bytes(), empty.converted().unwrap().bytes()), (&b"MLP\x01\0\0\0"[..], &b"MLP\x02\0\0\0"[..]));
    assert_eq!(run(&empty.converted().unwrap(), 2, &[1, 2]), (vec![1, 2], Counts::default()));
}

/// The longest lists of both versions convert to each other.
#[test]
fn the_longest_lists() {
    let list = PassList::new(&[DARK; mlhe::GREATEST_PASSES]).unwrap();
    let second = list.converted().unwrap();
    assert_eq!(second.bytes().len(), mlhe::GREATEST_LIST);
    assert_eq!(second.converted(), Ok(list));
}

/// A list that has eight neighbours anywhere is of version 2, and has no other.
#[test]
fn eight_neighbours_need_version_2() {
    let eight = DARK.with_neighbours(8);
    for passes in [&[eight][..], &[DARK, eight], &[eight, DARK], &[DARK, DARK, eight, DARK]] {
        let list = PassList::new(passes).unwrap();
        let numbers: Vec<u8> = list.bytes()[7..].chunks(16).map(|record| record[12]).collect();
        assert_eq!(numbers, passes.iter().map(|pass| pass.neighbours).collect::<Vec<_>>());
        assert_eq!((list.version(), list.converted()), (2, Err(Refusal::EightNeighbours)));
        for room in [0, 6, 7, 18, 19, 100] {
            let mut output = vec![7; room];
            assert_eq!(lent::convert_list(list.bytes(), &mut output), Err(Refusal::EightNeighbours));
            assert_eq!(output, vec![7; room]);
        }
    }
    let list = PassList::from_bytes(&record(&[(19, 8)])).unwrap();
    assert_eq!(list.passes(), [eight]);
    assert_eq!(run(&list, 2, &[10, 200, 200, 20]), (vec![64, 200, 200, 127], Counts { retoned: 1, kept: 0 }));
}

#[test]
fn versions_and_lengths() {
    assert_eq!([&b""[..], b"MLP", b"MLP\x02\0\0"].map(refused), [Refusal::ListLength; 3]);
    for version in [[0, 0], [3, 0], [255, 0], [1, 1], [2, 1], [0, 2], [255, 255]] {
        let changes = [(3, version[0]), (4, version[1]), (9, 3)];
        assert_eq!(refused(&record(&changes)), Refusal::ListMark);
        assert_eq!(refused(&record(&changes)[..22]), Refusal::ListMark);
    }
    assert_eq!(refused(&record(&[(0, b'm')])), Refusal::ListMark);
    // The length of the other version.
    assert_eq!(refused(&[&b"MLP\x02"[..], &FIRST[4..]].concat()), Refusal::ListLength);
    assert_eq!(refused(&[&b"MLP\x01"[..], &SECOND[4..]].concat()), Refusal::ListLength);
    assert_eq!(refused(&record(&[(5, 0)])), Refusal::ListLength);
    assert_eq!(refused(&[&SECOND[..], &[0]].concat()), Refusal::ListLength);
    // Three passes of version 2 are as long as four of version 1.
    let twelve = |version: u8, count: u8| [&[b'M', b'L', b'P', version, 0, count, 0][..], &[0; 48]].concat();
    assert_eq!((refused(&twelve(1, 3)), refused(&twelve(2, 4))), (Refusal::ListLength, Refusal::ListLength));
    assert_eq!((refused(&twelve(1, 4)), refused(&twelve(2, 3))), (Refusal::Area, Refusal::Area));
}

/// Lists around the greatest number of passes and far beyond, of both versions, run and converted. Every pass keeps the
/// one pixel back.
#[test]
fn greatest_numbers_of_passes() {
    for version in [1_u16, 2] {
        let record = if version == 1 { &FIRST[7..] } else { &SECOND[7..] };
        for count in [319_u16, 320, 321, 1_024, 65_535] {
            let head = [&b"MLP"[..], &version.to_le_bytes(), &count.to_le_bytes()].concat();
            let bytes = [head, record.repeat(count.into())].concat();
            if count > 320 {
                assert_eq!(refused(&bytes), Refusal::ListLength);
                continue;
            }
            let list = PassList::from_bytes(&bytes).unwrap();
            assert_eq!(run(&list, 1, &[7]), (vec![7], Counts { retoned: 0, kept: count.into() }));
            let other = list.converted().unwrap();
            assert_eq!(other.passes(), list.passes());
            assert_eq!(other.converted(), Ok(list));
        }
    }
}

/// Of a record 17 comes first and 19 last; the first record that is refused decides.
#[test]
fn records() {
    for at in [20, 21, 22] {
        for byte in [1, 128, 255] {
            assert_eq!(refused(&record(&[(at, byte), (7, 200), (11, 0), (19, 9)])), Refusal::Rule);
        }
    }
    assert_eq!(refused(&record(&[(9, 3), (20, 1)])), Refusal::Rule);
    for neighbours in (0..=u8::MAX).filter(|number| ![4, 8].contains(number)) {
        assert_eq!(refused(&record(&[(19, neighbours)])), Refusal::Neighbours);
    }
    assert_eq!(refused(&record(&[(19, 9), (7, 200)])), Refusal::Interval);
    assert_eq!(refused(&record(&[(19, 9), (11, 0)])), Refusal::Area);
    assert_eq!(refused(&record(&[(19, 9), (18, 0x64)])), Refusal::Limits);
    assert_eq!(refused(&record(&[(19, 9), (9, 1), (16, 4), (17, 0), (18, 0)])), Refusal::Clip);
    assert_eq!(refused(&record(&[(19, 9), (9, 2)])), Refusal::Slopes);
    let two = |first: &[u8], second: &[u8]| refused(&[b"MLP\x02\0\x02\0", &first[7..], &second[7..]].concat());
    assert_eq!(two(&record(&[(19, 9)]), &record(&[(20, 1)])), Refusal::Neighbours);
    assert_eq!(two(&record(&[(19, 8)]), &record(&[(22, 1)])), Refusal::Rule);
    assert_eq!(two(&record(&[(19, 8)]), &record(&[(19, 0)])), Refusal::Neighbours);
}
