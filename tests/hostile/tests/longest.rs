//! Inputs at the program's limit of length, with comments of all sizes: the proved function answers each one as the
//! second implementation does, and as it is said here.

use mlhe_hostile::{program, OUTPUT};

/// The longest input.
const LONGEST: usize = 65_536;

/// What the program answers to an input, which is what the second implementation answers.
fn answered(input: &[u8]) -> Vec<u8> {
    let mut output = Box::new([0; OUTPUT]);
    let size = program(input, &mut output);
    assert!(output[..size] == mlhe_reference::program(input), "{}...", input[..input.len().min(40)].escape_ascii());
    output[..size].to_vec()
}

/// A frame of these sides whose gap before the number at this place is filled so that it has so many bytes.
fn frame([w, h]: [usize; 2], place: usize, length: usize, filled: impl Fn(usize) -> Vec<u8>) -> Vec<u8> {
    let raster: Vec<u8> = (0..3 * w * h).map(|i| (i / 96) as u8).collect();
    let numbers = [w, h, 255].map(|number| number.to_string());
    let rest = 2 + numbers.concat().len() + 2 + 1 + raster.len();
    let mut input = b"P6".to_vec();
    for (index, number) in numbers.iter().enumerate() {
        input.extend(if index == place { filled(length - rest) } else { vec![b' '] });
        input.extend(number.bytes());
    }
    input.push(b' ');
    input.extend(raster);
    assert_eq!(input.len(), length);
    input
}

/// One comment of this length.
fn one(length: usize) -> Vec<u8> {
    [&b"#"[..], &vec![b'7'; length - 2], b"\r"].concat()
}

/// Empty comments of this length together.
fn many(length: usize) -> Vec<u8> {
    [b"#\n".repeat(length / 2), vec![b'\t'; length % 2]].concat()
}

/// Comments of three bytes with what a header has, of this length together.
fn telling(length: usize) -> Vec<u8> {
    [vec![b' '; length % 3], b"##\n#6\r#5\n# \r#P\n".repeat(length / 15 + 1)[..length / 3 * 3].to_vec()].concat()
}

#[test]
fn comments_may_fill_the_longest_input() {
    for sides in [[128, 128], [5, 3]] {
        for place in 0..3 {
            for filled in [one, many, telling] {
                for length in [LONGEST - 1, LONGEST] {
                    let output = answered(&frame(sides, place, length, filled));
                    assert!(output.starts_with(format!("P6\n{} {}\n255\n", sides[0], sides[1]).as_bytes()));
                }
                assert_eq!(answered(&frame(sides, place, LONGEST + 1, filled)), b"refused 13\n");
            }
        }
    }
}

#[test]
fn a_comment_that_never_ends_is_refused_however_long_the_input() {
    for start in ["P6#", "P6 1#", "P6 1 1 #", "P6#\n1#\r1#", "P6 1 1 255#"] {
        for byte in [b' ', b'#', 0, 255] {
            for length in [start.len(), start.len() + 1, 1_000, LONGEST - 1, LONGEST] {
                let mut input = start.as_bytes().to_vec();
                input.resize(length, byte);
                assert_eq!(answered(&input), b"refused 10\n");
            }
            let mut input = start.as_bytes().to_vec();
            input.resize(LONGEST + 1, byte);
            assert_eq!(answered(&input), b"refused 13\n");
        }
    }
}
