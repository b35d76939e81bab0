//! Damaged and hostile input: the proved function answers each one as the second implementation does, and leaves the
//! output beyond the answer as it was.

use mlhe_hostile::{program, Inputs, OUTPUT};
use mlhe_reference::{read, PROGRAM_PIXELS};
use std::collections::BTreeMap;

const SEED: u64 = 6;
const INPUTS: usize = 60_000;

/// The answer's first line, or `P6` for a frame.
fn kind(answer: &[u8]) -> String {
    if answer.starts_with(b"P6\n") {
        return "P6".to_string();
    }
    String::from_utf8(answer.to_vec()).expect("a line").trim_end().to_string()
}

/// Whether the header of an accepted frame has a comment.
fn has_comment(input: &[u8]) -> bool {
    let header = read(input, PROGRAM_PIXELS).expect("accepted");
    input[..header.offset].contains(&b'#')
}

#[test]
fn every_input_is_answered_as_by_the_second_implementation() {
    let mut inputs = Inputs::new(SEED);
    let mut output = Box::new([0; OUTPUT]);
    let mut answers: BTreeMap<String, usize> = BTreeMap::new();
    // Accepted frames with a comment, and malformed headers with a number sign in their first 32 bytes.
    let (mut read_over, mut malformed) = (0, 0);
    for index in 0..INPUTS {
        let input = inputs.input();
        let before = index as u8;
        output.fill(before);
        let size = program(&input, &mut output);
        let (answer, expected) = (&output[..size], mlhe_reference::program(&input));
        let kinds = || format!("{} and {}", kind(answer), kind(&expected));
        assert!(answer == expected, "input {index} of seed {SEED}: the answers differ, {}", kinds());
        assert!(output[size..].iter().all(|&byte| byte == before), "input {index}: the output beyond the answer");
        let kind = kind(&output[..size]);
        read_over += usize::from(kind == "P6" && has_comment(&input));
        malformed += usize::from(kind == "refused 10" && input.iter().take(32).any(|&byte| byte == b'#'));
        *answers.entry(kind).or_default() += 1;
    }
    println!("{answers:?}, with comments {read_over}, malformed with number signs {malformed}");
    for number in [1, 2, 10, 11, 12, 13] {
        assert!(answers.get(&format!("refused {number}")).copied().unwrap_or(0) >= 100, "refusal {number} is rare");
    }
    assert!(answers["P6"] >= INPUTS / 5, "few frames are accepted");
    assert!(read_over >= answers["P6"] / 4, "few frames with comments are accepted");
    assert!(malformed >= answers["refused 10"] / 4, "few headers with number signs are malformed");
}
