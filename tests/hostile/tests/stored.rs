//! The stored cases of the program, which `tests/vectors.sh` makes.

use mlhe_hostile::{program, OUTPUT};
use mlhe_reference::cases::cases;
use std::fs;
use std::path::PathBuf;

fn stored(name: &str) -> Vec<u8> {
    let path = PathBuf::from(env!("CARGO_MANIFEST_DIR")).join("../vectors").join(name);
    fs::read(path).expect("the stored file is there")
}

fn hexadecimal(bytes: &[u8]) -> String {
    bytes.iter().map(|byte| format!("{byte:02x}")).collect()
}

#[test]
fn every_stored_case_is_answered_as_stored() {
    let cases = cases(&stored("program.in"));
    let answers = String::from_utf8(stored("program.out")).expect("text");
    assert_eq!(cases.len(), answers.lines().count());
    let mut output = Box::new([0; OUTPUT]);
    for (index, (case, answer)) in cases.iter().zip(answers.lines()).enumerate() {
        let size = program(&case.bytes, &mut output);
        let line = index + 1;
        assert!(hexadecimal(&output[..size]) == answer, "line {line} of tests/vectors/program.out differs");
    }
}
