//! The stored cases with their lines, and parts of a line, as the head of reference/src/cases.rs describes them.

use mlhe::{Counts, Refusal};
use mlhe_reference::cases::{cases, Case};
use std::fs;
use std::path::Path;

/// Every case that is chosen has the line that is stored for it. There are many.
pub fn agree(chosen: impl Fn(&Case) -> bool, line: impl Fn(&Case) -> String) {
    let vectors = Path::new(env!("CARGO_MANIFEST_DIR")).join("../../crates/vectors");
    let cases = cases(&fs::read(vectors.join("stdin")).expect("the cases are there"));
    let lines = fs::read_to_string(vectors.join("stdout")).expect("the answers are there");
    let chosen: Vec<(&Case, &str)> = cases.iter().zip(lines.lines()).filter(|(case, _)| chosen(case)).collect();
    assert!(chosen.len() > 50);
    for (case, stored) in chosen {
        assert_eq!(line(case), stored, "{case:?}");
    }
}

pub fn hex(bytes: &[u8]) -> String {
    bytes.iter().map(|byte| format!("{byte:02x}")).collect()
}

/// Both counts, or the refusal.
pub fn numbers(answer: Result<Counts, Refusal>) -> String {
    match answer {
        Ok(Counts { retoned, kept }) => format!("+{retoned} {kept}"),
        Err(refusal) => format!("-{}", refusal.number()),
    }
}
