//! What became of each file: for people, and as a table.

use crate::frame::{Answer, Outcome};
use mlhe::Counts;
use std::os::unix::ffi::OsStrExt;
use std::path::Path;

/// A line of the report: file, size, answer, components retoned and kept, and reason, with tabs between them, and - for
/// what there is not.
pub fn line(file: &Path, outcome: &Outcome) -> String {
    let size = outcome.size.map_or("-".to_owned(), |(w, h)| format!("{w}x{h}"));
    let counts = match outcome.answer {
        Answer::Enhanced(Counts { retoned, kept }) => format!("{retoned}\t{kept}"),
        _ => "-\t-".to_owned(),
    };
    let reason = if outcome.reason.is_empty() { "-" } else { &outcome.reason };
    format!("{}\t{size}\t{}\t{counts}\t{}\n", name(file), outcome.answer, escaped(reason.as_bytes()))
}

/// The head of the report.
pub const HEAD: &str = "file\tsize\tanswer\tretoned\tkept\treason\n";

/// A file's name as one field: tabs, ends of lines, backslashes and bytes that are no UTF-8 are escaped.
pub fn name(file: &Path) -> String {
    escaped(file.as_os_str().as_bytes())
}

fn escaped(bytes: &[u8]) -> String {
    let mut escaped = String::new();
    for chunk in bytes.utf8_chunks() {
        for character in chunk.valid().chars() {
            match character {
                '\\' => escaped.push_str("\\\\"),
                character if character.is_control() => escaped.extend(character.escape_default()),
                character => escaped.push(character),
            }
        }
        chunk.invalid().iter().for_each(|byte| escaped.push_str(&format!("\\x{byte:02x}")));
    }
    escaped
}

#[cfg(test)]
mod tests {
    use super::*;
    use std::ffi::OsStr;

    #[test]
    fn a_line_has_the_fields_of_the_head() {
        let answer = Answer::Enhanced(Counts { retoned: 5, kept: 8 });
        let enhanced = Outcome { answer, size: Some((3, 2)), reason: String::new() };
        assert_eq!(line(Path::new("f1.ppm"), &enhanced), "f1.ppm\t3x2\tenhanced\t5\t8\t-\n");
        assert_eq!(line(Path::new("f2.ppm"), &Outcome::failed("gone")), "f2.ppm\t-\tfailed\t-\t-\tgone\n");
        let fields = |line: &str| line.matches('\t').count();
        assert_eq!(fields(HEAD), fields(&line(Path::new("f1.ppm"), &enhanced)));
    }

    #[test]
    fn a_name_is_one_field() {
        assert_eq!(name(Path::new("left eye/é.ppm")), "left eye/é.ppm");
        assert_eq!(name(Path::new("a\tb\n\\")), "a\\tb\\n\\\\");
        assert_eq!(name(Path::new(OsStr::from_bytes(b"a\xff.ppm"))), "a\\xff.ppm");
    }
}
