//! What docs/REQUIREMENTS.md and docs/CLAIMS.md name is there: each definition in the file that the rule names, each
//! wrong program, and each theorem in the file of its row. The example of the crate's README is that of its page.

use std::fs;
use std::path::{Path, PathBuf};

fn repository() -> PathBuf {
    Path::new(env!("CARGO_MANIFEST_DIR")).join("..")
}

fn text(name: &str) -> String {
    let path = repository().join(name);
    fs::read_to_string(&path).unwrap_or_else(|error| panic!("{}: {error}", path.display()))
}

/// The names between backticks.
fn quoted(text: &str) -> Vec<&str> {
    text.split('`').skip(1).step_by(2).collect()
}

/// Whether a definition, a record or one of its fields, or a law of this name begins at a line of the text.
fn defines(text: &str, name: &str) -> bool {
    let is_word = |word: &&str| !["abbrev", "unfoldable", "pub", "record", "data"].contains(word);
    text.lines().any(|line| line.split_whitespace().find(is_word) == Some(name))
}

/// The file and the names of a place such as "planes/Neighbours: `four`, `beside`".
fn place(text: &str) -> Option<(String, Vec<&str>)> {
    let (file, names) = text.trim().split_once(": ")?;
    let (folder, module) = file.split_once('/')?;
    let named = folder.chars().all(|c| c.is_ascii_lowercase()) && module.starts_with(|c: char| c.is_ascii_uppercase());
    named.then(|| (format!("crates/{folder}/specs/{module}.antt"), quoted(names)))
}

/// The cells of the tables of a document.
fn cells(text: &str) -> impl Iterator<Item = &str> {
    text.lines().filter(|line| line.starts_with('|')).flat_map(|line| line.split('|'))
}

#[test]
fn the_definitions_of_the_requirements_are_there() {
    let document = text("docs/REQUIREMENTS.md");
    let mut count = 0;
    for (file, names) in cells(&document).flat_map(|cell| cell.split(';')).filter_map(place) {
        let definitions = text(&file);
        for name in names {
            assert!(defines(&definitions, name), "{file} does not define {name}");
            count += 1;
        }
    }
    assert!(count > 150, "only {count} definitions are named");
}

#[test]
fn the_wrong_programs_of_the_requirements_are_there() {
    let document = text("docs/REQUIREMENTS.md");
    let named: Vec<&str> = cells(&document).filter_map(|cell| cell.trim().strip_prefix("`must-fail`: ")).collect();
    assert_eq!(named.len(), 2);
    let folders: Vec<PathBuf> =
        fs::read_dir(repository().join("crates")).unwrap().map(|crate_| crate_.unwrap().path()).collect();
    for name in named.into_iter().flat_map(quoted) {
        let edit = format!("must-fail/{name}.edit");
        assert!(folders.iter().any(|folder| folder.join(&edit).exists()), "there is no {edit}");
    }
}

#[test]
fn the_theorems_of_the_claims_are_there() {
    let document = text("docs/CLAIMS.md");
    let mut count = 0;
    for line in document.lines().filter(|line| line.starts_with('|')) {
        let [_, _, theorems, file, ..] = line.split('|').map(str::trim).collect::<Vec<_>>()[..] else { continue };
        let file = file.trim_matches('`');
        if !file.contains("/proofs/") {
            continue;
        }
        let laws = text(&format!("crates/{file}"));
        for theorem in quoted(theorems) {
            assert!(defines(&laws, theorem), "crates/{file} does not have {theorem}");
            count += 1;
        }
    }
    assert!(count > 15, "only {count} theorems are named");
}

/// The example of the crate's page is compiled and run as a test.
#[test]
fn the_example_of_the_readme_is_that_of_the_page() {
    let readme = text("rust/README.md");
    let (_, rest) = readme.split_once("```rust\n").expect("an example");
    let (example, _) = rest.split_once("```\n").expect("its end");
    let page: String = example.lines().map(|line| format!("//! {line}").trim_end().to_string() + "\n").collect();
    assert!(text("rust/src/lib.rs").contains(&format!("//! ```\n{page}")), "the page does not have:\n{page}");
}
