//! Makes the stored test cases, which the second implementation answers. How a case is stored and answered is described
//! at the head of `reference/src/cases.rs`.
//!
//! ```text
//! vectors FOLDER                makes the stored files of the repository in FOLDER again
//! vectors --check FOLDER        tells whether they are what would be made
//! vectors --answers             answers the cases on standard input
//! vectors --random N SEED       prints N enhancements and N passes on random planes, as cases
//! ```
//!
//! | Cases | Answers | Of |
//! |---|---|---|
//! | `crates/vectors/stdin` | `crates/vectors/stdout` | the calls, in the order of `CALLS`; the program `vectors` runs them |
//! | `tests/vectors/program.in` | `tests/vectors/program.out` | the program; `tests/hostile` runs them |

mod affine;
mod chain;
mod chance;
mod convert;
mod eight;
mod enhance;
mod faults;
mod house;
mod intensity;
mod list;
mod neighbours;
mod pass;
mod passes;
mod program;
mod read;
mod recolour;
mod slopes;
mod sound;
mod versions;
mod write;

use mlhe_reference::cases::{self, answers, encode, Case, Kind};
use std::io::{self, Read, Write};
use std::path::Path;
use std::{env, fs, process};

/// What makes the cases of each call. A chain mixes calls, and so do the cases of the affine rule, of eight neighbours
/// and of both versions of lists, which come last.
const CALLS: [fn() -> Vec<Case>; 14] = [
    intensity::cases,
    pass::cases,
    chain::cases,
    recolour::cases,
    enhance::cases,
    house::cases,
    list::cases,
    passes::cases,
    read::cases,
    write::cases,
    affine::cases,
    eight::cases,
    versions::cases,
    convert::cases,
];

fn main() -> io::Result<()> {
    let arguments: Vec<String> = env::args().skip(1).collect();
    let arguments: Vec<&str> = arguments.iter().map(String::as_str).collect();
    match arguments[..] {
        ["--check", folder] => check(Path::new(folder)),
        ["--answers"] => {
            let mut file = Vec::new();
            io::stdin().lock().read_to_end(&mut file)?;
            io::stdout().lock().write_all(answers(&file).as_bytes())
        }
        ["--random", number, seed] => {
            let (number, seed) = (number.parse().expect("a number"), seed.parse().expect("a seed"));
            io::stdout().lock().write_all(&encoded(&chance::random_cases(number, seed)))
        }
        [folder] if !folder.starts_with('-') => make(Path::new(folder)),
        _ => {
            eprintln!("vectors FOLDER | --check FOLDER | --answers | --random N SEED");
            process::exit(2)
        }
    }
}

/// Cases with their answers, and the files in which they are stored.
struct Stored {
    input: &'static str,
    output: &'static str,
    cases: Vec<Case>,
}

fn stored() -> [Stored; 2] {
    let calls = CALLS.iter().flat_map(|cases| cases()).collect();
    [
        Stored { input: "crates/vectors/stdin", output: "crates/vectors/stdout", cases: calls },
        Stored { input: "tests/vectors/program.in", output: "tests/vectors/program.out", cases: program::cases() },
    ]
}

/// The bytes of a file of cases.
fn encoded(cases: &[Case]) -> Vec<u8> {
    cases.iter().flat_map(encode).collect()
}

impl Stored {
    /// The file of cases. Each case has the lengths that a program makes room for, and is read back as it is.
    fn file(&self) -> Vec<u8> {
        let file = encoded(&self.cases);
        assert_eq!(cases::cases(&file), self.cases);
        for case in &self.cases {
            assert!(case.bytes.len() <= cases::GREATEST_BYTES && case.plane.len() <= cases::GREATEST_PLANE, "{case:?}");
            assert!(usize::from(case.marks.max(case.queue)) <= cases::GREATEST_MEMORY, "{case:?}");
            let converts = case.kind == Kind::Convert;
            let greatest = if converts { cases::GREATEST_CONVERTED } else { cases::GREATEST_OUTPUT };
            assert!(usize::from(case.output) <= greatest, "{case:?}");
        }
        file
    }

    /// The first case that is stored otherwise than it would be made: its number, from 1 on, and what it is.
    fn differing(&self, made: &[u8], found: &[u8]) -> String {
        let same = made.iter().zip(found).take_while(|(one, other)| one == other).count();
        let mut end = 0;
        for (index, case) in self.cases.iter().enumerate() {
            end += encode(case).len();
            if same < end {
                return format!("case {} ({:?})", index + 1, case.kind);
            }
        }
        "what stands after the last case".to_string()
    }

    /// The first answer that is stored otherwise than it would be made.
    fn differing_answer(&self, made: &str, found: &[u8]) -> String {
        let same = made.bytes().zip(found).take_while(|(one, other)| one == *other).count();
        let line = made.bytes().take(same).filter(|&byte| byte == b'\n').count();
        match self.cases.get(line) {
            Some(case) => format!("line {} ({:?})", line + 1, case.kind),
            None => "what stands after the last line".to_string(),
        }
    }
}

fn make(folder: &Path) -> io::Result<()> {
    for stored in stored() {
        let file = stored.file();
        fs::write(folder.join(stored.output), answers(&file))?;
        fs::write(folder.join(stored.input), file)?;
    }
    Ok(())
}

fn check(folder: &Path) -> io::Result<()> {
    let mut wrong = false;
    for stored in stored() {
        let made = stored.file();
        let found = fs::read(folder.join(stored.input))?;
        if found != made {
            eprintln!("{}: {} is not what is made", stored.input, stored.differing(&made, &found));
            wrong = true;
        }
        let made = answers(&made);
        let found = fs::read(folder.join(stored.output))?;
        if found != made.as_bytes() {
            eprintln!("{}: {} is not what is made", stored.output, stored.differing_answer(&made, &found));
            wrong = true;
        }
        println!("{}: {} cases", stored.input, stored.cases.len());
    }
    if wrong {
        process::exit(1)
    }
    Ok(())
}
