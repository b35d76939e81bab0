//! The proved library's C functions, and the Rust crate's lists in memory, against the second implementation.
//!
//!     cargo run --release                          60,000 cases
//!     cargo run --release -- --long                5,000,000 cases
//!     cargo run --release -- --cases N --seed S    so many, from another seed
//!     cargo run --release -- --case K --seed S     one case again
//!
//! Every case is random from its seed and its number: sides, frames, planes, files and lists of both versions, sound
//! and damaged; chains of passes and lists with four neighbours and with eight, with refused calls among them; lengths
//! short, exact and long; any content in marks and queue; guards around all lent memory. Compared are answers, counts,
//! planes, outputs and every byte that has to stay; on all that is accepted the order of neighbours, the regional
//! maxima and minima, and the components of sufficient area, each counted from its definition, by four neighbours, and
//! by eight where all accepted passes have eight; enhancements with the lists of passes that they equal; lists with
//! their conversions, which are turned back into them and leave equal planes and counts; and passes on disjoint
//! intervals in two orders and on copies that are put together. Ends with status 1 at the first difference. At the end
//! it has to have seen every refusal, accepted calls of every kind, components retoned and kept back by every kind that
//! counts, and planes changed and held against the first by eight neighbours. Each processor tries a share of the
//! cases.

mod calls;
mod convert;
mod guarded;
mod in_memory;
mod inputs;
mod orders;
mod work;

use calls::{Outcome, KINDS};
use mlhe_reference::random::Random;
use mlhe_reference::Counts;
use std::ops::Range;
use std::process::ExitCode;
use std::time::Instant;
use std::{env, thread};

const CASES: u64 = 60_000;
const LONG: u64 = 5_000_000;
const SEED: u64 = 20_260;

/// After so many cases a line says that they agree.
const TOLD: u64 = 100_000;

/// The kinds of case whose calls count components.
const COUNTING: [&str; 8] = ["pass", "enhance", "list", "chain", "levels", "passes", "convert", "orders"];

/// Those whose calls may have eight neighbours.
const BY_EIGHT: [&str; 7] = ["pass", "enhance", "list", "chain", "levels", "passes", "orders"];

/// How often each kind of case was tried, accepted, held against the first plane by eight neighbours, and refused with
/// each number, and what its calls counted.
#[derive(Default)]
struct Tally {
    calls: u64,
    tried: [u64; KINDS.len()],
    accepted: [u64; KINDS.len()],
    by_eight: [u64; KINDS.len()],
    counts: [Counts; KINDS.len()],
    refused: [u64; 21],
}

impl Tally {
    fn add(&mut self, kind: usize, Outcome { answers, counts, by_eight }: &Outcome) {
        self.tried[kind] += 1;
        self.by_eight[kind] += u64::from(*by_eight);
        self.calls += answers.len() as u64;
        self.accepted[kind] += u64::from(answers.iter().all(|&answer| answer >= 0));
        self.counts[kind] = [self.counts[kind], *counts].into_iter().sum();
        for &answer in answers {
            if answer < 0 {
                self.refused[answer.unsigned_abs() as usize] += 1;
            }
        }
    }

    fn add_all(&mut self, other: &Tally) {
        let sum = |into: &mut [u64], from: &[u64]| into.iter_mut().zip(from).for_each(|(x, y)| *x += y);
        self.calls += other.calls;
        sum(&mut self.tried, &other.tried);
        sum(&mut self.accepted, &other.accepted);
        sum(&mut self.by_eight, &other.by_eight);
        sum(&mut self.refused, &other.refused);
        for (into, from) in self.counts.iter_mut().zip(other.counts) {
            *into = [*into, from].into_iter().sum();
        }
    }

    fn print(&self) {
        for (kind, name) in KINDS.iter().enumerate() {
            let (tried, accepted) = (self.tried[kind], self.accepted[kind]);
            let Counts { retoned, kept } = self.counts[kind];
            let mut counted = String::new();
            if COUNTING.contains(name) {
                counted = format!("; {retoned} retoned, {kept} kept");
            }
            if BY_EIGHT.contains(name) {
                counted += &format!("; {} changed and kept by eight neighbours", self.by_eight[kind]);
            }
            println!("{name:10} {tried:8} cases, {accepted:8} of them with no refusal{counted}");
        }
        let refused: Vec<String> = (1..=20).map(|number| format!("{number}: {}", self.refused[number])).collect();
        println!("refusals   {}", refused.join(", "));
    }

    fn saw_all(&self) -> bool {
        let counted =
            |(name, counts): (&&str, &Counts)| !COUNTING.contains(name) || (counts.retoned > 0 && counts.kept > 0);
        self.accepted.iter().all(|&count| count > 0)
            && self.refused[1..].iter().all(|&count| count > 0)
            && KINDS.iter().zip(&self.counts).all(counted)
            && KINDS.iter().zip(&self.by_eight).all(|(name, &count)| count > 0 || !BY_EIGHT.contains(name))
    }
}

/// One case: its kind and what came of it.
fn run(seed: u64, number: u64) -> (usize, calls::Compared) {
    let mut random = Random::new(Random::new(seed).bits() ^ number.wrapping_mul(0xA076_1D64_78BD_642F));
    let kind = random.below(KINDS.len());
    (kind, calls::case(kind, &mut random))
}

/// A case in which the two differ: its number, and what differs.
struct Difference {
    number: u64,
    what: String,
}

/// What came of these cases, or the first of them in which the two differ.
fn tally_of(seed: u64, numbers: impl Iterator<Item = u64>) -> Result<Tally, Difference> {
    let mut tally = Tally::default();
    for number in numbers {
        let (kind, compared) = run(seed, number);
        let outcome = compared.map_err(|what| Difference { number, what: format!("{}: {what}", KINDS[kind]) })?;
        tally.add(kind, &outcome);
    }
    Ok(tally)
}

/// The same with a share of the cases for each processor.
fn shared_tally(seed: u64, numbers: &Range<u64>) -> Result<Tally, Difference> {
    let threads = thread::available_parallelism().map_or(1, usize::from);
    let share = |at: usize| numbers.clone().skip(at).step_by(threads);
    let tallies: Vec<Result<Tally, Difference>> = thread::scope(|scope| {
        let running: Vec<_> = (0..threads).map(|at| scope.spawn(move || tally_of(seed, share(at)))).collect();
        running.into_iter().map(|thread| thread.join().expect("no case panics")).collect()
    });
    let mut sum = Tally::default();
    let mut first: Option<Difference> = None;
    for tally in tallies {
        match tally {
            Ok(tally) => sum.add_all(&tally),
            Err(other) if first.as_ref().is_none_or(|known| other.number < known.number) => first = Some(other),
            Err(_) => {}
        }
    }
    first.map_or(Ok(sum), Err)
}

/// Frames of the greatest number of pixels, of three shapes, and by eight neighbours.
fn greatest_frames(seed: u64, tally: &mut Tally) -> Result<(), String> {
    for (w, h, neighbours) in [(1_024, 1_024, 4), (4_096, 256, 4), (256, 4_096, 4), (1_024, 1_024, 8)] {
        let outcome = calls::greatest(w, h, neighbours, &mut Random::new(seed + w as u64))?;
        tally.add(3, &outcome);
    }
    Ok(())
}

struct Arguments {
    seed: u64,
    cases: u64,
    case: Option<u64>,
}

fn arguments() -> Option<Arguments> {
    let mut arguments = Arguments { seed: SEED, cases: CASES, case: None };
    let mut words = env::args().skip(1);
    while let Some(word) = words.next() {
        let mut number = || words.next()?.parse().ok();
        match word.as_str() {
            "--long" => arguments.cases = LONG,
            "--cases" => arguments.cases = number()?,
            "--seed" => arguments.seed = number()?,
            "--case" => arguments.case = Some(number()?),
            _ => return None,
        }
    }
    Some(arguments)
}

fn main() -> ExitCode {
    let Some(Arguments { seed, cases, case }) = arguments() else {
        eprintln!("usage: mlhe_differential [--long | --cases N] [--seed S] [--case K]");
        return ExitCode::from(2);
    };
    let start = Instant::now();
    let numbers = case.map_or(0..cases, |number| number..number + 1);
    let mut tally = Tally::default();
    for begin in numbers.clone().step_by(TOLD as usize) {
        let end = numbers.end.min(begin + TOLD);
        match shared_tally(seed, &(begin..end)) {
            Ok(more) => tally.add_all(&more),
            Err(Difference { number, what }) => {
                println!("DIFFERENT: {what}; again with --case {number} --seed {seed}");
                return ExitCode::FAILURE;
            }
        }
        if end % TOLD == 0 {
            println!("{end} cases agree");
        }
    }
    if case.is_none() {
        if let Err(what) = greatest_frames(seed, &mut tally) {
            println!("DIFFERENT: a frame of the greatest number of pixels: {what}");
            return ExitCode::FAILURE;
        }
    }
    tally.print();
    let seconds = start.elapsed().as_secs_f64();
    println!("{} cases with {} calls agree, seed {seed}, {seconds:.1} s", numbers.end - numbers.start, tally.calls);
    if case.is_none() && cases >= CASES && !tally.saw_all() {
        println!("some refusal, some kind of accepted call, or a component retoned or kept by one never came up, or");
        println!("no plane that changed by calls of some kind was held against the first by eight neighbours");
        return ExitCode::FAILURE;
    }
    ExitCode::SUCCESS
}
