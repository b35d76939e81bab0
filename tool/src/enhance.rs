//! Runs over all frames of a command.

use crate::arguments::Enhance;
use crate::frame::{self, Answer, Outcome, Work};
use crate::plan::{self, Item, Plan};
use crate::{lists, print, report, save, tell, Stop};
use indicatif::{ProgressBar, ProgressStyle};
use mlhe::Memory;
use rayon::prelude::*;
use std::path::Path;
use std::process::ExitCode;
use std::sync::atomic::{AtomicBool, Ordering};

/// Set by an interrupt: frames that are begun are finished, and no others are begun.
static INTERRUPTED: AtomicBool = AtomicBool::new(false);

/// Enhances the frames that the arguments name.
pub fn run(arguments: &Enhance) -> Result<ExitCode, Stop> {
    let work = match &arguments.list {
        Some(file) => Work::List(lists::read(file).map_err(Stop::Usage)?),
        None => Work::Settings(arguments.settings.settings()?),
    };
    let plan = plan::plan(arguments).map_err(Stop::Usage)?;
    let threads = usize::from(arguments.jobs.unwrap_or(0)); // 0: as many as there are cores
    let pool = rayon::ThreadPoolBuilder::new().num_threads(threads).build();
    let pool = pool.map_err(|error| Stop::Usage(format!("threads: {error}")))?;
    // A second interrupt ends the run at once; what is written then is left under its hidden name.
    let interrupt = || {
        if INTERRUPTED.swap(true, Ordering::SeqCst) {
            std::process::exit(1);
        }
    };
    ctrlc::set_handler(interrupt).map_err(|error| Stop::Usage(format!("interrupts: {error}")))?;

    let bar = bar(plan.items.len());
    let outcomes: Vec<Outcome> = pool.install(|| {
        let frames = plan.items.par_iter().with_max_len(1);
        frames.map_init(Memory::new, |memory, item| one(item, &work, memory, &bar)).collect()
    });
    bar.finish_and_clear();
    ended(&plan, &outcomes, arguments.report.as_deref())
}

/// The progress on a terminal, and nothing in a log.
fn bar(frames: usize) -> ProgressBar {
    let style =
        ProgressStyle::with_template("{bar:30} {pos} of {len} files, {eta} left").expect("the template is sound");
    ProgressBar::new(frames as u64).with_style(style)
}

/// Enhances one frame and tells at once where that went wrong.
fn one(item: &Item, work: &Work, memory: &mut Memory, bar: &ProgressBar) -> Outcome {
    let outcome = match &item.failed {
        Some(reason) => Outcome::failed(reason),
        None if INTERRUPTED.load(Ordering::SeqCst) => Outcome::not_begun(),
        None => frame::enhance(item, work, memory),
    };
    if matches!(outcome.answer, Answer::Refused(_) | Answer::Failed) {
        let line = format!("{}: {}: {}", report::name(&item.source), outcome.answer, outcome.reason);
        if bar.is_hidden() {
            tell(&line);
        } else {
            bar.suspend(|| tell(&line));
        }
    }
    bar.inc(1);
    outcome
}

/// Writes the report, prints the last line and answers the status.
fn ended(plan: &Plan, outcomes: &[Outcome], file: Option<&Path>) -> Result<ExitCode, Stop> {
    let counted = |of: fn(&Answer) -> bool| outcomes.iter().filter(|outcome| of(&outcome.answer)).count();
    let enhanced = counted(|answer| matches!(answer, Answer::Enhanced(_)));
    let refused = counted(|answer| matches!(answer, Answer::Refused(_)));
    let failed = counted(|answer| matches!(answer, Answer::Failed));
    let mut complete = enhanced == outcomes.len();
    if let Some(file) = file {
        let lines = plan.items.iter().zip(outcomes).map(|(item, outcome)| report::line(&item.source, outcome));
        let text: String = std::iter::once(report::HEAD.to_owned()).chain(lines).collect();
        if let Err(error) = save::save(file, text.as_bytes()) {
            tell(&format!("{}: the report cannot be written: {error}", file.display()));
            complete = false;
        }
    }
    if plan.passed_over > 0 {
        tell(&format!("passed over: {} not named .ppm or .pnm, hidden, or links to folders", plan.passed_over));
    }
    let not_begun = outcomes.len() - enhanced - refused - failed;
    if not_begun > 0 {
        tell(&format!("interrupted: {not_begun} not begun"));
    }
    print(&format!("{enhanced} enhanced, {refused} refused, {failed} failed\n"))?;
    Ok(if complete { ExitCode::SUCCESS } else { ExitCode::FAILURE })
}
