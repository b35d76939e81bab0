//! `zopykue`: enhances folders of frames on the proved library. This package reads, plans, writes and reports; what a
//! frame becomes is the library's.

mod arguments;
mod enhance;
mod frame;
mod list_reasons;
mod lists;
mod plan;
mod reasons;
mod report;
mod save;

use arguments::{Arguments, Command};
use clap::Parser;
use std::io::{self, ErrorKind, Write};
use std::process::ExitCode;

/// How a run ends where nothing was done.
pub enum Stop {
    /// The command asks for what cannot be: status 2, before any work.
    Usage(String),
    /// A file is refused, or cannot be read or written: status 1.
    Failed(String),
}

fn main() -> ExitCode {
    let ended = match Arguments::parse().command {
        Command::Enhance(arguments) => enhance::run(&arguments),
        Command::List(arguments) => lists::run(&arguments),
    };
    match ended {
        Ok(code) => code,
        Err(Stop::Usage(what)) => {
            tell(&what);
            ExitCode::from(2)
        }
        Err(Stop::Failed(what)) => {
            tell(&what);
            ExitCode::FAILURE
        }
    }
}

/// A line on standard error. That it cannot be written there is no reason to stop.
pub fn tell(what: &str) {
    let _ = writeln!(io::stderr(), "zopykue: {what}");
}

/// Text on standard output. A reader that has gone is no error.
pub fn print(text: &str) -> Result<(), Stop> {
    let mut out = io::stdout().lock();
    match out.write_all(text.as_bytes()).and_then(|()| out.flush()) {
        Err(error) if error.kind() != ErrorKind::BrokenPipe => Err(Stop::Failed(format!("standard output: {error}"))),
        _ => Ok(()),
    }
}
