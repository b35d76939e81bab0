//! Enhances one P6 frame of any allowed size. Comments in its header are skipped, and not written. The tool in
//! `tool/` does folders, and more.
//!
//!     cargo run --release --example enhance -- [LIST.mlp] IN.ppm OUT.ppm
//!
//! The frame is enhanced with the house setting, or with the passes of a list, of version 1 or 2. It is written beside
//! its place and renamed into it, so that an earlier file is replaced by a whole one or not at all. One line says what
//! was done, with the numbers of components retoned and kept back. On an error the status is 1, and 2 where the
//! arguments are wrong.

use mlhe::{Counts, Frame, Memory, PassList, Refusal, Settings};
use std::error::Error;
use std::ffi::OsString;
use std::fs::{self, OpenOptions};
use std::io::{self, Write};
use std::path::{Path, PathBuf};
use std::process::ExitCode;

fn main() -> ExitCode {
    let arguments: Vec<PathBuf> = std::env::args_os().skip(1).map(PathBuf::from).collect();
    let done = match arguments.as_slice() {
        [input, output] => run(None, input, output),
        [list, input, output] => run(Some(list), input, output),
        _ => {
            eprintln!("usage: enhance [LIST.mlp] IN.ppm OUT.ppm");
            return ExitCode::from(2);
        }
    };
    match done {
        Ok(()) => ExitCode::SUCCESS,
        Err(error) => {
            eprintln!("enhance: {error}");
            ExitCode::FAILURE
        }
    }
}

/// An error with the file that it is about.
fn about<E: Error>(file: &Path) -> impl Fn(E) -> String + '_ {
    move |error| format!("{}: {error}", file.display())
}

fn run(list: Option<&PathBuf>, input: &Path, output: &Path) -> Result<(), String> {
    let frame = Frame::from_p6(&fs::read(input).map_err(about(input))?).map_err(about(input))?;
    let list = match list {
        Some(file) => Some(PassList::from_bytes(&fs::read(file).map_err(about(file))?).map_err(about(file))?),
        None => None,
    };
    let (recoloured, counts) = enhanced(&frame, list.as_ref()).map_err(about(input))?;
    if fs::metadata(output).is_ok_and(|metadata| !metadata.is_file()) {
        return Err(format!("{}: it is there and no file", output.display()));
    }
    if fs::canonicalize(output).is_ok_and(|output| fs::canonicalize(input).is_ok_and(|input| input == output)) {
        return Err(format!("{}: it is the input", output.display()));
    }
    save(output, &recoloured.to_p6()).map_err(about(output))?;
    let sides = format!("{} x {}", frame.width(), frame.height());
    let Counts { retoned, kept } = counts;
    println!("{}: {sides}, {retoned} components retoned, {kept} kept, {}", input.display(), output.display());
    Ok(())
}

/// The recoloured frame and the numbers of retoned and kept components. What is guaranteed is guaranteed of the plane:
/// a program that matches spots keeps `enhanced.plane`, or here `plane`.
fn enhanced(frame: &Frame, list: Option<&PassList>) -> Result<(Frame, Counts), Refusal> {
    let mut memory = Memory::new();
    let Some(list) = list else {
        let enhanced = frame.enhanced(&Settings::house(), &mut memory)?;
        return Ok((enhanced.frame, enhanced.counts));
    };
    let mut plane = frame.intensity();
    let counts = plane.run(list, &mut memory);
    Ok((frame.recoloured(&plane)?, counts))
}

/// Writes a whole file, or leaves what is there.
fn save(file: &Path, bytes: &[u8]) -> io::Result<()> {
    let name = file.file_name().ok_or(io::ErrorKind::InvalidInput)?;
    let mut part = OsString::from(".");
    part.push(name);
    part.push(format!(".{}.part", std::process::id()));
    let part = file.with_file_name(part);
    let mut written = OpenOptions::new().write(true).create_new(true).open(&part)?;
    let done = written.write_all(bytes).and_then(|()| written.sync_all()).and_then(|()| fs::rename(&part, file));
    if done.is_err() {
        // It was made above, by this process.
        let _ = fs::remove_file(&part);
    }
    done
}
