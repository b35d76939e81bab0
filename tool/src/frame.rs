//! One frame: read, enhanced, written.

use crate::plan::Item;
use crate::reasons::{self, Header};
use crate::save::Beside;
use mlhe::{Counts, Frame, Memory, PassList, Plane, Refusal, Settings};
use std::fmt;
use std::fs::File;
use std::io::{self, Read};
use std::path::Path;

/// What is done to a frame.
pub enum Work {
    Settings(Settings),
    List(PassList),
}

/// What became of a file.
pub enum Answer {
    /// The numbers of retoned and kept components.
    Enhanced(Counts),
    /// The number of the refusal.
    Refused(u8),
    Failed,
    NotBegun,
}

impl fmt::Display for Answer {
    fn fmt(&self, out: &mut fmt::Formatter<'_>) -> fmt::Result {
        match self {
            Answer::Enhanced(_) => write!(out, "enhanced"),
            Answer::Refused(number) => write!(out, "refused {number}"),
            Answer::Failed => write!(out, "failed"),
            Answer::NotBegun => write!(out, "not begun"),
        }
    }
}

/// What became of a file, its sides where a header tells them, and why it was not enhanced.
pub struct Outcome {
    pub answer: Answer,
    pub size: Option<(usize, usize)>,
    pub reason: String,
}

impl Outcome {
    pub fn failed(reason: impl Into<String>) -> Outcome {
        Outcome { answer: Answer::Failed, size: None, reason: reason.into() }
    }

    pub fn not_begun() -> Outcome {
        Outcome { answer: Answer::NotBegun, size: None, reason: "interrupted".to_owned() }
    }
}

/// How many bytes of a file are read: as many as any frame that fits has, with a header of up to a megabyte. So memory
/// is bounded, whatever lies in a folder.
const LONGEST: usize = 4 * 1_048_576;

/// Enhances a file to its targets.
pub fn enhance(item: &Item, work: &Work, memory: &mut Memory) -> Outcome {
    let (bytes, length) = match first_bytes(&item.source) {
        Ok(read) => read,
        Err(error) => return Outcome::failed(format!("it cannot be read: {error}")),
    };
    let frame = match Frame::from_p6(&bytes) {
        answer if length > LONGEST as u64 && goes_on(&answer, &bytes) => return Outcome::failed(TOO_LONG),
        Ok(frame) => frame,
        Err(refusal) => return refused(refusal, &bytes, length),
    };
    drop(bytes);
    let (recoloured, plane, counts) = match enhanced(&frame, work, memory) {
        Ok(enhanced) => enhanced,
        Err(refusal) => return refused(refusal, &[], 0),
    };
    let size = Some((frame.width(), frame.height()));
    match write(item, &recoloured, &plane) {
        Ok(()) => Outcome { answer: Answer::Enhanced(counts), size, reason: String::new() },
        Err(error) => Outcome { size, ..Outcome::failed(format!("it cannot be written: {error}")) },
    }
}

/// Why a frame is not read whose header, with white space and comments, is longer than a megabyte.
const TOO_LONG: &str =
    "its header is too long (4 MiB of a file are read): save it with less white space and shorter comments";

/// Whether the first bytes of a longer file are the beginning of a frame, or of a header, that goes on.
fn goes_on(answer: &Result<Frame, Refusal>, bytes: &[u8]) -> bool {
    match answer {
        Ok(_) | Err(Refusal::Raster) => true,
        Err(Refusal::Header) => reasons::ends_in_header(bytes),
        Err(_) => false,
    }
}

/// The first bytes of a file, one more than the longest if it is longer, and its length.
fn first_bytes(file: &Path) -> io::Result<(Vec<u8>, u64)> {
    let file = File::open(file)?;
    let length = file.metadata()?.len();
    let mut bytes = Vec::with_capacity(LONGEST.min(length as usize) + 1);
    file.take(LONGEST as u64 + 1).read_to_end(&mut bytes)?;
    let length = length.max(bytes.len() as u64);
    Ok((bytes, length))
}

fn refused(refusal: Refusal, bytes: &[u8], length: u64) -> Outcome {
    let size = match bytes.starts_with(b"P6").then(|| reasons::header(bytes)) {
        Some(Header::Whole { w, h, .. }) => Some((w, h)),
        _ => None,
    };
    let reason = reasons::reason(refusal, bytes, length);
    Outcome { answer: Answer::Refused(refusal.number()), size, reason }
}

/// The recoloured frame, the plane that it is recoloured from, and the numbers of retoned and kept components.
fn enhanced(frame: &Frame, work: &Work, memory: &mut Memory) -> Result<(Frame, Plane, Counts), Refusal> {
    match work {
        Work::Settings(settings) => {
            let enhanced = frame.enhanced(settings, memory)?;
            Ok((enhanced.frame, enhanced.plane, enhanced.counts))
        }
        Work::List(list) => {
            let mut plane = frame.intensity();
            let counts = plane.run(list, memory);
            Ok((frame.recoloured(&plane)?, plane, counts))
        }
    }
}

/// Writes the frame, and the plane where it is asked for: both are whole before either is renamed into its place.
fn write(item: &Item, frame: &Frame, plane: &Plane) -> io::Result<()> {
    let written = Beside::write(&item.target, &frame.to_p6())?;
    if let Some(target) = &item.plane {
        Beside::write(target, &pgm(plane))?.into_place()?;
    }
    written.into_place()
}

/// A plane as a PGM file (P5).
fn pgm(plane: &Plane) -> Vec<u8> {
    let mut file = format!("P5\n{} {}\n255\n", plane.width(), plane.height()).into_bytes();
    file.extend(plane.values());
    file
}
