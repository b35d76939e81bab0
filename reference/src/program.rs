//! The program, from standard input to standard output.

use crate::enhancement::{enhance, Settings};
use crate::netpbm::{read, write};
use crate::refusals::{refuse_if, Refusal};

/// The longest input of the program.
pub const PROGRAM_BYTES: usize = 65_536;

/// The greatest number of pixels of the program's frame.
pub const PROGRAM_PIXELS: usize = 16_384;

/// The enhanced frame, or the line that says which refusal there was.
pub fn program(input: &[u8]) -> Vec<u8> {
    match enhanced(input) {
        Ok(output) => output,
        Err(number) => format!("refused {number}\n").into_bytes(),
    }
}

fn enhanced(input: &[u8]) -> Result<Vec<u8>, Refusal> {
    refuse_if(input.len() > PROGRAM_BYTES, 13)?;
    let frame = read(input, PROGRAM_PIXELS)?;
    let n = frame.w * frame.h;
    let raster = &input[frame.offset..];
    let mut plane = vec![0; n];
    let mut colours = vec![0; 3 * n];
    enhance(raster, frame.w, frame.h, &Settings::HOUSE, &mut plane, n, n, &mut colours)?;
    let mut output = vec![0; 3 * n + 64];
    let length = write(&colours, frame.w, frame.h, &mut output)?;
    output.truncate(length);
    Ok(output)
}
