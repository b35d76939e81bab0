//! P6 frames.

use crate::refusals::{self, refuse_if, Refusal, GREATEST_PIXELS};

/// What the reader answers: the sides and the place of the raster's first byte.
#[derive(Clone, Copy, Debug, PartialEq, Eq)]
pub struct Frame {
    pub w: usize,
    pub h: usize,
    pub offset: usize,
}

/// Reads one frame of at most so many pixels. The whole header is read before any of its numbers is judged, so what is
/// malformed or ended gets 10 whatever else is wrong. What follows the third number is whitespace and never a comment.
pub fn read(bytes: &[u8], limit: usize) -> Result<Frame, Refusal> {
    let mut header = Header { bytes, at: 0 };
    header.magic()?;
    let w = header.number()?;
    let h = header.number()?;
    let maxval = header.number()?;
    header.one_whitespace()?;
    let n = refusals::size(w, h, limit)?;
    refuse_if(maxval != 255, 11)?;
    let offset = header.at;
    refuse_if(bytes.len() - offset < 3 * n, 12)?;
    refuse_if(bytes.len() - offset > 3 * n, 13)?;
    Ok(Frame { w, h, offset })
}

/// A header, read up to a place.
struct Header<'a> {
    bytes: &'a [u8],
    at: usize,
}

impl Header<'_> {
    /// The byte at the place, if there is one.
    fn next(&self) -> Option<u8> {
        self.bytes.get(self.at).copied()
    }

    fn next_is_whitespace(&self) -> bool {
        // Space, TAB, LF, VT, FF, CR.
        matches!(self.next(), Some(32 | 9 | 10 | 11 | 12 | 13))
    }

    fn next_is_number_sign(&self) -> bool {
        self.next() == Some(35)
    }

    fn next_is_line_end(&self) -> bool {
        // LF, CR.
        matches!(self.next(), Some(10 | 13))
    }

    fn next_is_digit(&self) -> bool {
        matches!(self.next(), Some(48..=57))
    }

    /// The bytes P6.
    fn magic(&mut self) -> Result<(), Refusal> {
        refuse_if(!self.bytes.starts_with(b"P6"), 10)?;
        self.at = 2;
        Ok(())
    }

    fn one_whitespace(&mut self) -> Result<(), Refusal> {
        refuse_if(!self.next_is_whitespace(), 10)?;
        self.at += 1;
        Ok(())
    }

    /// A number sign and all up to and including the next LF or CR. One that never ends gets 10.
    fn comment(&mut self) -> Result<(), Refusal> {
        while !self.next_is_line_end() {
            refuse_if(self.next().is_none(), 10)?;
            self.at += 1;
        }
        self.at += 1;
        Ok(())
    }

    /// One whitespace byte, or a comment, which counts as one.
    fn one_whitespace_or_comment(&mut self) -> Result<(), Refusal> {
        if self.next_is_number_sign() {
            self.comment()
        } else {
            self.one_whitespace()
        }
    }

    /// One or more whitespace bytes or comments and 1 to 6 digits. What follows the digits is for the next to judge;
    /// none of them takes a seventh digit.
    fn number(&mut self) -> Result<usize, Refusal> {
        self.one_whitespace_or_comment()?;
        while self.next_is_whitespace() || self.next_is_number_sign() {
            self.one_whitespace_or_comment()?;
        }
        let first = self.at;
        let mut number = 0;
        while self.next_is_digit() && self.at < first + 6 {
            number = 10 * number + usize::from(self.bytes[self.at] - b'0');
            self.at += 1;
        }
        refuse_if(self.at == first, 10)?;
        Ok(number)
    }
}

/// The header that the writer emits.
pub fn header(w: usize, h: usize) -> Vec<u8> {
    format!("P6\n{w} {h}\n255\n").into_bytes()
}

/// Writes a frame and answers its length. Output bytes from that length on stay.
pub fn write(raster: &[u8], w: usize, h: usize, output: &mut [u8]) -> Result<usize, Refusal> {
    let n = refusals::size(w, h, GREATEST_PIXELS)?;
    refuse_if(raster.len() != 3 * n, 3)?;
    let mut bytes = header(w, h);
    bytes.extend(raster);
    refuse_if(output.len() < bytes.len(), 14)?;
    output[..bytes.len()].copy_from_slice(&bytes);
    Ok(bytes.len())
}
