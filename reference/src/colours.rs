//! Algorithms 1 and 6: from colours to intensities and back.

use crate::refusals::{self, refuse_if, Refusal, GREATEST_PIXELS};
use crate::tones::rounded;

/// I = round((R + G + B) / 3).
pub(crate) fn mean(pixel: &[u8]) -> u8 {
    let sum: u128 = pixel.iter().map(|&c| u128::from(c)).sum();
    rounded(sum, 3) as u8
}

/// Fills the plane with the intensities of the frame.
pub fn intensity(frame: &[u8], w: usize, h: usize, plane: &mut [u8]) -> Result<(), Refusal> {
    let n = refusals::size(w, h, GREATEST_PIXELS)?;
    refuse_if(plane.len() != n || frame.len() != 3 * n, 3)?;
    for (p, pixel) in frame.chunks(3).enumerate() {
        plane[p] = mean(pixel);
    }
    Ok(())
}

/// Writes the frame into the output with the new intensities of the plane. Output bytes from 3 × n on stay.
pub fn recolour(frame: &[u8], w: usize, h: usize, plane: &[u8], output: &mut [u8]) -> Result<(), Refusal> {
    let n = refusals::size(w, h, GREATEST_PIXELS)?;
    refuse_if(plane.len() != n || frame.len() != 3 * n, 3)?;
    refuse_if(output.len() < 3 * n, 14)?;
    for p in 0..n {
        let old = [frame[3 * p], frame[3 * p + 1], frame[3 * p + 2]];
        output[3 * p..3 * p + 3].copy_from_slice(&recoloured(old, plane[p]));
    }
    Ok(())
}

/// One pixel with the new intensity J.
fn recoloured(pixel: [u8; 3], new: u8) -> [u8; 3] {
    let i = u128::from(mean(&pixel));
    let j = u128::from(new);
    let m = u128::from(pixel[0].max(pixel[1]).max(pixel[2]));
    if i == 0 {
        return [0, 0, 0];
    }
    pixel.map(|channel| {
        let c = u128::from(channel);
        let value = if j * m <= 255 * i { rounded(c * j, i) } else { rounded(255 * c, m) };
        u8::try_from(value).expect("Algorithm 6 stays in 0 to 255")
    })
}
