//! The tests that several calls share, each answering the number of its refusal.

use crate::components::{EIGHT, FOUR};
use crate::Rule;

/// The number of a refusal, 1 to 20.
pub type Refusal = u8;

/// The greatest width and the greatest height.
pub const GREATEST_SIDE: usize = 4_096;

/// The greatest number of pixels of a plane.
pub const GREATEST_PIXELS: usize = 1_048_576;

/// The greatest upper limit of the plain rule, in hundredths.
const GREATEST_HIGH: u32 = 25_500;

/// The greatest clip of the limited rule, in thousandths.
const GREATEST_CLIP: u32 = 1_000;

/// The greatest number of segments of the affine rule.
const GREATEST_SEGMENTS: u32 = 16;

/// The greatest slope of the affine rule, in hundredths.
const GREATEST_SLOPE: u32 = 10_000;

/// Refuses with the number if the test passes.
pub(crate) fn refuse_if(test: bool, number: Refusal) -> Result<(), Refusal> {
    if test {
        Err(number)
    } else {
        Ok(())
    }
}

/// 1 and 2. Answers n, the number of pixels. The sides are tested before they are multiplied, so any two numbers will
/// do as sides.
pub(crate) fn size(w: usize, h: usize, limit: usize) -> Result<usize, Refusal> {
    let possible = 1..=GREATEST_SIDE;
    refuse_if(!possible.contains(&w) || !possible.contains(&h), 1)?;
    refuse_if(w * h > limit, 2)?;
    Ok(w * h)
}

/// 4.
pub(crate) fn memory(marks_len: usize, queue_len: usize, n: usize) -> Result<(), Refusal> {
    refuse_if(marks_len < n || queue_len < n, 4)
}

/// 6. The bound is the greatest plane's, not that of the plane at hand.
pub(crate) fn area(area: u32) -> Result<(), Refusal> {
    refuse_if(area == 0 || area as usize > GREATEST_PIXELS, 6)
}

/// 7 for the plain rule, 8 for the limited rule, 18 for the affine rule.
pub(crate) fn rule(rule: &Rule) -> Result<(), Refusal> {
    match *rule {
        Rule::Plain { low, high } => refuse_if(low > high || high > GREATEST_HIGH, 7),
        Rule::Limited { k } => refuse_if(k > GREATEST_CLIP, 8),
        Rule::Affine { segments, smin, smax } => {
            let possible = 1..=GREATEST_SEGMENTS;
            refuse_if(!possible.contains(&segments) || smin > smax || smax > GREATEST_SLOPE, 18)
        }
    }
}

/// 19.
pub(crate) fn neighbours(neighbours: u8) -> Result<(), Refusal> {
    refuse_if(neighbours != FOUR && neighbours != EIGHT, 19)
}
