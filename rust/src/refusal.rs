//! Why a call is turned down.

use std::error::Error;
use std::fmt;

/// Why a call is turned down. A call that is turned down changes no lent byte. A later version may have more refusals.
///
/// ```
/// use mlhe::{Frame, Refusal};
///
/// let refused = Frame::new(0, 1, vec![]).unwrap_err();
/// assert_eq!(refused, Refusal::Sides);
/// assert_eq!((refused.number(), refused.reason()), (1, "a side is 0 or above 4,096"));
/// assert_eq!(refused.to_string(), "refused 1: a side is 0 or above 4,096");
/// ```
#[derive(Clone, Copy, Debug, PartialEq, Eq, Hash)]
#[non_exhaustive]
pub enum Refusal {
    /// 1: a side is 0 or above 4,096.
    Sides = 1,
    /// 2: there are more than 1,048,576 pixels.
    Pixels = 2,
    /// 3: the plane is not w × h bytes, or the frame not 3 × w × h.
    Lengths = 3,
    /// 4: marks or queue are shorter than w × h.
    Memory = 4,
    /// 5: a is above b.
    Interval = 5,
    /// 6: the least area is 0 or above 1,048,576.
    Area = 6,
    /// 7: low is above high, or high is above 25,500.
    Limits = 7,
    /// 8: the clip is above 1,000.
    Clip = 8,
    /// 9: the last level is above 7.
    Level = 9,
    /// 10: the header is malformed, or the bytes end in it, be it in a comment.
    Header = 10,
    /// 11: the header's third number is not 255.
    Maxval = 11,
    /// 12: the raster is short.
    Raster = 12,
    /// 13: there are bytes after the raster.
    Trailing = 13,
    /// 14: the output, or the numbers of `mlhe_read` or the counts of a C function, are shorter than needed.
    Output = 14,
    /// 15: a pass list's mark or version is wrong.
    ListMark = 15,
    /// 16: there are more than [`GREATEST_PASSES`](crate::GREATEST_PASSES) passes, or a pass list's length is wrong.
    ListLength = 16,
    /// 17: no such rule, or a number that has to be 0 is set, in a pass list or a C call; or a C call is lent neither
    /// four nor five numbers for its rule and neighbours.
    Rule = 17,
    /// 18: there are 0 segments or more than 16, smin is above smax, or smax is above 10,000.
    Slopes = 18,
    /// 19: the number of neighbours is neither 4 nor 8.
    Neighbours = 19,
    /// 20: a pass with eight neighbours does not fit a pass list of version 1, which a list of version 2 is to become.
    EightNeighbours = 20,
}

impl Refusal {
    /// All refusals, by their numbers from 1 on.
    pub const ALL: &'static [Refusal] = &[
        Refusal::Sides,
        Refusal::Pixels,
        Refusal::Lengths,
        Refusal::Memory,
        Refusal::Interval,
        Refusal::Area,
        Refusal::Limits,
        Refusal::Clip,
        Refusal::Level,
        Refusal::Header,
        Refusal::Maxval,
        Refusal::Raster,
        Refusal::Trailing,
        Refusal::Output,
        Refusal::ListMark,
        Refusal::ListLength,
        Refusal::Rule,
        Refusal::Slopes,
        Refusal::Neighbours,
        Refusal::EightNeighbours,
    ];

    /// The refusal's number, from 1 on.
    #[must_use]
    pub fn number(self) -> u8 {
        self as u8
    }

    /// The refusal in words, as `mlhe_reason` of `include/mlhe.h` has them.
    #[must_use]
    pub fn reason(self) -> &'static str {
        match self {
            Refusal::Sides => "a side is 0 or above 4,096",
            Refusal::Pixels => "there are more than 1,048,576 pixels",
            Refusal::Lengths => "the plane or the frame does not have the length of its sides",
            Refusal::Memory => "the working memory is shorter than the plane",
            Refusal::Interval => "the interval's lower end is above its upper end",
            Refusal::Area => "the least area is 0 or above 1,048,576",
            Refusal::Limits => "low is above high, or high is above 25,500",
            Refusal::Clip => "the clip is above 1,000",
            Refusal::Level => "the last level is above 7",
            Refusal::Header => "the P6 header is malformed, or the file ends in it",
            Refusal::Maxval => "the P6 header's third number is not 255",
            Refusal::Raster => "the raster is short",
            Refusal::Trailing => "there are bytes after the raster",
            Refusal::Output => "the output is too short",
            Refusal::ListMark => "it is no pass list of version 1 or 2",
            Refusal::ListLength => "there are more than 320 passes, or the pass list's length is wrong",
            Refusal::Rule => "there is no such tone rule, or a number that has to be 0 is set",
            Refusal::Slopes => "there are 0 segments or more than 16, smin is above smax, or smax is above 10,000",
            Refusal::Neighbours => "the number of neighbours is neither 4 nor 8",
            Refusal::EightNeighbours => "a pass with eight neighbours does not fit version 1",
        }
    }

    /// What a C function's answer stands for: a refusal k is answered as -k.
    pub(crate) fn of_answer(answer: i64) -> Result<u64, Refusal> {
        match u64::try_from(answer) {
            Ok(value) => Ok(value),
            Err(_) => Err(Refusal::ALL[usize::try_from(-answer - 1).expect("a refusal's number")]),
        }
    }
}

impl fmt::Display for Refusal {
    fn fmt(&self, out: &mut fmt::Formatter<'_>) -> fmt::Result {
        write!(out, "refused {}: {}", self.number(), self.reason())
    }
}

impl Error for Refusal {}

#[cfg(test)]
mod tests {
    use super::*;

    #[test]
    fn numbers_are_places_in_the_list() {
        for (place, &refusal) in Refusal::ALL.iter().enumerate() {
            assert_eq!(usize::from(refusal.number()), place + 1);
            assert_eq!(Refusal::of_answer(-(place as i64) - 1), Err(refusal));
        }
        assert_eq!(Refusal::of_answer(0), Ok(0));
        assert_eq!(Refusal::of_answer(1 << 40), Ok(1 << 40));
    }
}
