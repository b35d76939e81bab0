//! The greatest numbers that the calls take, as `include/mlhe.h` has them too.

/// The greatest side of a plane or frame. Sides are from 1 on.
pub const GREATEST_SIDE: usize = 4_096;

/// The greatest number of pixels of a plane or frame, and the greatest least area of a component.
pub const GREATEST_PIXELS: usize = 1_048_576;

/// The most bytes that stand before the raster of a written frame: P6, LF, width, space, height, LF, 255, LF.
pub const GREATEST_HEADER: usize = 17;

/// The most passes of a list.
pub const GREATEST_PASSES: usize = 320;

/// The most bytes of a list: those of as many passes in version 2.
pub const GREATEST_LIST: usize = 7 + 16 * GREATEST_PASSES;

/// The greatest last level of an enhancement.
pub const GREATEST_LEVEL: u8 = 7;

/// The greatest upper limit of the plain rule, in hundredths.
pub const GREATEST_HIGH: u16 = 25_500;

/// The greatest clip of the limited rule, in thousandths.
pub const GREATEST_CLIP: u16 = 1_000;

/// The most segments of the affine rule.
pub const GREATEST_SEGMENTS: u8 = 16;

/// The greatest slope of the affine rule, in hundredths.
pub const GREATEST_SLOPE: u16 = 10_000;
