//! The second implementation behind two C functions, with which the benchmark checks what it measures.

use mlhe_reference::{cases, enhance, pass, Counts, Pass, Rule, Settings};
use std::slice;

/// Both counts, as `published::Counts` has them.
#[repr(C)]
pub struct CheckerCounts {
    retoned: u64,
    kept: u64,
}

impl From<Counts> for CheckerCounts {
    fn from(Counts { retoned, kept }: Counts) -> Self {
        CheckerCounts { retoned, kept }
    }
}

/// A tone rule by its numbers, as `library::Rule` has them.
#[repr(C)]
pub struct CheckerRule {
    code: u8,
    first: u16,
    second: u16,
    segments: u8,
}

impl From<CheckerRule> for Rule {
    fn from(rule: CheckerRule) -> Self {
        cases::rule_of(rule.code, rule.segments, [rule.first, rule.second])
    }
}

/// Enhances a frame. Answers both counts; anything refused ends the benchmark.
///
/// # Safety
///
/// The frame has 3 × w × h bytes, the plane w × h and the output 3 × w × h, and none of them overlap.
#[no_mangle]
pub unsafe extern "C" fn checker_enhance(
    frame: *const u8,
    w: usize,
    h: usize,
    last_level: u32,
    area: u32,
    rule: CheckerRule,
    neighbours: u8,
    plane: *mut u8,
    output: *mut u8,
) -> CheckerCounts {
    let n = w * h;
    // SAFETY: the caller lends so many bytes of each, and none of them overlap.
    let (frame, plane, output) = unsafe {
        let (plane, output) = (slice::from_raw_parts_mut(plane, n), slice::from_raw_parts_mut(output, 3 * n));
        (slice::from_raw_parts(frame, 3 * n), plane, output)
    };
    let settings = Settings { last_level, area, rule: rule.into(), neighbours };
    enhance(frame, w, h, &settings, plane, n, n, output).expect("the benchmark's calls are sound").into()
}

/// Runs one pass. Answers both counts; anything refused ends the benchmark.
///
/// # Safety
///
/// The plane has w × h bytes.
#[no_mangle]
pub unsafe extern "C" fn checker_pass(
    plane: *mut u8,
    w: usize,
    h: usize,
    a: u8,
    b: u8,
    area: u32,
    rule: CheckerRule,
    neighbours: u8,
) -> CheckerCounts {
    let n = w * h;
    // SAFETY: the caller lends so many bytes.
    let plane = unsafe { slice::from_raw_parts_mut(plane, n) };
    let one = Pass { a, b, area, rule: rule.into(), neighbours };
    pass(plane, n, n, w, h, &one).expect("the benchmark's calls are sound").into()
}
