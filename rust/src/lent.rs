//! The calls on memory that the caller lends, with nothing allocated: one safe function for each C function. What is
//! too short or does not fit is refused, and a refused call changes nothing. What is guaranteed is guaranteed of the
//! plane, as the crate's page says.
//!
//! A plane has w columns and h rows, each 1 to 4,096, and n = w × h bytes, at most 1,048,576; a frame has 3 × n bytes,
//! red, green, blue. Marks and queue are working memory of at least n elements with any content; the first n elements
//! are unspecified after an accepted call.
//!
//! ```
//! use mlhe::{lent, Counts, Refusal, Settings};
//!
//! let frame = [10, 10, 10, 20, 20, 20];
//! let (mut plane, mut marks, mut queue, mut output) = ([0; 2], [0; 2], [0; 2], [7; 8]);
//! let settings = Settings::house().with_last(0);
//! // 10 and 20 would become 128 and 255, more than 300 hundredths of the range: they are kept.
//! let counts = lent::enhance(&frame, 2, 1, &settings, &mut plane, &mut marks, &mut queue, &mut output)?;
//! assert_eq!((counts, plane), (Counts { retoned: 0, kept: 1 }, [10, 20]));
//! assert_eq!(output, [10, 10, 10, 20, 20, 20, 7, 7]);
//!
//! let short = &mut queue[..1];
//! let refused = lent::enhance(&frame, 2, 1, &settings, &mut plane, &mut marks, short, &mut output);
//! assert_eq!(refused, Err(Refusal::Memory));
//! # Ok::<(), Refusal>(())
//! ```

use crate::{ffi, Counts, Pass, Refusal, Settings};

/// What reading answers: the sides, and the place of the raster's first byte. A later version may answer more.
#[derive(Clone, Copy, Debug, PartialEq, Eq)]
#[non_exhaustive]
pub struct Header {
    /// The number of columns.
    pub w: usize,
    /// The number of rows.
    pub h: usize,
    /// The place of the raster's first byte: from it on there are 3 × w × h bytes.
    pub offset: usize,
}

/// Reads the header of a P6 frame and measures the rest. Comments are skipped: a number sign where whitespace may
/// stand before one of the three numbers opens one, which goes up to and including the next LF or CR and counts as one
/// whitespace byte. Refusals, in order: 10, 1, 2, 11, 12, 13.
pub fn read(bytes: &[u8]) -> Result<Header, Refusal> {
    let mut numbers = [0; 3];
    // SAFETY: each pointer goes with the length of its memory; `numbers` is writable and apart from `bytes`.
    let answer = unsafe { ffi::mlhe_read(bytes.as_ptr(), bytes.len(), numbers.as_mut_ptr(), numbers.len()) };
    Refusal::of_answer(answer)?;
    let [w, h, offset] = numbers;
    Ok(Header { w, h, offset })
}

/// Writes a P6 frame and answers the number of bytes written. Refusals, in order: 1, 2, 3, 14.
pub fn write(raster: &[u8], w: usize, h: usize, output: &mut [u8]) -> Result<usize, Refusal> {
    // SAFETY: each pointer goes with the length of its slice; what is writable is borrowed alone.
    let answer = unsafe { ffi::mlhe_write(raster.as_ptr(), raster.len(), w, h, output.as_mut_ptr(), output.len()) };
    Refusal::of_answer(answer).map(|length| length as usize)
}

/// Fills a plane with the intensities of a frame. Refusals, in order: 1, 2, 3.
pub fn intensity(frame: &[u8], w: usize, h: usize, plane: &mut [u8]) -> Result<(), Refusal> {
    // SAFETY: each pointer goes with the length of its slice; what is writable is borrowed alone.
    let answer = unsafe { ffi::mlhe_intensity(frame.as_ptr(), frame.len(), w, h, plane.as_mut_ptr(), plane.len()) };
    Refusal::of_answer(answer).map(|_| ())
}

/// Runs one pass over a plane and answers the numbers of retoned and kept components. Refusals, in order: 1 to 8, 18,
/// 19.
pub fn pass(
    plane: &mut [u8],
    marks: &mut [u8],
    queue: &mut [u32],
    w: usize,
    h: usize,
    pass: &Pass,
) -> Result<Counts, Refusal> {
    let rule = pass.rule.lent(pass.neighbours);
    let mut counts = [0; 2];
    // SAFETY: each pointer goes with the length of its memory; what is writable is borrowed alone.
    let answer = unsafe {
        ffi::mlhe_pass(
            plane.as_mut_ptr(),
            plane.len(),
            marks.as_mut_ptr(),
            marks.len(),
            queue.as_mut_ptr(),
            queue.len(),
            w,
            h,
            pass.a,
            pass.b,
            pass.area,
            rule.as_ptr(),
            rule.len(),
            counts.as_mut_ptr(),
            counts.len(),
        )
    };
    Refusal::of_answer(answer).map(|_| Counts::of_lent(counts))
}

/// Runs the passes of a list in its file format, of version 1 or 2, and answers the sums of their counts. All records
/// are checked before the first pass runs. Refusals, in order: 1 to 4, 16 (fewer than 7 bytes), 15, 16, then for each
/// record 17, 5, 6, 7, 8, 18, 19.
pub fn run_list(
    list: &[u8],
    plane: &mut [u8],
    marks: &mut [u8],
    queue: &mut [u32],
    w: usize,
    h: usize,
) -> Result<Counts, Refusal> {
    let mut counts = [0; 2];
    // SAFETY: each pointer goes with the length of its memory; what is writable is borrowed alone.
    let answer = unsafe {
        ffi::mlhe_run_list(
            list.as_ptr(),
            list.len(),
            plane.as_mut_ptr(),
            plane.len(),
            marks.as_mut_ptr(),
            marks.len(),
            queue.as_mut_ptr(),
            queue.len(),
            w,
            h,
            counts.as_mut_ptr(),
            counts.len(),
        )
    };
    Refusal::of_answer(answer).map(|_| Counts::of_lent(counts))
}

/// Converts a list to the other version, 1 to 2 or 2 to 1, into the first bytes of the output, and answers the number
/// of bytes written; [`GREATEST_LIST`](crate::GREATEST_LIST) are always enough. Refusals, in order: 16 (fewer than 7
/// bytes), 15, 16, then for each record 17, 5, 6, 7, 8, 18, 19, then 20, 14.
///
/// ```
/// use mlhe::{lent, Refusal};
///
/// let list = b"MLP\x01\0\x01\0\0\x7f\0\0\x01\0\0\0\0\0\x9c\x63";
/// let mut output = [7; 25];
/// assert_eq!(lent::convert_list(list, &mut output)?, 23);
/// assert_eq!(&output, b"MLP\x02\0\x01\0\0\x7f\0\0\x01\0\0\0\0\0\x9c\x63\x04\0\0\0\x07\x07");
/// assert_eq!(lent::convert_list(&output[..23], &mut [0; 18]), Err(Refusal::Output));
/// # Ok::<(), Refusal>(())
/// ```
pub fn convert_list(list: &[u8], output: &mut [u8]) -> Result<usize, Refusal> {
    // SAFETY: each pointer goes with the length of its slice; what is writable is borrowed alone.
    let answer = unsafe { ffi::mlhe_convert_list(list.as_ptr(), list.len(), output.as_mut_ptr(), output.len()) };
    Refusal::of_answer(answer).map(|length| length as usize)
}

/// Recolours a frame from the new intensities in a plane, into the first bytes of the output. Refusals, in order: 1, 2,
/// 3, 14.
pub fn recolour(frame: &[u8], w: usize, h: usize, plane: &[u8], output: &mut [u8]) -> Result<(), Refusal> {
    // SAFETY: each pointer goes with the length of its slice; what is writable is borrowed alone.
    let answer = unsafe {
        ffi::mlhe_recolour(
            frame.as_ptr(),
            frame.len(),
            w,
            h,
            plane.as_ptr(),
            plane.len(),
            output.as_mut_ptr(),
            output.len(),
        )
    };
    Refusal::of_answer(answer).map(|_| ())
}

/// Enhances a frame: the new intensity is left in the plane and the recoloured frame in the output. The guarantee is of
/// the plane, not of the output's own intensity. Answers the numbers of retoned and kept components, on all levels.
/// Refusals, in order: 1, 2, 3, 4, 14, 9, 6, 7, 8, 18, 19.
#[allow(clippy::too_many_arguments)]
pub fn enhance(
    frame: &[u8],
    w: usize,
    h: usize,
    settings: &Settings,
    plane: &mut [u8],
    marks: &mut [u8],
    queue: &mut [u32],
    output: &mut [u8],
) -> Result<Counts, Refusal> {
    let rule = settings.rule.lent(settings.neighbours);
    let mut counts = [0; 2];
    // SAFETY: each pointer goes with the length of its memory; what is writable is borrowed alone.
    let answer = unsafe {
        ffi::mlhe_enhance(
            frame.as_ptr(),
            frame.len(),
            w,
            h,
            settings.last,
            settings.area,
            rule.as_ptr(),
            rule.len(),
            plane.as_mut_ptr(),
            plane.len(),
            marks.as_mut_ptr(),
            marks.len(),
            queue.as_mut_ptr(),
            queue.len(),
            output.as_mut_ptr(),
            output.len(),
            counts.as_mut_ptr(),
            counts.len(),
        )
    };
    Refusal::of_answer(answer).map(|_| Counts::of_lent(counts))
}
