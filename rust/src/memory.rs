//! Working memory.

/// The working memory of passes and enhancements, 5 bytes for each pixel. It grows to what a call needs and can be used
/// for any number of calls, on planes of any size.
#[derive(Clone, Debug, Default)]
pub struct Memory {
    marks: Vec<u8>,
    queue: Vec<u32>,
}

impl Memory {
    /// Memory that grows with its first call.
    #[must_use]
    pub fn new() -> Self {
        Memory::default()
    }

    /// Memory that has room for so many pixels from the start.
    #[must_use]
    pub fn with_pixels(n: usize) -> Self {
        Memory { marks: vec![0; n], queue: vec![0; n] }
    }

    /// Marks and queue for so many pixels.
    pub(crate) fn lend(&mut self, n: usize) -> (&mut [u8], &mut [u32]) {
        if self.marks.len() < n {
            *self = Memory::with_pixels(n);
        }
        (&mut self.marks, &mut self.queue)
    }
}
