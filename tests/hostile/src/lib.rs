//! The program's function from bytes to bytes, as the proved library has it, and a generator of damaged input.

mod inputs;

pub use inputs::Inputs;

/// As many bytes as the longest output may have.
pub const OUTPUT: usize = 65_536;

extern "C" {
    fn mlhe_program(input: *const u8, input_length: usize, output: *mut u8) -> usize;
}

/// Writes the program's answer to an input from the beginning of the output on; how many bytes it has.
pub fn program(input: &[u8], output: &mut [u8; OUTPUT]) -> usize {
    // SAFETY: the input is a pointer and its length, and the output has the 65,536 bytes that the function may write.
    unsafe { mlhe_program(input.as_ptr(), input.len(), output.as_mut_ptr()) }
}
