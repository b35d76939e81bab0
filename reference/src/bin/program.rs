//! The program as the second implementation has it: one frame on standard input, the answer on standard output.

use std::io::{self, Read, Write};

fn main() -> io::Result<()> {
    let mut input = Vec::new();
    io::stdin().lock().read_to_end(&mut input)?;
    io::stdout().lock().write_all(&mlhe_reference::program(&input))
}
