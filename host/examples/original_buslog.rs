//! The program `buslog` over the original: reads its input to the end, and writes the
//! listing in one call. The benchmark times the proved program against it.

use std::io::{self, Read, Write};

/// One byte more than the longest input.
const ENOUGH: u64 = 131_073;

fn main() -> io::Result<()> {
    let mut input = Vec::with_capacity(ENOUGH as usize);
    io::stdin().take(ENOUGH).read_to_end(&mut input)?;
    let mut stdout = io::stdout().lock();
    stdout.write_all(&original::buslog(&input))
}
