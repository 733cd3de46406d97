//! What `buslog` reads and prints.

use super::document::shown;
use super::run::{EXAMPLE_LISTING, Left, MAX_BUDGET, listing};
use lpspi_host::raw;
use std::fmt::{self, Debug, Formatter, UpperHex};

pub const BAD: &str = "bad\n";

/// The longest input that may be good.
pub const LONGEST: usize = 131_072;
pub const MOST_ELEMENTS: usize = 512;
pub const MOST_ANSWERS: usize = 8_000;

/// The scope document's example.
pub const EXAMPLE_INPUT: &str = "8 M 20\nA5\n1\n0 404 0 0 404 0 0 404 10000 5A\n";

pub fn example_output() -> String {
    format!("{EXAMPLE_LISTING}\n5A\n0 12 10\n")
}

/// A text of any bytes.
#[derive(PartialEq)]
pub struct Text(pub Vec<u8>);

impl Debug for Text {
    fn fmt(&self, f: &mut Formatter<'_>) -> fmt::Result {
        write!(f, "\"{}\"", self.0.escape_ascii())
    }
}

/// What the port prints. The rest of its buffer must be as found.
pub fn port(input: &[u8]) -> Text {
    static FOUND: [u8; raw::BUSLOG_OUTPUT] = [0xA5; raw::BUSLOG_OUTPUT];
    let mut out = FOUND.to_vec();
    let len = raw::buslog(input, out.first_chunk_mut().expect("it is as long"));
    assert!(out[len..] == FOUND[len..], "{:?}", Text(input.to_vec()));
    out.truncate(len);
    Text(out)
}

/// A run of `exchange_separate` as it is printed.
pub fn printed<W: UpperHex>(left: &Left<W>) -> String {
    let Left {
        number,
        accesses,
        answers,
        ..
    } = left;
    let mut lines = listing(&left.log[..2 * accesses]);
    let digits = 2 * size_of::<W>();
    let elements = left.buffer.iter();
    lines.extend(elements.map(|element| format!("{element:0digits$X}")));
    lines.push(format!("{number} {accesses} {answers}\n"));
    lines.join("\n")
}

/// An exchange of 128 FIFO words with 8,000 answers, written with all digits. The
/// transmit FIFO has no space for the command so often that the run just makes 8,000
/// accesses.
pub fn largest(width: usize) -> String {
    const WORDS: usize = 128;
    let (no_space, ready) = ([0, 0x404, 16], [0, 0x404, 0x1_0000]);
    let mut script = no_space.repeat((MAX_BUDGET - 4 - 8 * WORDS) / 3);
    script.extend(ready.repeat(1 + WORDS));
    for word in 0..WORDS as u32 {
        script.extend(ready);
        script.push(word.wrapping_mul(0x9E37_79B9));
    }
    script.resize(MOST_ANSWERS, 0);
    let script: Vec<_> = script.iter().map(|word| format!("{word:08X}")).collect();

    let (elements, digits) = (WORDS * 32 / width, width / 4);
    let write: Vec<_> = (0..elements)
        .map(|place| format!("{:0digits$X}", place % 0x100))
        .collect();
    let (write, script) = (write.join(" "), script.join(" "));
    format!("{width} M {MAX_BUDGET}\n{write}\n{elements}\n{script}\n")
}

/// The inputs of docs/BUSLOG.md and their listings.
pub fn documented() -> Vec<(String, String)> {
    let pairs = shown("BUSLOG.md", "listing");
    assert!(pairs.len() >= 10, "only {} inputs", pairs.len());
    pairs
}
