//! `buslog` of the port against that of the original.

mod changes;
mod document;
mod exchanges;
mod faults;
mod input;
mod spoil;

use crate::common::buslog::{Text, port};
use crate::common::cases::Cases;

/// Compares both sides on an input, and gives what the port prints.
fn compare(cases: &mut Cases, input: Vec<u8>) -> Text {
    let (printed, input) = (port(&input), Text(input));
    let judged = || Text(original::buslog(&input.0));
    cases.compare(&input, &printed, judged);
    printed
}
