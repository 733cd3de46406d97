//! Number 7, which the original does not have.

use crate::call::Outcome;

const PARAM: u32 = 0x04;

/// A greater exponent is refused.
const GREATEST: u32 = 4;

/// Whether an answer of PARAM has an exponent over 4 in either field.
pub const fn too_deep(param: u32) -> bool {
    param & 0xFF > GREATEST || param >> 8 & 0xFF > GREATEST
}

/// Number, outcome and log of a run that ends with 7 right after the first read of
/// PARAM whose answer is refused. The original goes on there: its run is made again
/// with a budget up to there. `run` makes it, with a budget.
pub fn until_too_deep(
    budget: usize,
    refused: impl Fn(u32) -> bool,
    mut run: impl FnMut(usize) -> (Outcome, Vec<u32>),
) -> (Option<u32>, Outcome, Vec<u32>) {
    let (outcome, log) = run(budget);
    let mut made = log[..2 * outcome.accesses].chunks_exact(2);
    let read = made.position(|access| access[0] == PARAM && refused(access[1]));
    let Some(place) = read else {
        return (outcome.number(), outcome, log);
    };
    let (outcome, log) = run(place + 1);
    (Some(7), outcome, log)
}
