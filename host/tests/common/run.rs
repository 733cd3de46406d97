//! Runs: their limits, and all that they leave.

use super::registers::WRITE;
use lpspi_host::Run;
use std::fmt::{self, Debug, Formatter};
use std::sync::LazyLock;

pub const MAX_BUDGET: usize = 8_000;

/// The scope document's example, an exchange of A5 with 5A: script and accesses.
pub const EXAMPLE_SCRIPT: [u32; 10] = [0, 0x404, 0, 0, 0x404, 0, 0, 0x404, 0x10000, 0x5A];
pub const EXAMPLE_LISTING: &str = "\
R 14 00000000
R 04 00000404
R 5C 00000000
W 60 00000007
R 14 00000000
R 04 00000404
R 5C 00000000
W 64 000000A5
R 14 00000000
R 04 00000404
R 5C 00010000
R 74 0000005A";

/// What a log holds before a run.
pub fn found(len: usize) -> Vec<u32> {
    static FOUND: LazyLock<Vec<u32>> = LazyLock::new(|| {
        (0..2 * MAX_BUDGET as u32 + 16)
            .map(|place| place.wrapping_mul(0x9E37_79B9) ^ 0xDEAD_BEEF)
            .collect()
    });
    FOUND[..len].to_vec()
}

/// The accesses as `buslog` prints them.
pub fn listing(log: &[u32]) -> Vec<String> {
    log.chunks_exact(2)
        .map(|pair| {
            let kind = if pair[0] < WRITE { 'R' } else { 'W' };
            format!("{kind} {:02X} {:08X}", pair[0] % WRITE, pair[1])
        })
        .collect()
}

/// Budget, length of the log and script of a run.
#[derive(Debug, Clone)]
pub struct Limits {
    pub budget: usize,
    pub log_len: usize,
    pub script: Vec<u32>,
}

impl Limits {
    /// Limits with a log that just has room for the budget.
    pub fn new(budget: usize, script: &[u32]) -> Self {
        Self {
            budget,
            log_len: 2 * budget,
            script: script.to_vec(),
        }
    }

    /// Whether a run is refused with number 5.
    pub fn refused(&self) -> bool {
        self.budget > MAX_BUDGET || self.log_len < 2 * self.budget
    }
}

/// What cut a run off.
#[derive(Debug, Clone, Copy, PartialEq, Eq, PartialOrd, Ord)]
pub enum Cause {
    Budget,
    Script,
}

/// All that a run leaves.
#[derive(PartialEq)]
pub struct Left<W> {
    pub number: u32,
    pub driver: u32,
    pub accesses: usize,
    pub answers: usize,
    /// The call's own value, as the C functions give it.
    pub value: u64,
    /// The buffer that the call may receive into.
    pub buffer: Vec<W>,
    pub log: Vec<u32>,
}

impl<W> Left<W> {
    /// What a run without a value leaves.
    pub fn new(run: Run, buffer: Vec<W>, log: Vec<u32>) -> Self {
        Self {
            number: run.number(),
            driver: run.driver.number(),
            accesses: run.accesses,
            answers: run.answers,
            value: 0,
            buffer,
            log,
        }
    }

    /// The accesses made: register and value.
    pub fn made(&self) -> impl Iterator<Item = (u32, u32)> + '_ {
        let made = self.log[..2 * self.accesses].chunks_exact(2);
        made.map(|pair| (pair[0], pair[1]))
    }

    /// What a stopped run was cut off by. Where both are used up it is the budget.
    pub fn cause(&self, limits: &Limits) -> Cause {
        assert_eq!(self.number, 4);
        if self.accesses == limits.budget {
            return Cause::Budget;
        }
        assert_eq!(self.answers, limits.script.len());
        Cause::Script
    }
}

impl<W: Debug> Debug for Left<W> {
    /// Shows the log as far as it was changed.
    fn fmt(&self, f: &mut Formatter<'_>) -> fmt::Result {
        let found = found(self.log.len());
        let kept = self.log.iter().zip(&found).rev();
        let changed = self.log.len() - kept.take_while(|(log, found)| log == found).count();
        let log = listing(&self.log[..changed.next_multiple_of(2).min(self.log.len())]);
        f.debug_struct("Left")
            .field("number", &self.number)
            .field("driver", &self.driver)
            .field("accesses", &self.accesses)
            .field("answers", &self.answers)
            .field("value", &self.value)
            .field("buffer", &self.buffer)
            .field("log", &log.join(", "))
            .finish()
    }
}
