//! What the tests share: random values, and comparisons of runs.

// Each test file uses only a part.
#![allow(dead_code)]

pub mod branches;
pub mod buslog;
pub mod cases;
pub mod command;
pub mod document;
pub mod function;
pub mod program;
pub mod random_runs;
pub mod reference;
pub mod registers;
pub mod run;
pub mod transfer;
pub mod walk;

use cases::Cases;
use command::Command;
use lpspi_host::BitOrder;
use std::sync::OnceLock;
use std::time::{SystemTime, UNIX_EPOCH};

// The build scripts of both packages have found the same: no test of the original is
// ignored where it was built.
const _: () = assert!(original::AVAILABLE == cfg!(original));

/// `LPSPI_SEED`, if set.
fn asked_seed() -> Option<u64> {
    let text = std::env::var("LPSPI_SEED").ok()?;
    Some(text.parse().expect("LPSPI_SEED is a decimal u64"))
}

/// The seed of this run: `LPSPI_SEED` if set, else the time.
fn seed() -> u64 {
    static SEED: OnceLock<u64> = OnceLock::new();
    *SEED.get_or_init(|| {
        asked_seed().unwrap_or_else(|| {
            let now = SystemTime::now().duration_since(UNIX_EPOCH);
            now.expect("the clock is past 1970").as_nanos() as u64
        })
    })
}

/// A xorshift generator, with the cases of its test.
pub struct Random {
    state: u64,
    pub cases: Cases,
}

impl Random {
    /// Starts from the run's seed and prints it.
    pub fn new(test: &'static str) -> Self {
        Self::announced(test, seed())
    }

    /// Starts from `LPSPI_SEED` if set, else from 1, and prints it.
    pub fn fixed(test: &'static str) -> Self {
        Self::announced(test, asked_seed().unwrap_or(1))
    }

    fn announced(test: &'static str, seed: u64) -> Self {
        println!("{test}: LPSPI_SEED={seed}");
        Self::seeded(test, seed)
    }

    /// Starts from a given seed.
    pub fn seeded(test: &'static str, seed: u64) -> Self {
        // The state must not be 0.
        let state = (seed ^ 0x9E37_79B9_7F4A_7C15).max(1);
        Self {
            state,
            cases: Cases::new(test),
        }
    }

    fn next(&mut self) -> u64 {
        self.state ^= self.state << 13;
        self.state ^= self.state >> 7;
        self.state ^= self.state << 17;
        self.state.wrapping_mul(0x2545_F491_4F6C_DD1D)
    }

    pub fn word(&mut self) -> u32 {
        (self.next() >> 32) as u32
    }

    /// A number of a random bit length, so that small ones occur as well.
    pub fn any_size(&mut self) -> u32 {
        let shift = self.word() % 32;
        self.word() >> shift
    }

    /// A number below `limit`, which is not 0.
    pub fn below(&mut self, limit: usize) -> usize {
        self.word() as usize % limit
    }

    /// True `often` times in 256.
    pub fn chance(&mut self, often: u32) -> bool {
        self.word() % 256 < often
    }

    pub fn flag(&mut self) -> bool {
        self.word() & 1 == 1
    }

    pub fn order(&mut self) -> BitOrder {
        BitOrder::ALL[usize::from(self.flag())]
    }

    pub fn bytes(&mut self, len: usize) -> Vec<u8> {
        (0..len).map(|_| self.word() as u8).collect()
    }

    pub fn words(&mut self, len: usize) -> Vec<u32> {
        (0..len).map(|_| self.word()).collect()
    }

    /// A command of the given frame size; mode and PCS go over 3.
    pub fn command(&mut self, frame_size: u32) -> Command {
        Command {
            frame_size,
            byte_swap: self.flag(),
            bit_order: self.order(),
            receive_mask: self.flag(),
            transmit_mask: self.flag(),
            continuous: self.flag(),
            continuing: self.flag(),
            mode: self.any_size(),
            pcs: self.any_size(),
        }
    }
}

/// Byte lengths around the word boundaries of small and large transfers.
pub fn lengths() -> impl Iterator<Item = usize> + Clone {
    (0..=20).chain(60..=68).chain(124..=132).chain(508..=516)
}
