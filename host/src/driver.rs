//! The driver value, and what a run came to.

use crate::error::{Error, answer};
use crate::{BitOrder, Mode, Pcs};

/// DBT and SCKDIV as they were last set.
#[derive(Debug, Clone, Copy, PartialEq, Eq, Default)]
pub struct CcrCache {
    /// Delay between transfers.
    pub dbt: u8,
    /// SCK divider.
    pub sckdiv: u8,
}

/// The driver value: what the Rust's driver holds beside the registers. The default is the one
/// after [`init`](crate::init).
#[derive(Debug, Clone, Copy, PartialEq, Eq, Default)]
pub struct Lpspi {
    /// Bit order.
    pub bit_order: BitOrder,
    /// SPI mode.
    pub mode: Mode,
    /// Chip select.
    pub pcs: Pcs,
    /// The clock's cache.
    pub ccr_cache: CcrCache,
}

impl Lpspi {
    /// The number in the C form: SCKDIV in bits 7..0, DBT in 15..8, the chip
    /// select in 17..16, the mode in 19..18, bit 20 for LSB.
    #[inline]
    pub const fn number(self) -> u32 {
        (self.bit_order.is_lsb() as u32) << 20
            | self.mode.number() << 18
            | self.pcs.number() << 16
            | (self.ccr_cache.dbt as u32) << 8
            | self.ccr_cache.sckdiv as u32
    }

    /// The driver of a number. Higher bits do not count; runs leave them as found.
    #[inline]
    pub const fn of_number(number: u32) -> Self {
        let bit_order = match number >> 20 & 1 {
            0 => BitOrder::Msb,
            _ => BitOrder::Lsb,
        };
        Self {
            bit_order,
            mode: Mode::of_number(number >> 18),
            pcs: Pcs::of_number(number >> 16),
            ccr_cache: CcrCache {
                dbt: (number >> 8) as u8,
                sckdiv: number as u8,
            },
        }
    }
}

/// What a run came to.
#[derive(Debug, Clone, Copy, PartialEq, Eq)]
pub struct Run {
    /// How it ended.
    pub result: Result<(), Error>,
    /// Register accesses made, which is the log's length in pairs.
    pub accesses: usize,
    /// Answers of the script used.
    pub answers: usize,
    /// The next driver value.
    pub driver: Lpspi,
}

impl Run {
    /// The result's number in the scope document.
    pub const fn number(&self) -> u32 {
        match self.result {
            Ok(()) => 0,
            Err(error) => error.number(),
        }
    }

    /// Runs a call that gives a number, and the next driver value, accesses and
    /// answers.
    #[inline]
    pub(crate) fn of(
        driver: Lpspi,
        call: impl FnOnce(&mut u32, &mut usize, &mut usize) -> u32,
    ) -> Self {
        let (mut driver, mut accesses, mut answers) = (driver.number(), 0, 0);
        let number = call(&mut driver, &mut accesses, &mut answers);
        Self {
            result: answer(number, ()),
            accesses,
            answers,
            driver: Lpspi::of_number(driver),
        }
    }
}
