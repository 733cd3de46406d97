//! Clocks.

use crate::error::{Error, answer};
use crate::raw;

/// Clock configurations: the fields of the register CCR.
#[derive(Debug, Clone, Copy, PartialEq, Eq)]
pub struct ClockConfigs {
    /// SCK-to-PCS delay.
    pub sckpcs: u8,
    /// PCS-to-SCK delay.
    pub pcssck: u8,
    /// Delay between transfers.
    pub dbt: u8,
    /// SCK divider.
    pub sckdiv: u8,
}

impl ClockConfigs {
    /// The clock for a source clock and a wanted SPI clock, which the Rust computes in
    /// `compute_spi_clock`. A clock of 0 is [`Error::ZeroClock`].
    #[inline]
    pub fn from_hz(source_clock_hz: u32, spi_clock_hz: u32) -> Result<Self, Error> {
        let mut word = 0;
        let number = raw::clock(source_clock_hz, spi_clock_hz, &mut word);
        answer(number, Self::from_raw(word))
    }

    /// The word of the register.
    #[inline]
    pub const fn as_raw(self) -> u32 {
        u32::from_be_bytes([self.sckpcs, self.pcssck, self.dbt, self.sckdiv])
    }

    /// The fields of a word of the register.
    #[inline]
    pub const fn from_raw(word: u32) -> Self {
        let [sckpcs, pcssck, dbt, sckdiv] = word.to_be_bytes();
        Self {
            sckpcs,
            pcssck,
            dbt,
            sckdiv,
        }
    }
}
