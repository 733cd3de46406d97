//! Stands in for embedded-hal 0.2: what lpspi.rs uses of it.
#![no_std]

/// Modes.
pub mod spi {
    /// Clock polarity.
    #[derive(Debug, Clone, Copy, PartialEq, Eq)]
    pub enum Polarity {
        /// The clock is low when idle.
        IdleLow,
        /// The clock is high when idle.
        IdleHigh,
    }

    /// Clock phase.
    #[derive(Debug, Clone, Copy, PartialEq, Eq)]
    pub enum Phase {
        /// Data is captured on the first clock transition.
        CaptureOnFirstTransition,
        /// Data is captured on the second clock transition.
        CaptureOnSecondTransition,
    }

    /// SPI mode.
    #[derive(Debug, Clone, Copy, PartialEq, Eq)]
    pub struct Mode {
        /// Clock polarity.
        pub polarity: Polarity,
        /// Clock phase.
        pub phase: Phase,
    }

    /// CPOL = 0, CPHA = 0.
    pub const MODE_0: Mode = Mode {
        polarity: Polarity::IdleLow,
        phase: Phase::CaptureOnFirstTransition,
    };

    /// CPOL = 0, CPHA = 1.
    pub const MODE_1: Mode = Mode {
        polarity: Polarity::IdleLow,
        phase: Phase::CaptureOnSecondTransition,
    };

    /// CPOL = 1, CPHA = 0.
    pub const MODE_2: Mode = Mode {
        polarity: Polarity::IdleHigh,
        phase: Phase::CaptureOnFirstTransition,
    };

    /// CPOL = 1, CPHA = 1.
    pub const MODE_3: Mode = Mode {
        polarity: Polarity::IdleHigh,
        phase: Phase::CaptureOnSecondTransition,
    };
}

/// Blocking traits.
pub mod blocking {
    /// SPI.
    pub mod spi {
        /// Sends and receives in place.
        pub trait Transfer<W> {
            type Error;
            fn transfer<'w>(&mut self, words: &'w mut [W]) -> Result<&'w [W], Self::Error>;
        }

        /// Sends only.
        pub trait Write<W> {
            type Error;
            fn write(&mut self, words: &[W]) -> Result<(), Self::Error>;
        }
    }
}
