//! Settings of a driver, of a transaction and of the peripheral.

/// Order of the elements in a FIFO word, and of the bits on the wire.
#[derive(Debug, Clone, Copy, PartialEq, Eq, Default)]
pub enum BitOrder {
    /// Most significant first.
    #[default]
    Msb,
    /// Least significant first.
    Lsb,
}

impl BitOrder {
    /// Both orders.
    pub const ALL: [Self; 2] = [Self::Msb, Self::Lsb];

    /// Whether this is [`BitOrder::Lsb`].
    #[inline]
    pub const fn is_lsb(self) -> bool {
        matches!(self, Self::Lsb)
    }
}

/// The clock's level when idle.
#[derive(Debug, Clone, Copy, PartialEq, Eq, Default)]
pub enum Polarity {
    /// Low: CPOL is 0.
    #[default]
    IdleLow,
    /// High: CPOL is 1.
    IdleHigh,
}

/// The clock's transition at which data is captured.
#[derive(Debug, Clone, Copy, PartialEq, Eq, Default)]
pub enum Phase {
    /// The first: CPHA is 0.
    #[default]
    CaptureOnFirstTransition,
    /// The second: CPHA is 1.
    CaptureOnSecondTransition,
}

/// SPI mode.
#[derive(Debug, Clone, Copy, PartialEq, Eq, Default)]
pub struct Mode {
    /// Clock polarity.
    pub polarity: Polarity,
    /// Clock phase.
    pub phase: Phase,
}

/// CPOL is 0, CPHA is 0.
pub const MODE_0: Mode = Mode {
    polarity: Polarity::IdleLow,
    phase: Phase::CaptureOnFirstTransition,
};

/// CPOL is 0, CPHA is 1.
pub const MODE_1: Mode = Mode {
    polarity: Polarity::IdleLow,
    phase: Phase::CaptureOnSecondTransition,
};

/// CPOL is 1, CPHA is 0.
pub const MODE_2: Mode = Mode {
    polarity: Polarity::IdleHigh,
    phase: Phase::CaptureOnFirstTransition,
};

/// CPOL is 1, CPHA is 1.
pub const MODE_3: Mode = Mode {
    polarity: Polarity::IdleHigh,
    phase: Phase::CaptureOnSecondTransition,
};

impl Mode {
    /// The mode's number: CPOL above CPHA.
    #[inline]
    pub const fn number(self) -> u32 {
        (self.polarity as u32) << 1 | self.phase as u32
    }

    /// The mode of a number, which is taken modulo 4.
    #[inline]
    pub const fn of_number(number: u32) -> Self {
        match number % 4 {
            0 => MODE_0,
            1 => MODE_1,
            2 => MODE_2,
            _ => MODE_3,
        }
    }
}

/// Peripheral chip select.
#[derive(Debug, Clone, Copy, PartialEq, Eq, Default)]
pub enum Pcs {
    /// PCS0.
    #[default]
    Pcs0,
    /// PCS1.
    Pcs1,
    /// PCS2.
    Pcs2,
    /// PCS3.
    Pcs3,
}

impl Pcs {
    /// The chip select's number.
    #[inline]
    pub const fn number(self) -> u32 {
        self as u32
    }

    /// The chip select of a number, which is taken modulo 4.
    #[inline]
    pub const fn of_number(number: u32) -> Self {
        match number % 4 {
            0 => Self::Pcs0,
            1 => Self::Pcs1,
            2 => Self::Pcs2,
            _ => Self::Pcs3,
        }
    }
}

/// The level at which a chip select selects.
#[derive(Debug, Clone, Copy, PartialEq, Eq, Default)]
pub enum PcsPolarity {
    /// Low.
    #[default]
    ActiveLow,
    /// High.
    ActiveHigh,
}

/// When an input bit is sampled.
#[derive(Debug, Clone, Copy, PartialEq, Eq)]
pub enum SamplePoint {
    /// At the clock's edge.
    Edge,
    /// At a delayed edge.
    DelayedEdge,
}
