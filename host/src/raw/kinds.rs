//! The calls that a C function has, by their numbers there.

/// The transfers of [`transfer`](super::transfer).
#[derive(Debug, Clone, Copy, PartialEq, Eq)]
#[repr(u32)]
pub enum Transfer {
    /// Of `read` and `write`.
    ExchangeSeparate = 0,
    /// Of `read`.
    Exchange = 1,
    /// Of `write`.
    WriteNoRead = 2,
    /// Of `read`.
    ReadNoWrite = 3,
}

impl Transfer {
    /// All, by their numbers.
    pub const ALL: [Self; 4] = [
        Self::ExchangeSeparate,
        Self::Exchange,
        Self::WriteNoRead,
        Self::ReadNoWrite,
    ];
}

/// The calls of [`reset`](super::reset), which have no parameters.
#[derive(Debug, Clone, Copy, PartialEq, Eq)]
#[repr(u32)]
pub enum Reset {
    /// Restores the settings, the clock from the cache.
    SoftReset = 0,
    /// Also clears both error flags.
    RecoverFromError = 1,
    /// Gives the starting driver value.
    Init = 2,
}

/// The calls of [`set`](super::set).
#[derive(Debug, Clone, Copy, PartialEq, Eq)]
#[repr(u32)]
pub enum Set {
    /// `a` has the flags.
    ClearStatus = 0,
    /// `a` is odd to enable.
    SetEnable = 1,
    /// `a` is the direction, even for Tx.
    ClearFifo = 2,
    /// `a` is the word.
    EnqueueData = 3,
    /// `a` is the frame size.
    EnqueueTransaction = 4,
}

/// The calls of [`disabled`](super::disabled).
#[derive(Debug, Clone, Copy, PartialEq, Eq)]
#[repr(u32)]
pub enum Disabled {
    /// `a` is the source clock, `b` the wanted one.
    SetClockHz = 0,
    /// `a` is the CCR word.
    SetClockConfigs = 1,
    /// `a` is odd for a delayed edge.
    SetSamplePoint = 2,
    /// `a` is odd to become a peripheral.
    SetPeripheralEnable = 3,
    /// `a` is the chip select, `b` is odd for active high.
    SetChipSelectPolarity = 4,
}

/// The calls of [`get`](super::get).
#[derive(Debug, Clone, Copy, PartialEq, Eq)]
#[repr(u32)]
pub enum Get {
    /// `a` is the direction, even for Tx. The value is the level.
    Watermark = 0,
    /// `a` is the direction, `b` the level. The value is the level set.
    SetWatermark = 1,
    /// The value has the flags.
    Status = 2,
    /// The value is 1 or 0.
    IsEnabled = 3,
    /// The value has `rxcount`, `txcount`, `rxcap` and `txcap`, 16 bits each, the first lowest.
    FifoStatus = 4,
    /// The value has the word, and bit 32 set; or it is 0.
    ReadData = 5,
}

/// The events of [`trial`](super::trial).
#[derive(Debug, Clone, Copy, PartialEq, Eq)]
#[repr(u8)]
pub enum Event {
    /// The gate's next access.
    GateStep = 0,
    /// The same, with the busy bit that SR shows.
    GateBusyStep = 1,
    /// The antenna's next access.
    AntennaStep = 2,
    /// The same, with the busy bit.
    AntennaBusyStep = 3,
    /// A word goes each way.
    Clock = 4,
    /// Noise sets the gate's flag T.
    GateTxNoise = 5,
    /// Noise sets the gate's flag R.
    GateRxNoise = 6,
    /// Noise sets the antenna's flag T.
    AntennaTxNoise = 7,
    /// Noise sets the antenna's flag R.
    AntennaRxNoise = 8,
}

impl Event {
    /// All, by their numbers.
    pub const ALL: [Self; 9] = [
        Self::GateStep,
        Self::GateBusyStep,
        Self::AntennaStep,
        Self::AntennaBusyStep,
        Self::Clock,
        Self::GateTxNoise,
        Self::GateRxNoise,
        Self::AntennaTxNoise,
        Self::AntennaRxNoise,
    ];

    /// The numbers of events.
    #[inline]
    pub const fn numbers(events: &[Self]) -> &[u8] {
        // Safety: an event is a u8.
        unsafe { std::slice::from_raw_parts(events.as_ptr().cast(), events.len()) }
    }
}
