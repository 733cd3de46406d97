//! Calls and what they come to.

/// Data direction.
#[derive(Debug, Clone, Copy, PartialEq, Eq)]
pub enum Direction {
    /// Transmit.
    Tx,
    /// Receive.
    Rx,
}

/// The driver's value: its settings and its clock cache.
#[derive(Debug, Clone, Copy, PartialEq, Eq, Default)]
pub struct Driver {
    /// Least significant bit first.
    pub lsb: bool,
    /// SPI mode number, taken modulo 4: bit 1 is CPOL, bit 0 is CPHA.
    pub mode: u8,
    /// Chip select number, taken modulo 4.
    pub pcs: u8,
    /// Cached delay between transfers.
    pub dbt: u8,
    /// Cached SCK divider.
    pub sckdiv: u8,
}

/// The fields of CCR.
#[derive(Debug, Clone, Copy, PartialEq, Eq, Default)]
#[allow(missing_docs)]
pub struct ClockConfigs {
    pub sckpcs: u8,
    pub pcssck: u8,
    pub dbt: u8,
    pub sckdiv: u8,
}

/// The settings of a command.
#[derive(Debug, Clone, Copy, PartialEq, Eq, Default)]
#[allow(missing_docs)]
pub struct Command {
    pub frame_size: u16,
    pub byte_swap: bool,
    pub lsb: bool,
    pub receive_mask: bool,
    pub transmit_mask: bool,
    pub continuous: bool,
    pub continuing: bool,
    /// Taken modulo 4.
    pub mode: u8,
    /// Taken modulo 4.
    pub pcs: u8,
}

/// A transfer of elements of type `W`.
#[derive(Debug)]
pub enum Transfer<'a, W> {
    /// `exchange_separate`
    ExchangeSeparate {
        /// Received into.
        read: &'a mut [W],
        /// Sent.
        write: &'a [W],
    },
    /// `exchange`
    Exchange(&'a mut [W]),
    /// `write_no_read`
    WriteNoRead(&'a [W]),
    /// `read_no_write`
    ReadNoWrite(&'a mut [W]),
}

/// An element of a transfer.
pub trait Element: Copy {
    /// The call that makes a transfer of this type.
    fn call(transfer: Transfer<'_, Self>) -> Call<'_>;
}

impl Element for u8 {
    fn call(transfer: Transfer<'_, Self>) -> Call<'_> {
        Call::U8(transfer)
    }
}

impl Element for u16 {
    fn call(transfer: Transfer<'_, Self>) -> Call<'_> {
        Call::U16(transfer)
    }
}

impl Element for u32 {
    fn call(transfer: Transfer<'_, Self>) -> Call<'_> {
        Call::U32(transfer)
    }
}

/// A call of the driver, named as its function.
#[derive(Debug)]
#[allow(missing_docs)]
pub enum Call<'a> {
    U8(Transfer<'a, u8>),
    U16(Transfer<'a, u16>),
    U32(Transfer<'a, u32>),
    Flush,
    SoftReset,
    RecoverFromError,
    /// Its driver takes the place of the given one.
    Init,
    Watermark(Direction),
    SetWatermark(Direction, u8),
    Status,
    /// All bits are passed, named by `Status` or not.
    ClearStatus(u32),
    IsEnabled,
    SetEnable(bool),
    ClearFifo(Direction),
    FifoStatus,
    ReadData,
    EnqueueData(u32),
    /// Of a `Transaction` of so many bits, with the driver's bit order, mode and chip
    /// select.
    EnqueueTransaction {
        frame_size: u32,
    },
    SetClockHz {
        source_hz: u32,
        clock_hz: u32,
    },
    SetClockConfigs(ClockConfigs),
    SetSamplePoint {
        delayed: bool,
    },
    SetPeripheralEnable(bool),
    SetChipSelectPolarity {
        /// Taken modulo 4.
        pcs: u8,
        active_high: bool,
    },
    /// `disabled` with a closure that sets nothing.
    NoSetting,
    /// `disabled` with a closure that sets both.
    SetSamplePointAndPeripheral {
        delayed: bool,
        enable: bool,
    },
}

/// The words in each FIFO and its depth; as published, PARAM's field.
#[derive(Debug, Clone, Copy, PartialEq, Eq, Default)]
#[allow(missing_docs)]
pub struct FifoStatus {
    pub rxcount: u16,
    pub txcount: u16,
    pub rxcap: u16,
    pub txcap: u16,
}

/// What a call returns.
#[derive(Debug, Clone, Copy, PartialEq, Eq)]
pub enum Value {
    /// Nothing.
    Unit,
    /// Of `is_enabled`.
    Enabled(bool),
    /// Of `watermark` and `set_watermark`.
    Level(u8),
    /// The bits of `status`.
    Status(u32),
    /// Of `fifo_status`.
    FifoStatus(FifoStatus),
    /// Of `read_data`.
    Data(Option<u32>),
}

/// Why a call did not return a value.
#[derive(Debug, Clone, Copy, PartialEq, Eq)]
pub enum Failure {
    /// The frame size is not accepted.
    FrameSize,
    /// FIFO error in the given direction.
    Fifo(Direction),
    /// The budget was used up, or a read found the script used up.
    Stopped,
    /// The original panicked.
    Panicked,
}

/// What a run came to.
#[derive(Debug, Clone, Copy, PartialEq, Eq)]
pub struct Outcome {
    /// What the call returned, or why it did not.
    pub result: Result<Value, Failure>,
    /// Register accesses made, which is the log's length in pairs.
    pub accesses: usize,
    /// Answers of the script used.
    pub answers: usize,
    /// The driver's value after the call. An `init` that does not return makes no
    /// driver: this is then the given one.
    pub driver: Driver,
}

impl Outcome {
    /// The result's number in the scope document, which has none for a panic.
    pub const fn number(&self) -> Option<u32> {
        match self.result {
            Ok(_) => Some(0),
            Err(Failure::FrameSize) => Some(1),
            Err(Failure::Fifo(Direction::Rx)) => Some(2),
            Err(Failure::Fifo(Direction::Tx)) => Some(3),
            Err(Failure::Stopped) => Some(4),
            Err(Failure::Panicked) => None,
        }
    }
}
