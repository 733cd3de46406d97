//! Why a call is refused, or a run does not come to Ok.

use std::fmt;

/// Data direction.
#[derive(Debug, Clone, Copy, PartialEq, Eq)]
pub enum Direction {
    /// Transmit.
    Tx,
    /// Receive.
    Rx,
}

/// The errors that the Rust has.
#[derive(Debug, Clone, Copy, PartialEq, Eq)]
pub enum LpspiError {
    /// The frame size is not accepted.
    FrameSize,
    /// FIFO error in the given direction.
    Fifo(Direction),
}

/// The errors of a call: those of the Rust, and what a run adds.
#[derive(Debug, Clone, Copy, PartialEq, Eq)]
pub enum Error {
    /// An error that the Rust has.
    Lpspi(LpspiError),
    /// The budget was used up, or a read found the script used up.
    Stopped,
    /// The budget is over 8,000, or the log is shorter than twice the budget.
    Limits,
    /// The source clock or the wanted clock is 0.
    ZeroClock,
    /// PARAM gives a FIFO size of 2^5 words or more.
    FifoExponent,
    /// More elements than a FIFO word holds.
    TooManyElements,
    /// Two boards with a FIFO exponent over 4, or of unequal order or total length.
    Unpaired,
}

impl LpspiError {
    /// The number in the scope document.
    pub const fn number(self) -> u32 {
        match self {
            Self::FrameSize => 1,
            Self::Fifo(Direction::Rx) => 2,
            Self::Fifo(Direction::Tx) => 3,
        }
    }
}

impl Error {
    /// The number in the scope document.
    pub const fn number(self) -> u32 {
        match self {
            Self::Lpspi(error) => error.number(),
            Self::Stopped => 4,
            Self::Limits => 5,
            Self::ZeroClock => 6,
            Self::FifoExponent => 7,
            Self::TooManyElements => 8,
            Self::Unpaired => 9,
        }
    }
}

impl From<LpspiError> for Error {
    fn from(error: LpspiError) -> Self {
        Self::Lpspi(error)
    }
}

impl fmt::Display for LpspiError {
    fn fmt(&self, f: &mut fmt::Formatter<'_>) -> fmt::Result {
        f.write_str(match self {
            Self::FrameSize => "frame size not accepted",
            Self::Fifo(Direction::Rx) => "receive FIFO error",
            Self::Fifo(Direction::Tx) => "transmit FIFO error",
        })
    }
}

impl fmt::Display for Error {
    fn fmt(&self, f: &mut fmt::Formatter<'_>) -> fmt::Result {
        f.write_str(match self {
            Self::Lpspi(error) => return error.fmt(f),
            Self::Stopped => "budget or script used up",
            Self::Limits => "budget or log out of limits",
            Self::ZeroClock => "a clock is zero",
            Self::FifoExponent => "FIFO exponent over 4",
            Self::TooManyElements => "more elements than a word holds",
            Self::Unpaired => "boards that make no pair",
        })
    }
}

impl std::error::Error for LpspiError {}
impl std::error::Error for Error {}

/// Turns a result number into a `Result`.
///
/// Panics on a number that these functions never give.
#[inline]
pub(crate) fn answer<T>(number: u32, value: T) -> Result<T, Error> {
    Err(match number {
        0 => return Ok(value),
        1 => Error::Lpspi(LpspiError::FrameSize),
        2 => Error::Lpspi(LpspiError::Fifo(Direction::Rx)),
        3 => Error::Lpspi(LpspiError::Fifo(Direction::Tx)),
        4 => Error::Stopped,
        5 => Error::Limits,
        6 => Error::ZeroClock,
        7 => Error::FifoExponent,
        8 => Error::TooManyElements,
        9 => Error::Unpaired,
        _ => panic!("result number {number} is not one of 0 to 9"),
    })
}
