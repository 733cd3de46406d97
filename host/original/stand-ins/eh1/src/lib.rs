//! Stands in for embedded-hal 1.0: what lpspi.rs uses of it.
#![no_std]

/// Blocking SPI.
pub mod spi {
    use core::fmt::Debug;

    /// A bus error.
    pub trait Error: Debug {
        fn kind(&self) -> ErrorKind;
    }

    /// Kinds of bus errors.
    #[derive(Debug, Clone, Copy, PartialEq, Eq, PartialOrd, Ord, Hash)]
    #[non_exhaustive]
    pub enum ErrorKind {
        Overrun,
        ModeFault,
        FrameFormat,
        ChipSelectFault,
        Other,
    }

    /// The error type of a bus.
    pub trait ErrorType {
        type Error: Error;
    }

    /// A bus without chip select.
    pub trait SpiBus<Word: Copy + 'static = u8>: ErrorType {
        fn read(&mut self, words: &mut [Word]) -> Result<(), Self::Error>;
        fn write(&mut self, words: &[Word]) -> Result<(), Self::Error>;
        fn transfer(&mut self, read: &mut [Word], write: &[Word]) -> Result<(), Self::Error>;
        fn transfer_in_place(&mut self, words: &mut [Word]) -> Result<(), Self::Error>;
        fn flush(&mut self) -> Result<(), Self::Error>;
    }
}
