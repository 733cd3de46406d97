//! Registers by their offsets, and fields by their masks.

pub const PARAM: u32 = 0x04;
pub const CR: u32 = 0x10;
pub const SR: u32 = 0x14;
pub const CCR: u32 = 0x40;
pub const FSR: u32 = 0x5C;
pub const TCR: u32 = 0x60;
pub const TDR: u32 = 0x64;
pub const RDR: u32 = 0x74;

/// Added to the offset in the log's entry of a write.
pub const WRITE: u32 = 0x1000;

pub const MEN: u32 = 1;
pub const TX_ERROR: u32 = 1 << 11;
pub const RX_ERROR: u32 = 1 << 12;
pub const ERRORS: u32 = TX_ERROR | RX_ERROR;
pub const BUSY: u32 = 1 << 24;
pub const TXFIFO: u32 = 0xFF;
pub const RXFIFO: u32 = 0xFF << 8;
pub const TXCOUNT: u32 = 0x1F;
pub const RXCOUNT: u32 = 0x1F << 16;

/// The exponents of an answer of PARAM: transmit, receive.
pub fn exponents(param: u32) -> [u32; 2] {
    [param & TXFIFO, (param & RXFIFO) >> 8]
}

/// An answer of PARAM, but for the other bits.
pub fn param([tx, rx]: [u32; 2]) -> u32 {
    rx << 8 | tx
}
