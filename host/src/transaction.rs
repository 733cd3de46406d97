//! Commands.

use crate::{BitOrder, LpspiError, Mode, Pcs, raw};

/// A transaction: its frame size, and settings that are at first all off, [`BitOrder::Msb`],
/// [`MODE_0`](crate::MODE_0) and [`Pcs::Pcs0`].
#[derive(Debug, Clone, Copy, PartialEq, Eq)]
pub struct Transaction {
    frame_size: u16,
    byte_swap: bool,
    bit_order: BitOrder,
    receive_data_mask: bool,
    transmit_data_mask: bool,
    continuous: bool,
    continuing: bool,
    mode: Mode,
    pcs: Pcs,
}

impl Transaction {
    /// A transaction of so many bits: 8 to 4096, and not 1 modulo 32.
    #[inline]
    pub fn new(frame_size: u16) -> Result<Self, LpspiError> {
        let transaction = Self {
            frame_size,
            byte_swap: false,
            bit_order: BitOrder::Msb,
            receive_data_mask: false,
            transmit_data_mask: false,
            continuous: false,
            continuing: false,
            mode: Mode::default(),
            pcs: Pcs::default(),
        };
        match transaction.command() {
            (0, _) => Ok(transaction),
            _ => Err(LpspiError::FrameSize),
        }
    }

    /// Swaps the bytes of each word (BYSW).
    #[inline]
    pub const fn set_byte_swap(&mut self, swap: bool) -> &mut Self {
        self.byte_swap = swap;
        self
    }

    /// Bit order (LSBF).
    #[inline]
    pub const fn set_bit_order(&mut self, bit_order: BitOrder) -> &mut Self {
        self.bit_order = bit_order;
        self
    }

    /// Discards received data (RXMSK).
    #[inline]
    pub const fn set_receive_data_mask(&mut self, rxmask: bool) -> &mut Self {
        self.receive_data_mask = rxmask;
        self
    }

    /// Sends no data (TXMSK).
    #[inline]
    pub const fn set_transmit_data_mask(&mut self, txmask: bool) -> &mut Self {
        self.transmit_data_mask = txmask;
        self
    }

    /// Starts a continuous transfer (CONT).
    #[inline]
    pub const fn set_continuous(&mut self, cont: bool) -> &mut Self {
        self.continuous = cont;
        self
    }

    /// Continues the previous transfer (CONTC).
    #[inline]
    pub const fn set_continuing(&mut self, contc: bool) -> &mut Self {
        self.continuing = contc;
        self
    }

    /// SPI mode (CPOL, CPHA).
    #[inline]
    pub const fn set_mode(&mut self, mode: Mode) -> &mut Self {
        self.mode = mode;
        self
    }

    /// Chip select (PCS).
    #[inline]
    pub const fn set_pcs(&mut self, pcs: Pcs) -> &mut Self {
        self.pcs = pcs;
        self
    }

    /// The word of the register TCR.
    #[inline]
    pub fn as_raw(self) -> u32 {
        let (number, word) = self.command();
        assert_eq!(number, 0, "the frame size was accepted");
        word
    }

    /// The number and the word that the proved function gives.
    #[inline]
    fn command(self) -> (u32, u32) {
        let mut word = 0;
        let number = raw::command(
            self.frame_size.into(),
            self.byte_swap,
            self.bit_order.is_lsb(),
            self.receive_data_mask,
            self.transmit_data_mask,
            self.continuous,
            self.continuing,
            self.mode.number(),
            self.pcs.number(),
            &mut word,
        );
        (number, word)
    }
}
