//! Commands by the numbers that the C function takes.

use lpspi_host::{BitOrder, Error, LpspiError, Mode, Pcs, Transaction, raw};

/// The settings of a command. Mode and chip select are taken modulo 4.
#[derive(Debug, Clone, Copy, Default)]
pub struct Command {
    pub frame_size: u32,
    pub byte_swap: bool,
    pub bit_order: BitOrder,
    pub receive_mask: bool,
    pub transmit_mask: bool,
    pub continuous: bool,
    pub continuing: bool,
    pub mode: u32,
    pub pcs: u32,
}

impl Command {
    /// The number that the C function gives, and its word.
    pub fn raw(&self, word: &mut u32) -> u32 {
        raw::command(
            self.frame_size,
            self.byte_swap,
            self.bit_order.is_lsb(),
            self.receive_mask,
            self.transmit_mask,
            self.continuous,
            self.continuing,
            self.mode,
            self.pcs,
            word,
        )
    }

    /// The word of the transaction with these settings.
    pub fn transaction(&self) -> Result<u32, Error> {
        let frame_size = u16::try_from(self.frame_size).map_err(|_| LpspiError::FrameSize)?;
        let mut transaction = Transaction::new(frame_size)?;
        transaction
            .set_byte_swap(self.byte_swap)
            .set_bit_order(self.bit_order)
            .set_receive_data_mask(self.receive_mask)
            .set_transmit_data_mask(self.transmit_mask)
            .set_continuous(self.continuous)
            .set_continuing(self.continuing)
            .set_mode(Mode::of_number(self.mode))
            .set_pcs(Pcs::of_number(self.pcs));
        Ok(transaction.as_raw())
    }
}
