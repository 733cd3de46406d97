//! Commands, clocks and packing by themselves. A child module of lpspi.rs, whose
//! private items it sees.
//!
//! Nothing here is inlined: the benchmark counts one call on either side.

use super::calls::{bit_order, chip_select, mode};
use super::{ReceiveBuffer, ReceiveData, Transaction, TransmitBuffer, TransmitData, Word};
use super::{compute_spi_clock, per_word};
use crate::call::{Command, Failure};

/// The word of a `Transaction`, by `new` and all eight setters.
#[inline(never)]
pub fn command_word(command: &Command) -> Result<u32, Failure> {
    let mut transaction = Transaction::new(command.frame_size)?;
    transaction
        .set_byte_swap(command.byte_swap)
        .set_bit_order(bit_order(command.lsb))
        .set_receive_data_mask(command.receive_mask)
        .set_transmit_data_mask(command.transmit_mask)
        .set_continuous(command.continuous)
        .set_continuing(command.continuing)
        .set_mode(mode(command.mode))
        .set_pcs(chip_select(command.pcs));
    Ok(transaction.0)
}

/// The CCR word. Neither clock may be 0.
#[inline(never)]
pub fn clock_word(source_hz: u32, clock_hz: u32) -> u32 {
    compute_spi_clock(source_hz, clock_hz).as_raw()
}

/// Puts the FIFO words of a transfer of `total` bytes over the front of `words`.
#[inline(never)]
pub fn pack_words(lsb: bool, bytes: &[u8], total: usize, words: &mut [u32]) {
    let order = bit_order(lsb);
    let sent = &bytes[..bytes.len().min(total)];
    let mut transmit = TransmitBuffer::with_dummies(sent, total - sent.len());
    for word in words.iter_mut().take(total.div_ceil(per_word::<u8>())) {
        *word = transmit.next_word(order);
    }
}

/// Puts the bytes of the received words of a transfer of `total` bytes over the
/// front of `bytes`.
#[inline(never)]
pub fn unpack_words(lsb: bool, words: &[u32], total: usize, bytes: &mut [u8]) {
    let order = bit_order(lsb);
    let kept = bytes.len().min(total);
    let mut receive = ReceiveBuffer::with_discards(&mut bytes[..kept], total - kept);
    for word in words.iter().take(total.div_ceil(per_word::<u8>())) {
        receive.next_word(order, *word);
    }
}

/// One FIFO word of elements of 8, 16 or 32 bits, and how many of them it took.
pub fn pack_word(bits: u32, lsb: bool, elements: &[u32]) -> (u32, usize) {
    let (order, mut left) = (bit_order(lsb), elements.iter());
    let word = match bits {
        8 => u8::pack_word(order, || left.next().map(|element| *element as u8)),
        16 => u16::pack_word(order, || left.next().map(|element| *element as u16)),
        _ => u32::pack_word(order, || left.next().copied()),
    };
    (word, elements.len() - left.len())
}

/// The elements of 8, 16 or 32 bits of a FIFO word with so many valid bytes.
pub fn unpack_word(bits: u32, lsb: bool, word: u32, valid_bytes: usize) -> Vec<u32> {
    let (order, mut elements) = (bit_order(lsb), vec![]);
    match bits {
        8 => u8::unpack_word(word, order, valid_bytes, |byte| elements.push(byte.into())),
        16 => u16::unpack_word(word, order, valid_bytes, |half| elements.push(half.into())),
        _ => u32::unpack_word(word, order, valid_bytes, |word| elements.push(word)),
    }
    elements
}
