//! FIFO words of bytes.

use crate::error::{Error, answer};
use crate::{BitOrder, raw};

/// One FIFO word of at most four bytes. No bytes give 0.
#[inline]
pub fn pack_u8(order: BitOrder, bytes: &[u8]) -> Result<u32, Error> {
    let mut word = 0;
    let number = raw::pack_u8(order.is_lsb(), bytes, &mut word);
    answer(number, word)
}

/// Puts the `count` bytes of one FIFO word at the front of `bytes`.
///
/// Bytes past the end are dropped. A refusal leaves `bytes` as found.
#[inline]
pub fn unpack_u8(order: BitOrder, word: u32, count: usize, bytes: &mut [u8]) -> Result<(), Error> {
    answer(raw::unpack_u8(order.is_lsb(), word, count, bytes), ())
}

/// Puts the FIFO words of a transfer of `total` bytes at the front of `words`.
///
/// Missing bytes are 0xFF. Words past the end of `words` are dropped; places
/// past the transfer's last word are kept.
#[inline]
pub fn pack_words_u8(order: BitOrder, bytes: &[u8], total: usize, words: &mut [u32]) {
    raw::pack_words_u8(order.is_lsb(), bytes, total, words);
}

/// Puts the bytes of the received words of a transfer of `total` bytes at the
/// front of `bytes`.
///
/// Bytes past the end of `bytes` are dropped; places past the received bytes
/// are kept.
#[inline]
pub fn unpack_words_u8(order: BitOrder, words: &[u32], total: usize, bytes: &mut [u8]) {
    raw::unpack_words_u8(order.is_lsb(), words, total, bytes);
}
