//! The same functions in plain Rust, written from the scope document.
//!
//! The tests compare the proved functions with these. Where possible they are
//! computed in another way than the document's formulas.

use super::command::Command;
use lpspi_host::{BitOrder, Error, LpspiError};
use std::iter;

/// The byte sent where the write buffer has no more.
pub const DUMMY: u8 = 0xFF;

/// The TCR word: its fields joined from bit 31 down to bit 0.
pub fn command(command: &Command) -> Result<u32, Error> {
    // With FRAMESZ = f - 1, "f mod 32 is not 1" is "FRAMESZ mod 32 is not 0".
    let framesz = i64::from(command.frame_size) - 1;
    if !(7..=0xFFF).contains(&framesz) || framesz % 32 == 0 {
        return Err(LpspiError::FrameSize.into());
    }
    let fields = [
        (1, u64::from(command.mode / 2 % 2)), // CPOL
        (1, u64::from(command.mode % 2)),     // CPHA
        (4, 0),
        (2, u64::from(command.pcs % 4)), // PCS
        (1, u64::from(command.bit_order == BitOrder::Lsb)),
        (1, u64::from(command.byte_swap)),
        (1, u64::from(command.continuous)),
        (1, u64::from(command.continuing)),
        (1, u64::from(command.receive_mask)),
        (1, u64::from(command.transmit_mask)),
        (6, 0),
        (12, framesz as u64),
    ];
    let word = fields
        .iter()
        .fold(0_u64, |word, (width, value)| (word << width) + value);
    Ok(u32::try_from(word).expect("the widths add up to 32"))
}

/// The CCR word.
///
/// 1 + (source - 1) div (2 * clock) is the least h for which 2 * clock * h
/// reaches the source; here it is searched for in 3..=128.
pub fn clock(source_hz: u32, clock_hz: u32) -> Result<u32, Error> {
    if [source_hz, clock_hz].contains(&0) {
        return Err(Error::ZeroClock);
    }
    let reaches = |h: u8| 2 * u64::from(clock_hz) * u64::from(h) >= u64::from(source_hz);
    let half = (3..128).find(|h| reaches(*h)).unwrap_or(128) - 1;
    Ok(u32::from_be_bytes([half, half, half, 2 * half]))
}

/// One FIFO word of at most four bytes.
pub fn pack_u8(order: BitOrder, bytes: &[u8]) -> Result<u32, Error> {
    let unused = 4_usize
        .checked_sub(bytes.len())
        .ok_or(Error::TooManyElements)?;
    let mut places = [0; 4];
    Ok(match order {
        BitOrder::Msb => {
            places[unused..].copy_from_slice(bytes);
            u32::from_be_bytes(places)
        }
        BitOrder::Lsb => {
            places[..bytes.len()].copy_from_slice(bytes);
            u32::from_le_bytes(places)
        }
    })
}

/// The elements of one word of `count` elements, at most four.
fn elements(order: BitOrder, word: u32, count: usize) -> impl Iterator<Item = u8> {
    let (places, skipped) = match order {
        BitOrder::Msb => (word.to_be_bytes(), 4 - count),
        BitOrder::Lsb => (word.to_le_bytes(), 0),
    };
    places.into_iter().skip(skipped).take(count)
}

/// Writes over the front of `places`, as far as both reach.
fn lay_over<T>(places: &mut [T], values: impl Iterator<Item = T>) {
    places
        .iter_mut()
        .zip(values)
        .for_each(|(place, value)| *place = value);
}

/// Puts the `count` bytes of one FIFO word at the front of `bytes`.
pub fn unpack_u8(order: BitOrder, word: u32, count: usize, bytes: &mut [u8]) -> Result<(), Error> {
    if count > 4 {
        return Err(Error::TooManyElements);
    }
    lay_over(bytes, elements(order, word, count));
    Ok(())
}

/// Puts the FIFO words of a transfer of `total` bytes at the front of `words`.
pub fn pack_words_u8(order: BitOrder, bytes: &[u8], total: usize, words: &mut [u32]) {
    // No more bytes than `words` can hold, so that a large total ends.
    let sent: Vec<u8> = bytes
        .iter()
        .copied()
        .chain(iter::repeat(DUMMY))
        .take(total.min(4 * words.len()))
        .collect();
    let packed = sent
        .chunks(4)
        .map(|chunk| pack_u8(order, chunk).expect("a chunk has at most four bytes"));
    lay_over(words, packed);
}

/// Puts the bytes of the received words of a transfer of `total` bytes at the
/// front of `bytes`.
pub fn unpack_words_u8(order: BitOrder, words: &[u32], total: usize, bytes: &mut [u8]) {
    let mut left = total;
    let received = words.iter().flat_map(|word| {
        let count = left.min(4);
        left -= count;
        elements(order, *word, count)
    });
    lay_over(bytes, received);
}
