//! The C functions of `libc_api.a` in the C form: numbers, and out-values.
//!
//! To C a slice is a pointer and a length, any other reference a pointer, and `usize` is `size_t`.
//! The functions are defined for every input.
//!
//! The result is a number, 0 for Ok, else that of an [`Error`](crate::Error). Where a command, a
//! clock, a word or a pair of boards is refused, all that was lent is as found.
//!
//! A run takes the driver as a number, see [`Lpspi::number`](crate::Lpspi::number), and always
//! gives the next driver value, its accesses and answers, and its value if it has one. `kind` says
//! which call it is, by the enum of the function's name and modulo the number of calls; `a` and `b`
//! are the call's parameters, see there. Of a parameter with two values even is the first, odd the
//! second.
#![allow(clippy::too_many_arguments, unsafe_code)]

mod kinds;

pub use kinds::{Disabled, Event, Get, Reset, Set, Transfer};

use crate::Element;

/// The size of `buslog`'s out-buffer, which has room for the longest listing.
pub const BUSLOG_OUTPUT: usize = 131_072;

/// Words of an end's state: the result numbers of its transfer and its flush, or 255;
/// the flags T and R; the counts of words to be sent and to be read; 16 places for the
/// words of each, 0 where there is none; the 30 registers by their offset divided by 4.
pub const END_STATE: usize = 68;

/// Words of both ends' states: the gate's, the antenna's, and behind them the counts of
/// commands that stand before the words to be sent, at the gate and at the antenna.
pub const PAIR_STATE: usize = 2 * END_STATE + 2;

c_functions! {
    /// The TCR word of a command.
    fn command = lpspi_command(
        frame_size: u32,
        byte_swap: bool,
        lsb: bool,
        receive_mask: bool,
        transmit_mask: bool,
        continuous: bool,
        continuing: bool,
        mode: u32,
        pcs: u32,
        word: &mut u32,
    ) -> u32;

    /// The CCR word for a source clock and a wanted SPI clock.
    fn clock = lpspi_clock(source_clock_hz: u32, spi_clock_hz: u32, word: &mut u32) -> u32;

    /// One FIFO word of at most four bytes.
    fn pack_u8 = lpspi_pack_u8(lsb: bool, bytes: &[u8], word: &mut u32) -> u32;

    /// The first `count` bytes of one FIFO word.
    fn unpack_u8 = lpspi_unpack_u8(lsb: bool, word: u32, count: usize, bytes: &mut [u8]) -> u32;

    /// The FIFO words of a transfer of `total` bytes.
    fn pack_words_u8 = lpspi_pack_words_u8(
        lsb: bool,
        bytes: &[u8],
        total: usize,
        words: &mut [u32],
    );

    /// The bytes of the received FIFO words of a transfer of `total` bytes.
    fn unpack_words_u8 = lpspi_unpack_words_u8(
        lsb: bool,
        words: &[u32],
        total: usize,
        bytes: &mut [u8],
    );

    /// Waits until all has been sent.
    fn flush = lpspi_flush(
        driver: &mut u32,
        budget: usize,
        script: &[u32],
        log: &mut [u32],
        accesses: &mut usize,
        answers: &mut usize,
    ) -> u32;

    /// A [`Reset`].
    fn reset = lpspi_reset(
        kind: u32,
        driver: &mut u32,
        budget: usize,
        script: &[u32],
        log: &mut [u32],
        accesses: &mut usize,
        answers: &mut usize,
    ) -> u32;

    /// A [`Set`].
    fn set = lpspi_set(
        kind: u32,
        a: u32,
        driver: &mut u32,
        budget: usize,
        script: &[u32],
        log: &mut [u32],
        accesses: &mut usize,
        answers: &mut usize,
    ) -> u32;

    /// A setting that is changed while [`Disabled`].
    fn disabled = lpspi_disabled(
        kind: u32,
        a: u32,
        b: u32,
        driver: &mut u32,
        budget: usize,
        script: &[u32],
        log: &mut [u32],
        accesses: &mut usize,
        answers: &mut usize,
    ) -> u32;

    /// A [`Get`]. The value is 0 with a number other than 0.
    fn get = lpspi_get(
        kind: u32,
        a: u32,
        b: u32,
        driver: &mut u32,
        budget: usize,
        script: &[u32],
        log: &mut [u32],
        accesses: &mut usize,
        answers: &mut usize,
        value: &mut u64,
    ) -> u32;

    /// Puts what `buslog` prints at the front of `out`, and answers how long it is. The
    /// rest of `out` is kept.
    fn buslog = lpspi_buslog(input: &[u8], out: &mut [u8; BUSLOG_OUTPUT]) -> usize;
}

c_functions_by_width! {
    /// A [`Transfer`].
    fn transfer = [
        lpspi_transfer_u8 of u8,
        lpspi_transfer_u16 of u16,
        lpspi_transfer_u32 of u32
    ](
        kind: u32,
        driver: &mut u32,
        read: &mut [W],
        write: &[W],
        budget: usize,
        script: &[u32],
        log: &mut [u32],
        accesses: &mut usize,
        answers: &mut usize,
    ) -> u32;

    /// Lets events happen to a gate and an antenna: each byte is an [`Event`], modulo 9.
    /// `inplace` has a bit for each end, the gate's lowest. The ends' states go to the front
    /// of `state`, [`PAIR_STATE`] words; what has no room is dropped. With exponent 0 an
    /// end never sends a word, since its command takes the transmit FIFO's one place.
    ///
    /// At 9 all is as found: `state` then has no ends, and must not be read as if it had.
    /// Zeros, say, would read as Ok twice.
    fn trial = [
        lpspi_trial_u8 of u8,
        lpspi_trial_u16 of u16,
        lpspi_trial_u32 of u32
    ](
        gate_driver: u32,
        antenna_driver: u32,
        inplace: u32,
        gate_exponent: usize,
        antenna_exponent: usize,
        gate_read: &mut [W],
        gate_write: &[W],
        antenna_read: &mut [W],
        antenna_write: &[W],
        events: &[u8],
        state: &mut [u32],
    ) -> u32;
}
