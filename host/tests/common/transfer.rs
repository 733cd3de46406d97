//! Transfers of the port, and flushes.

use super::run::{Left, Limits, found};
pub use lpspi_host::raw::Transfer as Kind;
use lpspi_host::{Lpspi, exchange, exchange_separate, flush, read_no_write, write_no_read};
use std::fmt::Debug;

/// An element of a buffer.
pub trait Element: lpspi_host::Element + Copy + PartialEq + Debug {
    /// The low bits of a word.
    fn of(word: u32) -> Self;
}

impl Element for u8 {
    fn of(word: u32) -> Self {
        word as Self
    }
}

impl Element for u16 {
    fn of(word: u32) -> Self {
        word as Self
    }
}

impl Element for u32 {
    fn of(word: u32) -> Self {
        word
    }
}

/// What takes part in a transfer.
pub trait Sides {
    fn sends(self) -> bool;

    fn receives(self) -> bool;

    /// Sides that take part: one or two.
    fn sides(self) -> usize;
}

impl Sides for Kind {
    fn sends(self) -> bool {
        self != Self::ReadNoWrite
    }

    fn receives(self) -> bool {
        self != Self::WriteNoRead
    }

    fn sides(self) -> usize {
        usize::from(self.sends()) + usize::from(self.receives())
    }
}

/// A transfer. `write` has the buffer of [`Kind::WriteNoRead`], `read` that of
/// [`Kind::Exchange`] and [`Kind::ReadNoWrite`].
#[derive(Debug)]
pub struct Transfer<W> {
    pub kind: Kind,
    pub driver: Lpspi,
    pub read: Vec<W>,
    pub write: Vec<W>,
}

impl<W: Element> Transfer<W> {
    /// Elements of a FIFO word.
    pub const PER_WORD: usize = 4 / size_of::<W>();

    /// The longest that a frame may be, in elements.
    pub const LONGEST: usize = 128 * Self::PER_WORD;

    /// A transfer of buffers of those lengths; where it has one buffer, of the
    /// greater. `word` gives the elements.
    pub fn new(
        kind: Kind,
        driver: Lpspi,
        (read, write): (usize, usize),
        mut word: impl FnMut() -> u32,
    ) -> Self {
        let longer = read.max(write);
        let (read, write) = match kind {
            Kind::ExchangeSeparate => (read, write),
            Kind::WriteNoRead => (0, longer),
            Kind::Exchange | Kind::ReadNoWrite => (longer, 0),
        };
        let mut buffer = |len| (0..len).map(|_| W::of(word())).collect();
        Self {
            kind,
            driver,
            read: buffer(read),
            write: buffer(write),
        }
    }

    /// Elements of the longer buffer.
    pub fn total(&self) -> usize {
        self.read.len().max(self.write.len())
    }

    /// FIFO words of the longer buffer.
    pub fn words(&self) -> usize {
        self.total().div_ceil(Self::PER_WORD)
    }

    pub fn words_to_send(&self) -> usize {
        self.words() * usize::from(self.kind.sends())
    }

    pub fn words_to_receive(&self) -> usize {
        self.words() * usize::from(self.kind.receives())
    }

    /// What the port leaves.
    pub fn port(&self, limits: &Limits) -> Left<W> {
        let (driver, write) = (self.driver, &self.write);
        let (budget, script) = (limits.budget, &limits.script[..]);
        let (mut read, mut log) = (self.read.clone(), found(limits.log_len));
        let (r, l) = (&mut read[..], &mut log[..]);
        let run = match self.kind {
            Kind::ExchangeSeparate => exchange_separate(driver, r, write, budget, script, l),
            Kind::Exchange => exchange(driver, r, budget, script, l),
            Kind::WriteNoRead => write_no_read(driver, write, budget, script, l),
            Kind::ReadNoWrite => read_no_write(driver, r, budget, script, l),
        };
        Left::new(run, read, log)
    }
}

/// What a flush of the port leaves.
pub fn port_flush(driver: Lpspi, limits: &Limits) -> Left<u8> {
    let mut log = found(limits.log_len);
    let run = flush(driver, limits.budget, &limits.script, &mut log);
    Left::new(run, vec![], log)
}
