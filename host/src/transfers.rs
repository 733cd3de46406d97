//! Transfers of buffers, and `flush`. They leave the driver as it was.

use crate::raw::{self, Transfer};
use crate::{Lpspi, Run};

/// An element of a buffer: 8, 16 or 32 bits.
pub trait Element: Copy + sealed::Sealed {}

impl Element for u8 {}
impl Element for u16 {}
impl Element for u32 {}

/// There are no other elements: `raw` takes one for the integer of its size.
mod sealed {
    pub trait Sealed {}

    impl Sealed for u8 {}
    impl Sealed for u16 {}
    impl Sealed for u32 {}
}

/// A transfer.
#[inline]
fn transfer<W: Element>(
    kind: Transfer,
    driver: Lpspi,
    (read, write): (&mut [W], &[W]),
    budget: usize,
    script: &[u32],
    log: &mut [u32],
) -> Run {
    Run::of(driver, |driver, accesses, answers| {
        let kind = kind as u32;
        raw::transfer(
            kind, driver, read, write, budget, script, log, accesses, answers,
        )
    })
}

/// Sends `write` and receives into `read`, which may differ in length.
///
/// Missing elements are sent as all ones, and received elements past the end of
/// `read` are dropped. Elements not received are kept.
#[inline]
pub fn exchange_separate<W: Element>(
    driver: Lpspi,
    read: &mut [W],
    write: &[W],
    budget: usize,
    script: &[u32],
    log: &mut [u32],
) -> Run {
    let kind = Transfer::ExchangeSeparate;
    transfer(kind, driver, (read, write), budget, script, log)
}

/// Sends `data` and receives into it.
///
/// An element already received over is sent as received.
#[inline]
pub fn exchange<W: Element>(
    driver: Lpspi,
    data: &mut [W],
    budget: usize,
    script: &[u32],
    log: &mut [u32],
) -> Run {
    let kind = Transfer::Exchange;
    transfer(kind, driver, (data, &[]), budget, script, log)
}

/// Sends `data` and receives nothing.
#[inline]
pub fn write_no_read<W: Element>(
    driver: Lpspi,
    data: &[W],
    budget: usize,
    script: &[u32],
    log: &mut [u32],
) -> Run {
    let kind = Transfer::WriteNoRead;
    transfer(kind, driver, (&mut [], data), budget, script, log)
}

/// Receives into `data` and sends nothing.
#[inline]
pub fn read_no_write<W: Element>(
    driver: Lpspi,
    data: &mut [W],
    budget: usize,
    script: &[u32],
    log: &mut [u32],
) -> Run {
    let kind = Transfer::ReadNoWrite;
    transfer(kind, driver, (data, &[]), budget, script, log)
}

/// Waits until all has been sent.
#[inline]
pub fn flush(driver: Lpspi, budget: usize, script: &[u32], log: &mut [u32]) -> Run {
    Run::of(driver, |driver, accesses, answers| {
        raw::flush(driver, budget, script, log, accesses, answers)
    })
}
