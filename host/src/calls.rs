//! Resets, and calls without a value.

use crate::raw::{self, Reset, Set};
use crate::{Direction, Lpspi, Run, Status};

/// Resets the peripheral and restores its settings, the clock from the cache.
#[inline]
pub fn soft_reset(driver: Lpspi, budget: usize, script: &[u32], log: &mut [u32]) -> Run {
    reset(Reset::SoftReset, driver, budget, script, log)
}

/// A soft reset that also clears both error flags.
#[inline]
pub fn recover_from_error(driver: Lpspi, budget: usize, script: &[u32], log: &mut [u32]) -> Run {
    reset(Reset::RecoverFromError, driver, budget, script, log)
}

/// Resets the peripheral and sets it up as a controller.
///
/// The next driver value is the default, unless the limits are refused.
#[inline]
pub fn init(driver: Lpspi, budget: usize, script: &[u32], log: &mut [u32]) -> Run {
    reset(Reset::Init, driver, budget, script, log)
}

/// Clears those of the status flags that are cleared by writing 1.
#[inline]
pub fn clear_status(
    driver: Lpspi,
    flags: Status,
    budget: usize,
    script: &[u32],
    log: &mut [u32],
) -> Run {
    set(Set::ClearStatus, flags.bits(), driver, budget, script, log)
}

/// Enables or disables the peripheral.
#[inline]
pub fn set_enable(
    driver: Lpspi,
    enable: bool,
    budget: usize,
    script: &[u32],
    log: &mut [u32],
) -> Run {
    set(Set::SetEnable, enable.into(), driver, budget, script, log)
}

/// Empties the FIFO of that direction.
#[inline]
pub fn clear_fifo(
    driver: Lpspi,
    direction: Direction,
    budget: usize,
    script: &[u32],
    log: &mut [u32],
) -> Run {
    let a = direction as u32;
    set(Set::ClearFifo, a, driver, budget, script, log)
}

/// Places a word into the transmit FIFO.
#[inline]
pub fn enqueue_data(
    driver: Lpspi,
    word: u32,
    budget: usize,
    script: &[u32],
    log: &mut [u32],
) -> Run {
    set(Set::EnqueueData, word, driver, budget, script, log)
}

/// Places a command of that frame size, with the driver's order, mode and chip
/// select, into the transmit FIFO.
///
/// The limits are checked first, then the frame size.
#[inline]
pub fn enqueue_transaction(
    driver: Lpspi,
    frame_size: u32,
    budget: usize,
    script: &[u32],
    log: &mut [u32],
) -> Run {
    let kind = Set::EnqueueTransaction;
    set(kind, frame_size, driver, budget, script, log)
}

/// A reset.
#[inline]
fn reset(kind: Reset, driver: Lpspi, budget: usize, script: &[u32], log: &mut [u32]) -> Run {
    Run::of(driver, |driver, accesses, answers| {
        raw::reset(kind as u32, driver, budget, script, log, accesses, answers)
    })
}

/// A call with its parameter.
#[inline]
fn set(kind: Set, a: u32, driver: Lpspi, budget: usize, script: &[u32], log: &mut [u32]) -> Run {
    Run::of(driver, |driver, accesses, answers| {
        let kind = kind as u32;
        raw::set(kind, a, driver, budget, script, log, accesses, answers)
    })
}
