//! Calls with a value: it stands beside the run, and is 0, false or none unless
//! the run is Ok.

use crate::raw::{self, Get};
use crate::{Direction, Lpspi, Run, Status};

/// The number of words in each FIFO, and its depth.
#[derive(Debug, Clone, Copy, PartialEq, Eq, Default)]
pub struct FifoStatus {
    /// Words in the receive FIFO.
    pub rxcount: u16,
    /// Words in the transmit FIFO.
    pub txcount: u16,
    /// Depth of the receive FIFO.
    pub rxcap: u16,
    /// Depth of the transmit FIFO.
    pub txcap: u16,
}

/// The watermark of that direction.
#[inline]
pub fn watermark(
    driver: Lpspi,
    direction: Direction,
    budget: usize,
    script: &[u32],
    log: &mut [u32],
) -> (Run, u8) {
    let parameters = [direction as u32, 0];
    let (run, level) = get(Get::Watermark, parameters, driver, budget, script, log);
    (run, level as u8)
}

/// Sets the watermark of that direction, to the FIFO's size less one at most,
/// and answers the level set.
#[inline]
pub fn set_watermark(
    driver: Lpspi,
    direction: Direction,
    watermark: u8,
    budget: usize,
    script: &[u32],
    log: &mut [u32],
) -> (Run, u8) {
    let parameters = [direction as u32, watermark.into()];
    let (run, level) = get(Get::SetWatermark, parameters, driver, budget, script, log);
    (run, level as u8)
}

/// The status flags that have a name.
#[inline]
pub fn status(driver: Lpspi, budget: usize, script: &[u32], log: &mut [u32]) -> (Run, Status) {
    let (run, flags) = get(Get::Status, [0; 2], driver, budget, script, log);
    (run, Status::from_bits_retain(flags as u32))
}

/// Whether the peripheral is enabled.
#[inline]
pub fn is_enabled(driver: Lpspi, budget: usize, script: &[u32], log: &mut [u32]) -> (Run, bool) {
    let (run, enabled) = get(Get::IsEnabled, [0; 2], driver, budget, script, log);
    (run, enabled != 0)
}

/// The state of both FIFOs.
#[inline]
pub fn fifo_status(
    driver: Lpspi,
    budget: usize,
    script: &[u32],
    log: &mut [u32],
) -> (Run, FifoStatus) {
    let (run, fields) = get(Get::FifoStatus, [0; 2], driver, budget, script, log);
    let status = FifoStatus {
        rxcount: fields as u16,
        txcount: (fields >> 16) as u16,
        rxcap: (fields >> 32) as u16,
        txcap: (fields >> 48) as u16,
    };
    (run, status)
}

/// A received word, unless the receive FIFO is empty.
#[inline]
pub fn read_data(
    driver: Lpspi,
    budget: usize,
    script: &[u32],
    log: &mut [u32],
) -> (Run, Option<u32>) {
    let (run, data) = get(Get::ReadData, [0; 2], driver, budget, script, log);
    (run, (data >> 32 != 0).then_some(data as u32))
}

/// A call with its parameters, and its value as a number.
#[inline]
fn get(
    kind: Get,
    [a, b]: [u32; 2],
    driver: Lpspi,
    budget: usize,
    script: &[u32],
    log: &mut [u32],
) -> (Run, u64) {
    let mut value = 0;
    let run = Run::of(driver, |driver, accesses, answers| {
        let kind = kind as u32;
        raw::get(
            kind, a, b, driver, budget, script, log, accesses, answers, &mut value,
        )
    });
    (run, value)
}
