//! Settings that are changed while the peripheral is disabled. Each call also
//! disables it, and enables it again if it was.

use crate::raw::{self, Disabled};
use crate::{ClockConfigs, Lpspi, Pcs, PcsPolarity, Run, SamplePoint};

/// Sets the clock for a source clock and a wanted SPI clock; the cache takes it
/// right before CCR is written.
#[inline]
pub fn set_clock_hz(
    driver: Lpspi,
    source_clock_hz: u32,
    clock_hz: u32,
    budget: usize,
    script: &[u32],
    log: &mut [u32],
) -> Run {
    let clocks = [source_clock_hz, clock_hz];
    disabled(Disabled::SetClockHz, clocks, driver, budget, script, log)
}

/// Sets the clock; the cache takes it right before CCR is written.
#[inline]
pub fn set_clock_configs(
    driver: Lpspi,
    timing: ClockConfigs,
    budget: usize,
    script: &[u32],
    log: &mut [u32],
) -> Run {
    let (kind, word) = (Disabled::SetClockConfigs, timing.as_raw());
    disabled(kind, [word, 0], driver, budget, script, log)
}

/// Sets when input bits are sampled.
#[inline]
pub fn set_sample_point(
    driver: Lpspi,
    sample_point: SamplePoint,
    budget: usize,
    script: &[u32],
    log: &mut [u32],
) -> Run {
    let kind = Disabled::SetSamplePoint;
    disabled(kind, [sample_point as u32, 0], driver, budget, script, log)
}

/// Becomes a peripheral, or a controller again.
#[inline]
pub fn set_peripheral_enable(
    driver: Lpspi,
    enable: bool,
    budget: usize,
    script: &[u32],
    log: &mut [u32],
) -> Run {
    let kind = Disabled::SetPeripheralEnable;
    disabled(kind, [enable.into(), 0], driver, budget, script, log)
}

/// Sets the polarity of a chip select.
#[inline]
pub fn set_chip_select_polarity(
    driver: Lpspi,
    pcs: Pcs,
    polarity: PcsPolarity,
    budget: usize,
    script: &[u32],
    log: &mut [u32],
) -> Run {
    let kind = Disabled::SetChipSelectPolarity;
    let parameters = [pcs.number(), polarity as u32];
    disabled(kind, parameters, driver, budget, script, log)
}

/// A call with its parameters.
#[inline]
fn disabled(
    kind: Disabled,
    [a, b]: [u32; 2],
    driver: Lpspi,
    budget: usize,
    script: &[u32],
    log: &mut [u32],
) -> Run {
    Run::of(driver, |driver, accesses, answers| {
        let kind = kind as u32;
        raw::disabled(kind, a, b, driver, budget, script, log, accesses, answers)
    })
}
