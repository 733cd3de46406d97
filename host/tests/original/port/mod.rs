//! The port against the original.

mod calls;
mod directed;
mod flush;
mod random;
mod sample;
mod script;
mod stops;

use crate::common::Random;
use crate::common::run::{Left, Limits, MAX_BUDGET, found};
use crate::common::transfer::{self, Kind, Transfer};
use lpspi_host::{BitOrder, CcrCache, Lpspi, MODE_1, Mode, Pcs};
use original::{Call, Outcome, run, too_deep, until_too_deep};

/// An element of buffers of both sides.
trait Element: transfer::Element + original::Element {}

impl<W: transfer::Element + original::Element> Element for W {}

/// Budgets and lengths of the log that are refused.
const REFUSED: [(usize, usize); 5] = [
    (MAX_BUDGET, 2 * MAX_BUDGET - 1),
    (MAX_BUDGET + 1, 2 * MAX_BUDGET + 1),
    (MAX_BUDGET + 1, 2 * MAX_BUDGET + 2),
    (12, 23),
    (1, 1),
];

/// The driver of directed runs.
const DRIVER: Lpspi = Lpspi {
    bit_order: BitOrder::Lsb,
    mode: MODE_1,
    pcs: Pcs::Pcs2,
    ccr_cache: CcrCache {
        dbt: 0x12,
        sckdiv: 0x34,
    },
};

fn random_driver(random: &mut Random) -> Lpspi {
    Lpspi {
        bit_order: random.order(),
        mode: Mode::of_number(random.word()),
        pcs: Pcs::of_number(random.word()),
        ccr_cache: CcrCache {
            dbt: random.word() as u8,
            sckdiv: random.word() as u8,
        },
    }
}

/// The original's form of a driver value.
fn original_driver(driver: Lpspi) -> original::Driver {
    let CcrCache { dbt, sckdiv } = driver.ccr_cache;
    original::Driver {
        lsb: driver.bit_order.is_lsb(),
        mode: driver.mode.number() as u8,
        pcs: driver.pcs.number() as u8,
        dbt,
        sckdiv,
    }
}

/// The number of the original's form of a driver value.
pub(crate) fn driver_number(driver: original::Driver) -> u32 {
    let original::Driver {
        lsb,
        mode,
        pcs,
        dbt,
        sckdiv,
    } = driver;
    Lpspi {
        bit_order: BitOrder::ALL[usize::from(lsb)],
        mode: Mode::of_number(mode.into()),
        pcs: Pcs::of_number(pcs.into()),
        ccr_cache: CcrCache { dbt, sckdiv },
    }
    .number()
}

/// All as found, with a number.
fn refused<W>(number: u32, driver: Lpspi, limits: &Limits) -> Left<W> {
    Left {
        number,
        driver: driver.number(),
        accesses: 0,
        answers: 0,
        value: 0,
        buffer: vec![],
        log: found(limits.log_len),
    }
}

/// A run without a value, as the scope documents have it: the original's, once past
/// number 5, but with 7 right after an exponent over 4. `run` makes it with a budget,
/// and with a log as found. The buffer is the caller's to add.
fn judged<W>(
    driver: Lpspi,
    limits: &Limits,
    run: impl FnMut(usize) -> (Outcome, Vec<u32>),
) -> Left<W> {
    if limits.refused() {
        return refused(5, driver, limits);
    }
    let (number, outcome, log) = until_too_deep(limits.budget, too_deep, run);
    Left {
        number: number.expect("the original did not panic"),
        driver: driver_number(outcome.driver),
        accesses: outcome.accesses,
        answers: outcome.answers,
        value: 0,
        buffer: vec![],
        log,
    }
}

/// One run of the original over a log as found.
fn original_run(call: Call, driver: Lpspi, budget: usize, limits: &Limits) -> (Outcome, Vec<u32>) {
    let mut log = found(limits.log_len);
    let driver = original_driver(driver);
    let outcome = run(call, driver, budget, &limits.script, &mut log);
    (outcome, log)
}

fn judged_transfer<W: Element>(transfer: &Transfer<W>, limits: &Limits) -> Left<W> {
    let mut buffer = transfer.read.clone();
    let left = judged(transfer.driver, limits, |budget| {
        buffer.copy_from_slice(&transfer.read);
        let (read, write) = (&mut buffer[..], &transfer.write[..]);
        let call = W::call(match transfer.kind {
            Kind::ExchangeSeparate => original::Transfer::ExchangeSeparate { read, write },
            Kind::Exchange => original::Transfer::Exchange(read),
            Kind::WriteNoRead => original::Transfer::WriteNoRead(write),
            Kind::ReadNoWrite => original::Transfer::ReadNoWrite(read),
        });
        original_run(call, transfer.driver, budget, limits)
    });
    Left { buffer, ..left }
}

fn judged_flush(driver: Lpspi, limits: &Limits) -> Left<u8> {
    judged(driver, limits, |budget| {
        original_run(Call::Flush, driver, budget, limits)
    })
}
