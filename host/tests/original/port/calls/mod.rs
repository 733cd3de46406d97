//! The other calls: the port's, by the C functions, against the original's.

mod branches;
mod directed;
mod random;

use super::{driver_number, original_run, refused};
use crate::common::branches::{RECOVERY, Table};
use crate::common::function::Function;
use crate::common::registers::exponents;
use crate::common::run::{Left, Limits};
use lpspi_host::Lpspi;
use lpspi_host::raw::{Disabled, Get, Reset, Set};
use original::{Call, ClockConfigs, Direction, Value, too_deep, until_too_deep};
use std::fmt::{self, Debug, Formatter};

/// A call.
pub(super) struct Entry {
    name: &'static str,
    function: Function,
    accesses: Table,
    /// The original's, of the parameters.
    call: fn(u32, u32) -> Call<'static>,
}

impl Debug for Entry {
    fn fmt(&self, f: &mut Formatter<'_>) -> fmt::Result {
        f.write_str(self.name)
    }
}

const fn entry(
    name: &'static str,
    function: Function,
    accesses: Table,
    call: fn(u32, u32) -> Call<'static>,
) -> Entry {
    Entry {
        name,
        function,
        accesses,
        call,
    }
}

/// Every call.
pub(super) const CALLS: [Entry; 19] = {
    use {Disabled::*, Get::*, Reset::*, Set::*};
    // A recovery without its last write.
    let soft_reset = RECOVERY.split_at(RECOVERY.len() - 1).0;
    [
        entry(
            "soft_reset",
            Function::Reset(SoftReset),
            soft_reset,
            |_, _| Call::SoftReset,
        ),
        entry(
            "recover_from_error",
            Function::Reset(RecoverFromError),
            RECOVERY,
            |_, _| Call::RecoverFromError,
        ),
        entry("init", Function::Reset(Init), "RWMRWRWWRWW", |_, _| {
            Call::Init
        }),
        entry("clear_status", Function::Set(ClearStatus), "W", |a, _| {
            Call::ClearStatus(a)
        }),
        entry("set_enable", Function::Set(SetEnable), "RW", |a, _| {
            Call::SetEnable(odd(a))
        }),
        entry("clear_fifo", Function::Set(ClearFifo), "RW", |a, _| {
            Call::ClearFifo(direction(a))
        }),
        entry("enqueue_data", Function::Set(EnqueueData), "W", |a, _| {
            Call::EnqueueData(a)
        }),
        entry(
            "enqueue_transaction",
            Function::Set(EnqueueTransaction),
            "W",
            |frame_size, _| Call::EnqueueTransaction { frame_size },
        ),
        entry(
            "set_clock_hz",
            Function::Disabled(SetClockHz),
            "RRWMWRW",
            |a, b| {
                let (source_hz, clock_hz) = (a, b);
                Call::SetClockHz {
                    source_hz,
                    clock_hz,
                }
            },
        ),
        entry(
            "set_clock_configs",
            Function::Disabled(SetClockConfigs),
            "RRWMWRW",
            |a, _| {
                let [sckdiv, dbt, pcssck, sckpcs] = a.to_le_bytes();
                Call::SetClockConfigs(ClockConfigs {
                    sckpcs,
                    pcssck,
                    dbt,
                    sckdiv,
                })
            },
        ),
        entry(
            "set_sample_point",
            Function::Disabled(SetSamplePoint),
            "RRWMRWRW",
            |a, _| Call::SetSamplePoint { delayed: odd(a) },
        ),
        entry(
            "set_peripheral_enable",
            Function::Disabled(SetPeripheralEnable),
            "RRWMRWRW",
            |a, _| Call::SetPeripheralEnable(odd(a)),
        ),
        entry(
            "set_chip_select_polarity",
            Function::Disabled(SetChipSelectPolarity),
            "RRWMRRWRW",
            |a, b| Call::SetChipSelectPolarity {
                pcs: (a % 4) as u8,
                active_high: odd(b),
            },
        ),
        entry("watermark", Function::Get(Watermark), "R", |a, _| {
            Call::Watermark(direction(a))
        }),
        entry(
            "set_watermark",
            Function::Get(SetWatermark),
            "RRW",
            |a, b| Call::SetWatermark(direction(a), b as u8),
        ),
        entry("status", Function::Get(Status), "R", |_, _| Call::Status),
        entry("is_enabled", Function::Get(IsEnabled), "R", |_, _| {
            Call::IsEnabled
        }),
        entry("fifo_status", Function::Get(FifoStatus), "RR", |_, _| {
            Call::FifoStatus
        }),
        entry("read_data", Function::Get(ReadData), "RR", |_, _| {
            Call::ReadData
        }),
    ]
};

fn odd(parameter: u32) -> bool {
    parameter % 2 == 1
}

fn direction(parameter: u32) -> Direction {
    match odd(parameter) {
        true => Direction::Rx,
        false => Direction::Tx,
    }
}

/// A call with its parameters and limits.
#[derive(Debug)]
pub(super) struct Case {
    entry: &'static Entry,
    a: u32,
    b: u32,
    pub(super) driver: Lpspi,
    pub(super) limits: Limits,
}

impl Case {
    /// The place of the call in the list.
    pub(super) fn place(&self) -> usize {
        let place = CALLS.iter().position(|entry| entry.name == self.entry.name);
        place.expect("a call of the list")
    }

    /// The call with its arguments, as the program `lpspi` takes them.
    pub(super) fn text(&self) -> String {
        let Self { a, b, driver, .. } = *self;
        let name = self.entry.name;
        match self.call() {
            Call::ClearStatus(_) | Call::EnqueueData(_) => format!("{name} 0x{a:X}"),
            Call::SetEnable(_)
            | Call::ClearFifo(_)
            | Call::Watermark(_)
            | Call::SetSamplePoint { .. }
            | Call::SetPeripheralEnable(_) => format!("{name} {}", a % 2),
            Call::SetWatermark(..) => format!("{name} {} {}", a % 2, b % 0x100),
            Call::SetChipSelectPolarity { .. } => format!("{name} {} {}", a % 4, b % 2),
            Call::SetClockHz { .. } => format!("{name} {a} {b}"),
            Call::SetClockConfigs(_) => {
                let [sckpcs, pcssck, dbt, sckdiv] = a.to_be_bytes();
                format!("{name} {sckpcs} {pcssck} {dbt} {sckdiv}")
            }
            Call::EnqueueTransaction { .. } => {
                let order = u32::from(driver.bit_order.is_lsb());
                let (mode, pcs) = (driver.mode.number(), driver.pcs.number());
                format!("{name} {a} {order} {mode} {pcs}")
            }
            _ => name.to_owned(),
        }
    }

    /// The call's own value, as that program prints it.
    pub(super) fn value_text(&self, value: u64) -> String {
        match self.call() {
            Call::Watermark(_) | Call::SetWatermark(..) => format!("value {value}"),
            Call::Status => format!("status {value:08X}"),
            Call::IsEnabled if value == 1 => "enabled".to_owned(),
            Call::IsEnabled => "not enabled".to_owned(),
            Call::FifoStatus => {
                let [rxcount, txcount, rxcap, txcap] =
                    [0, 16, 32, 48].map(|bits| value >> bits & 0xFFFF);
                let full = |count, cap| if count >= cap { "full" } else { "not full" };
                let (tx, rx) = (full(txcount, txcap), full(rxcount, rxcap));
                format!("fifo {rxcount} {txcount} {rxcap} {txcap}\nTx {tx}\nRx {rx}")
            }
            Call::ReadData if value == 0 => "no word".to_owned(),
            Call::ReadData => format!("word {:08X}", value as u32),
            _ => String::new(),
        }
    }

    /// What the port leaves.
    fn port(&self) -> Left<u8> {
        let (parameters, driver) = ([self.a, self.b], self.driver.number());
        self.entry.function.port(parameters, driver, &self.limits)
    }

    fn call(&self) -> Call<'static> {
        (self.entry.call)(self.a, self.b)
    }

    /// The number that the scope document gives before the first access.
    fn refusal(&self) -> Option<u32> {
        if self.limits.refused() {
            return Some(5);
        }
        let zero = matches!(self.call(), Call::SetClockHz { .. }) && (self.a == 0 || self.b == 0);
        zero.then_some(6)
    }

    /// Whether the scope documents refuse an answer of PARAM: 01 by one exponent, 02 by
    /// either.
    fn refuses(&self, param: u32) -> bool {
        let [tx, rx] = exponents(param);
        match self.call() {
            Call::Init | Call::SetWatermark(Direction::Tx, _) => tx > 4,
            Call::SetWatermark(Direction::Rx, _) => rx > 4,
            Call::FifoStatus => too_deep(param),
            _ => false,
        }
    }

    /// What the run leaves as the scope document has it: the original's, with numbers
    /// 5, 6 and 7, no value but with 0, and `init`'s driver value.
    pub(super) fn judged(&self) -> Left<u8> {
        if let Some(number) = self.refusal() {
            return refused(number, self.driver, &self.limits);
        }
        // Where an answer is refused the original goes on or panics.
        let refuses = |param| self.refuses(param);
        let (number, outcome, log) = until_too_deep(self.limits.budget, refuses, |budget| {
            original_run(self.call(), self.driver, budget, &self.limits)
        });
        Left {
            number: number.expect("the original did not panic"),
            driver: match self.call() {
                Call::Init => Lpspi::default().number(),
                _ => driver_number(outcome.driver),
            },
            accesses: outcome.accesses,
            answers: outcome.answers,
            value: match outcome.result {
                Ok(value) if number == Some(0) => number_of(value),
                _ => 0,
            },
            buffer: vec![],
            log,
        }
    }
}

fn number_of(value: Value) -> u64 {
    match value {
        Value::Unit => 0,
        Value::Enabled(enabled) => enabled.into(),
        Value::Level(level) => level.into(),
        Value::Status(bits) => bits.into(),
        Value::FifoStatus(fifo) => [fifo.txcap, fifo.rxcap, fifo.txcount, fifo.rxcount]
            .iter()
            .fold(0, |number, part| number << 16 | u64::from(*part)),
        Value::Data(word) => word.map_or(0, |word| 1 << 32 | u64::from(word)),
    }
}
