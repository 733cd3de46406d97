//! The branches of the other calls.

use super::{CALLS, Case, Entry, odd};
use crate::common::branches::{Along, restored, stops};
use crate::common::registers::{PARAM, RXCOUNT, TXCOUNT, exponents};
use crate::common::run::{Cause, Left};
use std::cmp::Ordering;
use std::collections::BTreeSet;

/// A branch of a call, with its name where there are several.
#[derive(Debug, Clone, Copy, PartialEq, Eq, PartialOrd, Ord)]
pub enum Branch {
    /// With that number.
    Ended(&'static str, u32),
    /// Before the access of that place in the call's table.
    Stopped(&'static str, usize, Cause),
    /// After so many reads of MEN 1: 0, 1, or 2 for several.
    Waited(&'static str, usize),
    /// MEN at the end, as it was before.
    Restored(&'static str, bool),
    /// `read_data` gave a word, or none.
    Word(bool),
    /// `set_watermark` of a direction set a level less than asked for, or not.
    Level { rx: bool, lowered: bool },
    /// `fifo_status` of a FIFO of that exponent that is full, or not.
    Depth { rx: bool, exponent: u32, full: bool },
    /// `set_clock_hz`: the half divider is less than 3, within, or over 128.
    HalfDivider(Ordering),
}

/// Whether the call ends with MEN as it was before.
fn restores(entry: &Entry) -> bool {
    entry.name != "init" && entry.accesses.contains('M')
}

impl Branch {
    /// All branches.
    pub fn all() -> Vec<Self> {
        use Branch::*;
        let mut all = vec![Ended("enqueue_transaction", 1), Ended("set_clock_hz", 6)];
        all.extend(["init", "set_watermark", "fifo_status"].map(|name| Ended(name, 7)));
        all.extend([Word(false), Word(true)]);
        for rx in [false, true] {
            all.extend([false, true].map(|lowered| Level { rx, lowered }));
            for exponent in 0..=4 {
                all.extend([false, true].map(|full| Depth { rx, exponent, full }));
            }
        }
        all.extend([Ordering::Less, Ordering::Equal, Ordering::Greater].map(HalfDivider));
        for call in &CALLS {
            let (name, table) = (call.name, call.accesses);
            all.extend([0, 4, 5].map(|number| Ended(name, number)));
            all.extend(stops(table).map(|(place, cause)| Stopped(name, place, cause)));
            if table.contains('M') {
                all.extend([0, 1, 2].map(|reads| Waited(name, reads)));
            }
            if restores(call) {
                all.extend([Restored(name, false), Restored(name, true)]);
            }
        }
        all
    }

    /// The branches of a call.
    pub fn of(case: &Case, left: &Left<u8>) -> BTreeSet<Self> {
        let (name, table) = (case.entry.name, case.entry.accesses);
        let mut along = Along::new(table);
        left.made().for_each(|access| along.access(access));
        let mut reached = BTreeSet::from([Self::Ended(name, left.number)]);
        reached.extend(along.ended_wait().map(|reads| Self::Waited(name, reads)));
        match left.number {
            0 => {
                let without_word = name == "read_data" && left.value == 0;
                assert_eq!(along.place, table.len() - usize::from(without_word));
                reached.extend(Self::of_value(case, left));
                reached.extend(Self::of_depths(case, left));
                if restores(case.entry) {
                    reached.insert(Self::Restored(name, restored(left)));
                }
            }
            4 => {
                let cause = left.cause(&case.limits);
                reached.insert(Self::Stopped(name, along.place, cause));
            }
            7 => assert_eq!(
                left.made().last().map(|(register, _)| register),
                Some(PARAM)
            ),
            _ => assert_eq!((left.accesses, left.answers), (0, 0)),
        }
        reached
    }

    /// The branches of both FIFOs of `fifo_status`, off its log.
    fn of_depths(case: &Case, left: &Left<u8>) -> Vec<Self> {
        let made: Vec<_> = left.made().map(|(_, value)| value).collect();
        let ("fifo_status", [param, fsr]) = (case.entry.name, &made[..]) else {
            return vec![];
        };
        let fifo = |rx, exponent, count| Self::Depth {
            rx,
            exponent,
            full: count >= 1 << exponent,
        };
        let [tx, rx] = exponents(*param);
        vec![
            fifo(false, tx, fsr & TXCOUNT),
            fifo(true, rx, (fsr & RXCOUNT) >> 16),
        ]
    }

    /// The branch that the value depends on, or the clock.
    fn of_value(case: &Case, left: &Left<u8>) -> Option<Self> {
        match case.entry.name {
            "read_data" => Some(Self::Word(left.accesses == 2)),
            "set_watermark" => Some(Self::Level {
                rx: odd(case.a),
                lowered: left.value < u64::from(case.b as u8),
            }),
            "set_clock_hz" => {
                let (source, clock) = (u64::from(case.a), u64::from(case.b));
                let half_divider = 1 + (source - 1) / (2 * clock);
                let clamped = half_divider.clamp(3, 128);
                Some(Self::HalfDivider(half_divider.cmp(&clamped)))
            }
            _ => None,
        }
    }
}
