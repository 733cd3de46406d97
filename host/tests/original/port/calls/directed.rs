//! Calls at chosen places: stops, frame sizes, clocks, exponents and limits.

use super::branches::Branch;
use super::{CALLS, Case, Entry};
use crate::common::cases::{Cases, Tally};
use crate::common::registers::{RXCOUNT, TXCOUNT, param};
use crate::common::run::{Left, Limits, MAX_BUDGET};
use crate::port::script::any_word;
use crate::port::{DRIVER, REFUSED, stops};

/// Calls, and the branches that they reach.
struct Directed {
    cases: Cases,
    tally: Tally<Branch>,
}

impl Directed {
    fn run(&mut self, entry: &'static Entry, (a, b): (u32, u32), limits: Limits) -> Left<u8> {
        let case = Case {
            entry,
            a,
            b,
            driver: DRIVER,
            limits,
        };
        let left = case.port();
        self.cases.compare(&case, &left, || case.judged());
        self.tally.count(Branch::of(&case, &left));
        left
    }

    /// Stops before every access of a call that ends with that number.
    fn stops(&mut self, entry: &'static Entry, parameters: (u32, u32), script: &[u32], end: u32) {
        let run = |limits: &Limits| self.run(entry, parameters, limits.clone());
        stops::before_every_access(script, end, run);
    }
}

fn call(name: &str) -> &'static Entry {
    let entry = CALLS.iter().find(|entry| entry.name == name);
    entry.expect("a call of the list")
}

/// The parameters of a call, which are accepted.
fn parameters(entry: &Entry) -> &'static [(u32, u32)] {
    match entry.name {
        "enqueue_transaction" => &[(8, 0), (4_096, 0)],
        "set_clock_hz" => &[(60_000_000, 4_000_000), (1, 1), (257, 1)],
        "set_watermark" => &[(0, 0), (0, 7), (0, 8), (1, 3), (1, 4), (1, 256)],
        _ => &[(0, 0), (1, 1), (2, u32::MAX), (0x8765_4321, 0)],
    }
}

/// The answers to a call's reads: `men` in MEN and RXEMPTY, but so many times MEN 1 in
/// a wait; exponents of 2 for the receive FIFO and of 0 or 3 for the transmit FIFO.
fn script(entry: &Entry, men: bool, waits: usize) -> Vec<u32> {
    let mut script = vec![];
    for access in entry.accesses.bytes() {
        match access {
            b'R' => {
                let low = if men { 0x203 } else { 0x200 };
                script.push(any_word(script.len()) & 0xFFFF_0000 | low);
            }
            b'M' => {
                script.extend(vec![1; waits]);
                script.push(0);
            }
            _ => {}
        }
    }
    if entry.name == "read_data" && men {
        script.truncate(1);
    }
    script
}

fn stops_everywhere(directed: &mut Directed) {
    for entry in &CALLS {
        let waits: &[usize] = match entry.accesses.contains('M') {
            true => &[0, 1, 3],
            false => &[0],
        };
        for parameters in parameters(entry) {
            for waits in waits {
                for men in [false, true] {
                    directed.stops(entry, *parameters, &script(entry, men, *waits), 0);
                }
            }
        }
    }
}

/// Every frame size up to some past the limit, and sizes of more than 16 bits.
fn frame_sizes(directed: &mut Directed) {
    let past_u16 = [65_536, 65_544, 65_576, 1 << 31, u32::MAX - 7, u32::MAX];
    for frame_size in (0..=4_200).chain(65_528..=65_535).chain(past_u16) {
        let accepted = (8..=4_096).contains(&frame_size) && frame_size % 32 != 1;
        let limits = Limits::new(1, &[]);
        let left = directed.run(call("enqueue_transaction"), (frame_size, 0), limits);
        assert_eq!(left.number, u32::from(!accepted));
    }
}

/// Sources around those at which the half divider changes, and clocks of 0.
fn clocks(directed: &mut Directed) {
    let entry = call("set_clock_hz");
    let limits = Limits::new(8, &script(entry, true, 1));
    for clock in [1, 1_000, 4_000_000, 1 << 24] {
        for half_divider in [1, 2, 3, 4, 127, 128, 129] {
            let middle = 2 * u64::from(clock) * half_divider;
            for source in (middle - 1..=middle + 1).filter_map(|source| source.try_into().ok()) {
                let left = directed.run(entry, (source, clock), limits.clone());
                assert_eq!(left.number, 0);
            }
        }
    }
    for clocks in [(0, 0), (0, 1), (1, 0), (u32::MAX, 0)] {
        assert_eq!(directed.run(entry, clocks, limits.clone()).number, 6);
    }
}

/// Every exponent, with the other direction's out of limits, and stops up to PARAM.
fn exponents(directed: &mut Directed) {
    for exponent in 0..=0xFF {
        let (tx, rx) = (0xFF00 | exponent, exponent << 8 | 0xFF);
        let calls = [
            ("init", 0, tx),
            ("set_watermark", 0, tx),
            ("set_watermark", 1, rx),
        ];
        for (name, direction, param) in calls {
            let entry = call(name);
            let mut answers = script(entry, false, 0);
            // PARAM is the last that `init` reads, and the first of `set_watermark`.
            let place = if name == "init" { answers.len() - 1 } else { 0 };
            answers[place] = param;
            if exponent <= 4 {
                directed.stops(entry, (direction, 9), &answers, 0);
            } else {
                directed.stops(entry, (direction, 9), &answers[..=place], 7);
            }
        }
        // Of `fifo_status` either counts.
        for other in [0, 4, 5, 255] {
            for exponents in [[exponent, other], [other, exponent]] {
                let answers = [0xABCD_0000 | param(exponents), any_word(1)];
                let fits = exponents.iter().all(|exponent| *exponent <= 4);
                let (read, end) = if fits { (2, 0) } else { (1, 7) };
                directed.stops(call("fifo_status"), (0, 0), &answers[..read], end);
            }
        }
    }
    // Every depth in both directions, with every count around it.
    for [tx, rx] in (0..5).flat_map(|tx| (0..5).map(move |rx| [tx, rx])) {
        for less in [1, 0] {
            for more in [0, 1] {
                let counts = [tx, rx].map(|exponent| (1 << exponent) - less + more);
                let fsr = any_word(1) & !(TXCOUNT | RXCOUNT) | counts[1] << 16 | counts[0];
                let answers = [0xABCD_0000 | param([tx, rx]), fsr];
                directed.stops(call("fifo_status"), (0, 0), &answers, 0);
            }
        }
    }
}

/// Waits up to 8,000 accesses, and one that would take more; limits that are refused.
fn limits(directed: &mut Directed) {
    for entry in &CALLS {
        let valid = parameters(entry)[0];
        if entry.accesses.contains('M') {
            let most = MAX_BUDGET - entry.accesses.len();
            for (waits, number) in [(most, 0), (most + 1, 4)] {
                let limits = Limits::new(MAX_BUDGET, &script(entry, true, waits));
                let left = directed.run(entry, valid, limits);
                assert_eq!((left.number, left.accesses), (number, MAX_BUDGET));
            }
        }
        // A clock or a frame size of 0 is looked at later.
        for (budget, log_len) in REFUSED {
            for a in [valid.0, 0] {
                let limits = Limits {
                    budget,
                    log_len,
                    script: script(entry, false, 0),
                };
                assert_eq!(directed.run(entry, (a, valid.1), limits).number, 5);
            }
        }
    }
}

/// All of the above. Every branch must be reached.
#[test]
#[cfg_attr(not(original), ignore = "the original is missing")]
fn directed_calls() {
    let mut directed = Directed {
        cases: Cases::new("original: directed calls"),
        tally: Tally::new(Branch::all()),
    };
    stops_everywhere(&mut directed);
    frame_sizes(&mut directed);
    clocks(&mut directed);
    exponents(&mut directed);
    limits(&mut directed);
    directed.tally.demand(&"calls", |_| 1);
}
