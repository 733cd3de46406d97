//! Random calls.

use super::branches::Branch;
use super::{CALLS, Case};
use crate::common::Random;
use crate::common::cases::Tally;
use crate::common::registers::{RXCOUNT, RXFIFO, TXCOUNT, TXFIFO, param};
use crate::common::run::{Limits, MAX_BUDGET};
use crate::port::random_driver;

impl Case {
    pub(in crate::port) fn random(random: &mut Random) -> Self {
        let entry = &CALLS[random.below(CALLS.len())];
        let mut parameter = || match random.below(4) {
            0 => random.below(3) as u32,
            1 => random.below(4_200) as u32,
            _ => random.word(),
        };
        let (mut a, b) = (parameter(), parameter());
        if entry.name == "enqueue_transaction" && random.chance(192) {
            a = 8 + random.below(4_089) as u32;
        }
        let driver = random_driver(random);
        // MEN mostly 0, so that waits end, and exponents of 0 or 4 in half of the scripts.
        let any_men = [32, 32, 32, 256][random.below(4)];
        let small = random.flag();
        let answer = |random: &mut Random| {
            let word = random.word() & if random.chance(any_men) { !0 } else { !1 };
            if small { word & 0xFFFF_0404 } else { word }
        };
        let mut script: Vec<u32> = (0..random.below(40)).map(|_| answer(random)).collect();
        if entry.name == "fifo_status" && random.chance(224) {
            fifo_answers(random, &mut script);
        }
        let budget = match random.below(40) {
            0 => MAX_BUDGET + 1,
            1..5 => random.below(4),
            5..20 => random.below(40),
            _ => 60,
        };
        let log_len = match random.below(20) {
            0 => (2 * budget).saturating_sub(1 + random.below(3)),
            _ => 2 * budget + random.below(5),
        };
        Self {
            entry,
            a,
            b,
            driver,
            limits: Limits {
                budget,
                log_len,
                script,
            },
        }
    }
}

/// Any depths for PARAM, and for FSR counts at and around them.
fn fifo_answers(random: &mut Random, script: &mut [u32]) {
    let exponents = [0; 2].map(|_| random.below(5) as u32);
    let counts =
        exponents.map(|exponent| ((1 << exponent) + random.below(3) as u32).saturating_sub(1));
    let answers = [
        (TXFIFO | RXFIFO, param(exponents)),
        (TXCOUNT | RXCOUNT, counts[1] << 16 | counts[0]),
    ];
    for (answer, (mask, value)) in script.iter_mut().zip(answers) {
        *answer = *answer & !mask | value;
    }
}

/// Every branch must be reached, but for the places of stops.
#[test]
#[cfg_attr(not(original), ignore = "the original is missing")]
fn calls_of_both() {
    let mut random = Random::new("original: calls");
    let mut tally = Tally::new(Branch::all());
    for _ in 0..60_000 {
        let case = Case::random(&mut random);
        let left = case.port();
        random.cases.compare(&case, &left, || case.judged());
        tally.count(Branch::of(&case, &left));
    }
    tally.demand(&"calls", |branch| match branch {
        Branch::Stopped(..) => 0,
        Branch::Waited(..) => 1,
        _ => 20,
    });
}
