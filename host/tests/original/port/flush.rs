//! Flushes at chosen places.

use super::script::{Sizes, and_sizes, flush_script};
use super::{DRIVER, REFUSED, judged_flush, stops};
use crate::common::branches::FlushBranch;
use crate::common::cases::{Cases, Tally};
use crate::common::registers::{ERRORS, RX_ERROR, TX_ERROR};
use crate::common::run::{Limits, MAX_BUDGET};
use crate::common::transfer::port_flush;
use crate::common::walk;

/// Stops before every access, and limits. Every branch must be reached.
#[test]
#[cfg_attr(not(original), ignore = "the original is missing")]
fn directed_flushes() {
    let mut cases = Cases::new("original: directed flushes");
    let mut tally = Tally::new(FlushBranch::all());
    let mut run = |limits: &Limits| {
        let left = port_flush(DRIVER, limits);
        cases.compare(limits, &left, || judged_flush(DRIVER, limits));
        tally.count(walk::of_flush(limits, &left));
        left
    };
    let polls = [
        ("d", 0),
        ("bfbfd", 0),
        ("t", 3),
        ("r", 2),
        ("x", 2),
        ("bbt", 3),
        ("ffr", 2),
        ("fbx", 2),
    ];
    for (signs, end) in polls {
        for sizes in Sizes::ALL {
            stops::before_every_access(&flush_script(signs, sizes), end, &mut run);
        }
    }
    // 7 right after PARAM, or the error of SR before it.
    for (signs, sizes) in ["", "b", "fbf"]
        .into_iter()
        .flat_map(|signs| Sizes::ALL.map(|sizes| (signs, sizes)))
    {
        for exponents in [[5, 4], [4, 5], [255, 0], [0, 255], [5, 5]] {
            let before = flush_script(signs, sizes);
            let script = and_sizes(&before, 0, exponents);
            stops::before_every_access(&script, 7, &mut run);
            for (errors, number) in [(RX_ERROR, 2), (TX_ERROR, 3), (ERRORS, 2)] {
                let script = and_sizes(&before, errors, exponents);
                let left = run(&Limits::new(MAX_BUDGET, &script));
                assert_eq!((left.number, left.answers), (number, before.len() + 1));
            }
        }
    }
    for (busy, number) in [(MAX_BUDGET - 3, 0), (MAX_BUDGET - 2, 4)] {
        let script = flush_script(&("b".repeat(busy) + "d"), Sizes::Any);
        let left = run(&Limits::new(MAX_BUDGET, &script));
        assert_eq!((left.number, left.accesses), (number, MAX_BUDGET));
    }
    for (budget, log_len) in REFUSED {
        let left = run(&Limits {
            budget,
            log_len,
            script: flush_script("d", Sizes::Any),
        });
        assert_eq!(left.number, 5);
    }
    tally.demand(&"flush", |_| 1);
}
