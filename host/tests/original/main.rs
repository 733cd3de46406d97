//! The original over script and log, with the FIFOs' depths and as published, and the port
//! against it.
//!
//! Where the source is missing all these tests are ignored.

mod bus;
mod buslog;
mod calls;
#[path = "../common/mod.rs"]
mod common;
mod depth;
mod differences;
mod port;
mod transfers;

use common::run::{found, listing};
use original::{Call, Driver, Outcome, run};

/// A driver none of whose settings is the starting one.
const SET: Driver = Driver {
    lsb: true,
    mode: 3,
    pcs: 2,
    dbt: 0x12,
    sckdiv: 0x34,
};

/// Makes a call that leaves the log past its accesses as found, and lists them.
fn listed(call: Call, driver: Driver, budget: usize, script: &[u32]) -> (Outcome, Vec<String>) {
    let mut log = found(2 * budget + 2);
    let outcome = run(call, driver, budget, script, &mut log);
    let made = 2 * outcome.accesses;
    assert_eq!(log[made..], found(log.len())[made..]);
    (outcome, listing(&log[..made]))
}
