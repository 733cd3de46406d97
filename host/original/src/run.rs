//! Runs. A child module of lpspi.rs, which there is with depths and as published.

use super::calls;
use crate::call::{Call, Driver, Failure, Outcome};
use crate::ral::{Instance, lpspi::RegisterBlock};
use crate::registers::{Registers, Stopped};
use std::panic::{AssertUnwindSafe, catch_unwind};
use std::ptr;

/// Makes a call with a driver of the given value.
///
/// The run stops before an access once `budget` accesses are made, and before a
/// read once the script is used up. It has no other limits: a call that 01 refuses
/// with a number of its own goes on here, or panics. Destructors make no accesses
/// after a stop, but they do after a panic. Places of the log past the accesses made
/// are kept.
///
/// # Panics
///
/// If the log is shorter than twice the budget.
pub fn run(call: Call, driver: Driver, budget: usize, script: &[u32], log: &mut [u32]) -> Outcome {
    let registers = Registers::new(budget, script, log);
    // Safety: the driver below and its copies of the instance are gone before
    // `registers`, and nobody else is given the reference.
    let block = unsafe { &*ptr::from_ref(&registers).cast::<RegisterBlock>() };
    let mut spi = calls::with_value(Instance::new(block), driver);

    let result = match catch_unwind(AssertUnwindSafe(|| calls::call(&mut spi, call))) {
        Ok(returned) => returned,
        Err(payload) if payload.is::<Stopped>() => Err(Failure::Stopped),
        Err(_) => Err(Failure::Panicked),
    };
    Outcome {
        result,
        accesses: registers.accesses(),
        answers: registers.answers(),
        driver: calls::value(&spi),
    }
}
