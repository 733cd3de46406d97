//! The functions of this crate where it was built without the original.

use crate::SOURCE;
use crate::call::{Call, Command, Driver, Failure, Outcome};

fn missing() -> ! {
    panic!("built without the original, {SOURCE}")
}

pub fn run(_: Call, _: Driver, _: usize, _: &[u32], _: &mut [u32]) -> Outcome {
    missing()
}

pub fn run_published(_: Call, _: Driver, _: usize, _: &[u32], _: &mut [u32]) -> Outcome {
    missing()
}

pub fn command_word(_: &Command) -> Result<u32, Failure> {
    missing()
}

pub fn clock_word(_: u32, _: u32) -> u32 {
    missing()
}

pub fn pack_words(_: bool, _: &[u8], _: usize, _: &mut [u32]) {
    missing()
}

pub fn unpack_words(_: bool, _: &[u32], _: usize, _: &mut [u8]) {
    missing()
}

pub fn pack_word(_: u32, _: bool, _: &[u32]) -> (u32, usize) {
    missing()
}

pub fn unpack_word(_: u32, _: bool, _: u32, _: usize) -> Vec<u32> {
    missing()
}
