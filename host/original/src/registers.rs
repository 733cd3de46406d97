//! The register block: a script of answers, a log of accesses and a budget.
//!
//! Made for the benchmark: pointers are faster than places in slices, and a block
//! that is not aligned is faster or slower by where the stack begins.

use crate::ral::{RORegister, WORegister};
use std::cell::Cell;
use std::marker::PhantomData;
use std::ops::Range;
use std::panic::resume_unwind;
use std::thread;

/// Unwinds out of a call that may make no more accesses.
pub struct Stopped;

/// Answers reads from a script and logs every access.
#[allow(non_snake_case)]
#[repr(align(64))]
pub struct Registers<'a> {
    /// The next place, one for each access of the budget.
    place: Cell<*mut [u32; 2]>,
    /// The end of the places; once the run has stopped, the next place.
    end: Cell<*mut [u32; 2]>,
    /// The next answer.
    answer: Cell<*const u32>,
    log: *mut [u32; 2],
    script: Range<*const u32>,
    _buffers: PhantomData<(&'a [u32], &'a mut [u32])>,
    // The driver hands out the addresses of these two, for DMA.
    pub RDR: RORegister<u32>,
    pub TDR: WORegister<u32>,
}

impl<'a> Registers<'a> {
    /// Panics if the log is shorter than twice the budget.
    pub fn new(budget: usize, script: &'a [u32], log: &'a mut [u32]) -> Self {
        let (log, _) = log.as_chunks_mut();
        let places = log
            .get_mut(..budget)
            .expect("the log has room for the budget")
            .as_mut_ptr_range();
        let script = script.as_ptr_range();
        Self {
            place: Cell::new(places.start),
            end: Cell::new(places.end),
            answer: Cell::new(script.start),
            log: places.start,
            script,
            _buffers: PhantomData,
            RDR: RORegister::default(),
            TDR: WORegister::default(),
        }
    }

    /// Accesses made.
    pub fn accesses(&self) -> usize {
        // Safety: both are in the log, and `place` only goes up.
        unsafe { self.place.get().offset_from_unsigned(self.log) }
    }

    /// Answers used.
    pub fn answers(&self) -> usize {
        // Safety: both are in the script, and `answer` only goes up.
        unsafe { self.answer.get().offset_from_unsigned(self.script.start) }
    }

    #[inline(always)]
    pub fn read(&self, address: u32) -> u32 {
        let (place, answer) = (self.place.get(), self.answer.get());
        if place == self.end.get() || answer == self.script.end {
            self.stop();
            return 0;
        }
        // Safety: neither is at its end, and each goes up by one.
        unsafe {
            let value = answer.read();
            place.write([address, value]);
            self.place.set(place.add(1));
            self.answer.set(answer.add(1));
            value
        }
    }

    #[inline(always)]
    pub fn write(&self, address: u32, value: u32) {
        let place = self.place.get();
        if place == self.end.get() {
            return self.stop();
        }
        // Safety: `place` is not at its end, and goes up by one.
        unsafe {
            place.write([0x1000 + address, value]);
            self.place.set(place.add(1));
        }
    }

    /// Unwinds. Returns only to a destructor that runs because of that: its accesses
    /// are not made.
    #[cold]
    #[inline(never)]
    fn stop(&self) {
        self.end.set(self.place.get());
        if !thread::panicking() {
            resume_unwind(Box::new(Stopped));
        }
    }
}
