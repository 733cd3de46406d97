//! Trials: two boards on one bus, and a list of events.

use crate::error::{Error, answer};
use crate::raw::{self, END_STATE, Event, PAIR_STATE};
use crate::{Element, Lpspi};

/// What an end of the bus starts with.
#[derive(Debug)]
pub struct Board<'a, W> {
    /// The driver's value.
    pub driver: Lpspi,
    /// Whether `read` is sent as well. `write` does not count then.
    pub in_place: bool,
    /// Both FIFOs have so many places as a power of 2, at most 4. A command takes one: with
    /// 0 the board never sends a word.
    pub exponent: usize,
    /// Received into.
    pub read: &'a mut [W],
    /// Sent.
    pub write: &'a [W],
}

/// The state of an end after a list of events.
#[derive(Debug, Clone, Copy, PartialEq, Eq)]
pub struct EndState {
    words: [u32; END_STATE],
    commands: u32,
}

impl EndState {
    /// What the transfer has answered, if it has.
    pub fn transfer(&self) -> Option<Result<(), Error>> {
        answered(self.words[0])
    }

    /// What the flush has answered, if it has.
    pub fn flush(&self) -> Option<Result<(), Error>> {
        answered(self.words[1])
    }

    /// Whether transfer and flush have both answered Ok.
    pub fn ok_twice(&self) -> bool {
        [self.transfer(), self.flush()] == [Some(Ok(())); 2]
    }

    /// The flag T: a transmit error.
    pub fn transmit_error(&self) -> bool {
        self.words[2] == 1
    }

    /// The flag R: a receive error.
    pub fn receive_error(&self) -> bool {
        self.words[3] == 1
    }

    /// The commands still queued: they stand before the words to be sent, and leave
    /// with the first.
    pub fn commands(&self) -> usize {
        self.commands as usize
    }

    /// The words still to be sent, in their order.
    pub fn to_send(&self) -> &[u32] {
        &self.words[6..][..self.words[4] as usize]
    }

    /// The words that arrived and are still to be read, in their order.
    pub fn to_read(&self) -> &[u32] {
        &self.words[22..][..self.words[5] as usize]
    }

    /// The 30 registers, by their offset divided by 4.
    pub fn registers(&self) -> &[u32] {
        &self.words[38..]
    }
}

fn answered(number: u32) -> Option<Result<(), Error>> {
    (number != 255).then(|| answer(number, ()))
}

/// What a list of events leaves, besides the read buffers.
#[derive(Debug, Clone, Copy, PartialEq, Eq)]
pub struct Trial {
    /// The gate's end.
    pub gate: EndState,
    /// The antenna's end.
    pub antenna: EndState,
}

/// Lets the events happen to a gate and an antenna, both fresh.
///
/// Elements not received are kept.
///
/// Boards that make no pair are refused with [`Error::Unpaired`]: there are no ends
/// then, and the read buffers are as found.
pub fn trial<W: Element>(
    gate: Board<W>,
    antenna: Board<W>,
    events: &[Event],
) -> Result<Trial, Error> {
    let mut state = [0; PAIR_STATE];
    let number = raw::trial(
        gate.driver.number(),
        antenna.driver.number(),
        u32::from(gate.in_place) | u32::from(antenna.in_place) << 1,
        gate.exponent,
        antenna.exponent,
        gate.read,
        gate.write,
        antenna.read,
        antenna.write,
        Event::numbers(events),
        &mut state,
    );
    let (ends, commands) = state.split_at(2 * END_STATE);
    let end = |place: usize| EndState {
        words: ends.as_chunks().0[place],
        commands: commands[place],
    };
    let (gate, antenna) = (end(0), end(1));
    answer(number, Trial { gate, antenna })
}
