//! Two boards on one bus, with the original at each end. Written from the scope
//! document's text, and from request No. 2's: a command takes a place of the transmit
//! queue and leaves with the next word behind it.
//!
//! An end waits at each of its accesses. The one that it makes next is had by running
//! its call again on the answers that it has had. That takes long, so guesses of the
//! next answers follow: as long as they turn out to be right, so do the accesses.

use crate::{Call, Driver, Element, Outcome, Transfer, run};
use std::collections::VecDeque;

const PARAM: u32 = 0x04;
const CR: u32 = 0x10;
const SR: u32 = 0x14;
const FSR: u32 = 0x5C;
const TCR: u32 = 0x60;
const TDR: u32 = 0x64;
const RDR: u32 = 0x74;
const WRITE: u32 = 0x1000;

/// The result number of a run that stopped.
const STOPPED: u32 = 4;
/// A greater exponent is refused.
const GREATEST_EXPONENT: usize = 4;
/// Registers, by their offset divided by 4.
const REGISTERS: usize = 30;
/// How many answers are guessed.
const GUESSES: usize = 14;
/// Words of [`End::state`].
pub const STATE: usize = 38 + REGISTERS;

/// One of the two ends.
#[derive(Debug, Clone, Copy, PartialEq, Eq)]
#[allow(missing_docs)]
pub enum Side {
    Gate,
    Antenna,
}

/// A flag of an end.
#[derive(Debug, Clone, Copy, PartialEq, Eq)]
#[allow(missing_docs)]
pub enum Flag {
    T,
    R,
}

/// What happens on the bus.
#[derive(Debug, Clone, Copy, PartialEq, Eq)]
pub enum Event {
    /// The next access of an end.
    Step {
        /// The end.
        side: Side,
        /// The busy bit that SR shows.
        busy: bool,
    },
    /// A word goes each way.
    Clock,
    /// Sets a flag of an end.
    Noise(Side, Flag),
}

impl Event {
    /// All events, in the order of their numbers.
    pub const ALL: [Self; 9] = {
        use Flag::{R, T};
        use Side::{Antenna, Gate};
        [
            Self::step(Gate, false),
            Self::step(Gate, true),
            Self::step(Antenna, false),
            Self::step(Antenna, true),
            Self::Clock,
            Self::Noise(Gate, T),
            Self::Noise(Gate, R),
            Self::Noise(Antenna, T),
            Self::Noise(Antenna, R),
        ]
    };

    const fn step(side: Side, busy: bool) -> Self {
        Self::Step { side, busy }
    }
}

/// What an end starts with.
#[derive(Debug, Clone)]
pub struct Board<W> {
    /// The driver's value.
    pub driver: Driver,
    /// Whether `read` is sent as well, by `exchange`. There is no other buffer then.
    pub in_place: bool,
    /// Each queue has room for so many words as a power of 2.
    pub exponent: usize,
    /// Received into.
    pub read: Vec<W>,
    /// Sent.
    pub write: Vec<W>,
}

impl<W: Element> Board<W> {
    /// The elements that the end starts with.
    pub fn sent(&self) -> &[W] {
        if self.in_place {
            &self.read
        } else {
            &self.write
        }
    }

    /// Elements of the longer buffer.
    pub fn total(&self) -> usize {
        self.read.len().max(self.sent().len())
    }

    /// Runs a call of the end on a budget of accesses and the answers to its reads.
    /// Answers also what it leaves in the read buffer.
    fn run(
        &self,
        flush: bool,
        budget: usize,
        script: &[u32],
        log: &mut Vec<u32>,
    ) -> (Outcome, Vec<W>) {
        let mut read = self.read.clone();
        let call = match (flush, self.in_place) {
            (true, _) => Call::Flush,
            (false, true) => W::call(Transfer::Exchange(&mut read)),
            (false, false) => W::call(Transfer::ExchangeSeparate {
                read: &mut read,
                write: &self.write,
            }),
        };
        log.resize(log.len().max(2 * budget), 0);
        let outcome = run(call, self.driver, budget, script, log);
        (outcome, read)
    }
}

/// A call of an end, as far as it has come.
#[derive(Default)]
struct Progress {
    accesses: usize,
    /// The answers to its reads.
    script: Vec<u32>,
    /// The number of its result, once it has one.
    number: Option<u32>,
}

/// What takes a place of a transmit queue.
#[derive(Debug, Clone, Copy, PartialEq, Eq)]
enum Queued {
    Command,
    Word(u32),
}

/// What happened to an end.
#[derive(Debug, Default, Clone, Copy)]
pub struct Happened {
    /// Words and commands lost by a write of TDR or TCR.
    pub lost_sent: u32,
    /// Words written to TDR.
    pub sent: u32,
    /// Commands written to TCR.
    pub commands: u32,
    /// Of these, where something was queued already.
    pub commands_behind: u32,
    /// Commands that RTF or RST took out of the queue.
    pub commands_cleared: u32,
    /// Clocks (at the antenna: underruns) that found a command and no word.
    pub commands_kept: u32,
    /// Words lost by arriving at a full queue.
    pub lost_received: u32,
    /// Words made up where there was none to be sent.
    pub made_up: u32,
    /// Whether the transmit queue was full once.
    pub filled: bool,
    /// Whether the transfer ended with a write of SR, as a recovery does.
    pub recovered: bool,
}

/// One end of the bus.
pub struct End {
    exponent: usize,
    t: bool,
    r: bool,
    transmit: VecDeque<Queued>,
    receive: VecDeque<u32>,
    registers: [u32; REGISTERS],
    /// The transfer and the flush.
    calls: [Progress; 2],
    /// The accesses to be made next: the register, plus [`WRITE`] for a write, and the
    /// value written or guessed. There is no other after a wrong guess.
    next: VecDeque<[u32; 2]>,
    /// The number of the current call's result, if it has one after these.
    ending: Option<u32>,
    /// The register of the last access.
    last: u32,
    /// What happened so far.
    pub happened: Happened,
}

impl End {
    fn fresh(exponent: usize) -> Self {
        let mut registers = [0; REGISTERS];
        registers[CR as usize / 4] = 1;
        Self {
            exponent,
            t: false,
            r: false,
            transmit: VecDeque::new(),
            receive: VecDeque::new(),
            registers,
            calls: Default::default(),
            next: VecDeque::new(),
            ending: None,
            last: 0,
            happened: Happened::default(),
        }
    }

    /// Words that a queue has room for.
    pub fn capacity(&self) -> usize {
        1 << self.exponent
    }

    /// Places taken in the transmit queue and in the receive queue.
    pub fn counts(&self) -> [usize; 2] {
        [self.transmit.len(), self.receive.len()]
    }

    /// The words to be sent.
    fn words(&self) -> impl Iterator<Item = u32> {
        self.transmit.iter().filter_map(|queued| match queued {
            Queued::Command => None,
            Queued::Word(word) => Some(*word),
        })
    }

    /// Commands in the transmit queue.
    pub fn commands(&self) -> usize {
        self.transmit.len() - self.words().count()
    }

    /// Whether T or R is set.
    pub fn flagged(&self) -> bool {
        self.t || self.r
    }

    /// Whether a clock finds a word to send and room for the one that arrives.
    pub fn ready(&self) -> bool {
        self.words().next().is_some() && self.receive.len() < self.capacity()
    }

    /// Takes out the first word to be sent, and the commands before it. Where there is
    /// no word, commands stay.
    fn send(&mut self) -> Option<u32> {
        let word = self.words().next();
        match word {
            Some(_) => while self.transmit.pop_front() == Some(Queued::Command) {},
            None => self.happened.commands_kept += u32::from(!self.transmit.is_empty()),
        }
        word
    }

    /// The numbers of the transfer's and the flush's results, of those that have one.
    pub fn numbers(&self) -> [Option<u32>; 2] {
        [self.calls[0].number, self.calls[1].number]
    }

    /// Accesses of the transfer.
    pub fn accesses(&self) -> usize {
        self.calls[0].accesses
    }

    /// Whether transfer and flush have both answered Ok.
    pub fn ok_twice(&self) -> bool {
        self.numbers() == [Some(0); 2]
    }

    /// Whether the flush has answered.
    pub fn finished(&self) -> bool {
        self.calls[1].number.is_some()
    }

    /// The state in words: both result numbers or 255, flags, counts of words, 16
    /// places for the words of each queue, and the registers.
    pub fn state(&self) -> [u32; STATE] {
        let mut state = [0; STATE];
        let [transfer, flush] = self.numbers().map(|number| number.unwrap_or(255));
        let queues: [Vec<u32>; 2] = [
            self.words().collect(),
            self.receive.iter().copied().collect(),
        ];
        let [transmit, receive] = queues.each_ref().map(|queue| queue.len() as u32);
        let front = [
            transfer,
            flush,
            self.t.into(),
            self.r.into(),
            transmit,
            receive,
        ];
        state[..6].copy_from_slice(&front);
        for (first, queue) in [6, 22].into_iter().zip(queues) {
            state[first..][..queue.len()].copy_from_slice(&queue);
        }
        state[38..].copy_from_slice(&self.registers);
        state
    }

    fn read(&mut self, address: u32, busy: bool) -> u32 {
        let bit = |set: bool, place: u32| u32::from(set) << place;
        match address {
            PARAM => (self.exponent << 8 | self.exponent) as u32,
            SR => bit(self.t, 11) | bit(self.r, 12) | bit(busy, 24),
            FSR => (self.receive.len() << 16 | self.transmit.len()) as u32,
            RDR => self.receive.pop_front().unwrap_or(0),
            _ => self.registers[address as usize / 4],
        }
    }

    fn write(&mut self, address: u32, value: u32) {
        let bit = |place: u32| value >> place & 1 == 1;
        match address {
            SR => {
                self.t &= !bit(11);
                self.r &= !bit(12);
            }
            TDR => {
                self.happened.sent += 1;
                self.queue(Queued::Word(value));
            }
            TCR => {
                self.happened.commands += 1;
                self.happened.commands_behind += u32::from(!self.transmit.is_empty());
                self.queue(Queued::Command);
                self.registers[TCR as usize / 4] = value;
            }
            CR => {
                let (rst, rtf, rrf) = (bit(1), bit(8), bit(9));
                if rst || rtf {
                    self.happened.commands_cleared += self.commands() as u32;
                    self.transmit.clear();
                }
                if rst || rrf {
                    self.receive.clear();
                }
                if rst {
                    (self.t, self.r) = (false, false);
                }
                self.registers[CR as usize / 4] = value & !(1 << 8 | 1 << 9);
            }
            PARAM | FSR | RDR => {}
            _ => self.registers[address as usize / 4] = value,
        }
    }

    /// A word or a command is queued, unless the queue is full.
    fn queue(&mut self, queued: Queued) {
        if self.transmit.len() == self.capacity() {
            self.t = true;
            self.happened.lost_sent += 1;
        } else {
            self.transmit.push_back(queued);
            self.happened.filled |= self.transmit.len() == self.capacity();
        }
    }

    /// A word arrives.
    fn receive(&mut self, word: u32) {
        if self.receive.len() == self.capacity() {
            self.r = true;
            self.happened.lost_received += 1;
        } else {
            self.receive.push_back(word);
        }
    }

    /// The call that the end is in: 0 the transfer, 1 the flush.
    fn current(&self) -> usize {
        usize::from(self.calls[0].number.is_some())
    }

    /// Makes the next access, if there is one. Answers whether there was.
    fn access(&mut self, busy: bool) -> bool {
        let Some([address, value]) = self.next.pop_front() else {
            return false;
        };
        let current = self.current();
        if address < WRITE {
            let answer = self.read(address, busy);
            self.calls[current].script.push(answer);
            if answer != value {
                self.next.clear();
                self.ending = None;
            }
        } else {
            self.write(address - WRITE, value);
        }
        self.calls[current].accesses += 1;
        self.last = address;
        true
    }

    /// The next answers, if the call polls and nothing changes.
    fn guesses(&mut self) -> impl Iterator<Item = u32> + use<> {
        let poll = [SR, PARAM, FSR];
        let answered = poll.iter().position(|address| *address == self.last);
        let first = answered.map_or(0, |place| place + 1);
        let answers = poll.map(|address| self.read(address, false));
        answers.into_iter().cycle().skip(first).take(GUESSES)
    }

    /// Finds the next accesses of the end, and the results of calls that make no more.
    fn advance<W: Element>(&mut self, board: &Board<W>, log: &mut Vec<u32>) {
        while self.next.is_empty() && !self.finished() {
            let current = self.current();
            if self.ending.is_some() {
                self.calls[current].number = self.ending.take();
                self.happened.recovered |= current == 0 && self.last == WRITE + SR;
                continue;
            }
            let guesses = self.guesses();
            let Progress {
                accesses, script, ..
            } = &mut self.calls[current];
            let had = script.len();
            script.extend(guesses);
            let budget = *accesses + 2 * GUESSES;
            let (outcome, _) = board.run(current == 1, budget, script, log);
            script.truncate(had);
            let number = outcome.number().expect("the original did not panic");
            self.ending = Some(number).filter(|number| *number != STOPPED);
            let made = &log[2 * *accesses..2 * outcome.accesses];
            self.next.extend(made.as_chunks().0);
            assert!(!self.next.is_empty() || self.ending.is_some());
        }
    }
}

/// Both ends and what they started with, the gate first.
pub struct Bus<W> {
    boards: [Board<W>; 2],
    ends: [End; 2],
    refused: bool,
    log: Vec<u32>,
    /// The read buffers, after so many accesses of the transfer.
    buffers: [(usize, Vec<W>); 2],
}

impl<W: Element> Bus<W> {
    /// Both ends fresh. Where they make no pair they stay so. The widths are equal.
    pub fn fresh(boards: [Board<W>; 2]) -> Self {
        let [gate, antenna] = &boards;
        let refused = gate.exponent.max(antenna.exponent) > GREATEST_EXPONENT
            || gate.driver.lsb != antenna.driver.lsb
            || gate.total() != antenna.total();
        let mut log = vec![];
        let ends = [gate, antenna].map(|board| {
            let mut end = End::fresh(board.exponent);
            end.advance(board, &mut log);
            end
        });
        let buffers = [(0, gate.read.clone()), (0, antenna.read.clone())];
        Self {
            boards,
            ends,
            refused,
            log,
            buffers,
        }
    }

    /// The number of the pair's entry.
    pub fn number(&self) -> u32 {
        if self.refused { 9 } else { 0 }
    }

    /// What an end started with.
    pub fn board(&self, side: Side) -> &Board<W> {
        &self.boards[side as usize]
    }

    /// An end.
    pub fn end(&self, side: Side) -> &End {
        &self.ends[side as usize]
    }

    /// Lets an event happen.
    pub fn event(&mut self, event: Event) {
        if self.refused {
            return;
        }
        match event {
            Event::Step { side, busy } => {
                let end = &mut self.ends[side as usize];
                if end.access(busy) {
                    end.advance(&self.boards[side as usize], &mut self.log);
                }
            }
            Event::Clock => self.clock(),
            Event::Noise(side, flag) => {
                let end = &mut self.ends[side as usize];
                match flag {
                    Flag::T => end.t = true,
                    Flag::R => end.r = true,
                }
            }
        }
    }

    fn clock(&mut self) {
        let [gate, antenna] = &mut self.ends;
        let Some(word) = gate.send() else {
            return;
        };
        let back = antenna.send().unwrap_or_else(|| {
            antenna.t = true;
            antenna.happened.made_up += 1;
            0
        });
        antenna.receive(word);
        gate.receive(back);
    }

    /// The read buffer of an end as it is now.
    pub fn buffer(&mut self, side: Side) -> &[W] {
        let Progress {
            accesses, script, ..
        } = &self.ends[side as usize].calls[0];
        let (after, buffer) = &mut self.buffers[side as usize];
        if *after != *accesses {
            let board = &self.boards[side as usize];
            *after = *accesses;
            (_, *buffer) = board.run(false, *accesses, script, &mut self.log);
        }
        buffer
    }
}
