//! Reads the branches of a run off its inputs and its log, by the rules of the scope
//! document.

use super::branches::{Along, Branch, Fields, FlushBranch, RECOVERY, Turn, restored};
use super::registers::{
    BUSY, ERRORS, FSR, PARAM, RX_ERROR, RXCOUNT, SR, TX_ERROR, TXCOUNT, TXFIFO,
};
use super::run::{Left, Limits};
use super::transfer::{Element, Kind, Sides, Transfer};
use std::cmp::Ordering;
use std::collections::BTreeSet;

/// Follows the log of a transfer.
struct Walk<'a, W> {
    transfer: &'a Transfer<W>,
    reached: BTreeSet<Branch>,
    turn: Turn,
    /// In the poll.
    place: usize,
    recovery: Along,
    /// The words of the transmit FIFO.
    depth: u32,
    /// Words that are left to send and to receive.
    to_send: usize,
    to_receive: usize,
    unready: usize,
}

impl<W: Element> Walk<'_, W> {
    fn access(&mut self, (register, value): (u32, u32)) {
        if self.turn == Turn::Recovery {
            return self.recovery.access((register, value));
        }
        assert_eq!(register, self.turn.registers()[self.place]);
        self.place += 1;
        match self.place {
            1 => self.status(value),
            2 => self.sizes(value),
            3 => self.counts(value),
            _ => self.word(),
        }
    }

    fn status(&mut self, sr: u32) {
        let (tx, rx) = (sr & TX_ERROR != 0, sr & RX_ERROR != 0);
        let (failed, ignored) = match self.turn {
            Turn::Rx => (rx, tx),
            _ => (tx, rx),
        };
        if failed {
            self.reached.insert(Branch::Error(self.turn));
            if self.turn != Turn::Command {
                self.turn = Turn::Recovery;
            }
        } else if ignored {
            self.reached.insert(Branch::Ignored(self.turn));
        }
    }

    /// The run must end here where an exponent is over 4.
    fn sizes(&mut self, param: u32) {
        match Fields::over(param) {
            Some(fields) => {
                self.reached.insert(Branch::TooDeep(self.turn, fields));
                self.depth = 0;
            }
            None => self.depth = 1 << (param & TXFIFO),
        }
    }

    fn counts(&mut self, fsr: u32) {
        assert!(self.depth > 0, "FSR is read after an exponent over 4");
        let ready = match self.turn {
            Turn::Rx => fsr & RXCOUNT != 0,
            _ => {
                let (count, exponent) = (fsr & TXCOUNT, self.depth.ilog2());
                let full = count == self.depth;
                self.reached.extend(full.then_some(Branch::Full(exponent)));
                let last = count + 1 == self.depth;
                self.reached
                    .extend(last.then_some(Branch::LastPlace(exponent)));
                count < self.depth
            }
        };
        if !ready {
            self.reached.insert(Branch::Unready(self.turn));
            self.unready += 1;
            self.place = 0;
            self.turn = match self.turn {
                Turn::Tx if self.to_receive > 0 => Turn::Rx,
                Turn::Rx if self.to_send > 0 => Turn::Tx,
                turn => turn,
            };
        }
    }

    fn word(&mut self) {
        self.reached.insert(Branch::Word(self.turn));
        self.place = 0;
        match self.turn {
            Turn::Command if self.to_send > 0 => self.turn = Turn::Tx,
            Turn::Command => self.turn = Turn::Rx,
            _ => self.moved(),
        }
    }

    /// A word was sent or received.
    fn moved(&mut self) {
        let (turn, words) = (self.turn, self.transfer.words());
        let (left, others) = match turn {
            Turn::Tx => (&mut self.to_send, self.to_receive),
            _ => (&mut self.to_receive, self.to_send),
        };
        let first = (words - *left) * Transfer::<W>::PER_WORD;
        *left -= 1;
        if *left == 0 && others > 0 {
            self.reached.insert(Branch::FinishedFirst(turn));
            self.turn = if turn == Turn::Tx { Turn::Rx } else { Turn::Tx };
        }
        if self.transfer.kind.sides() == 2 && self.to_receive < self.to_send {
            self.reached.insert(Branch::RxAhead);
        }
        self.elements(turn, first);
    }

    /// The elements of a word moved, from the first on.
    fn elements(&mut self, turn: Turn, first: usize) {
        let Transfer { read, write, .. } = self.transfer;
        let lsb = self.transfer.driver.bit_order.is_lsb();
        self.reached.insert(Branch::Lsb(lsb));
        let past = first + Transfer::<W>::PER_WORD;
        let end = past.min(self.transfer.total());
        if end < past {
            self.reached.insert(Branch::ShortWord(turn));
        }
        if self.transfer.kind != Kind::ExchangeSeparate {
            return;
        }
        self.reached.insert(match read.len().cmp(&write.len()) {
            Ordering::Less => Branch::WriteLonger,
            Ordering::Equal => Branch::SameLength,
            Ordering::Greater => Branch::ReadLonger,
        });
        if turn == Turn::Tx && write.len() < end {
            let only = write.len() <= first;
            self.reached.insert(Branch::Dummies { only });
        }
        if turn == Turn::Rx && read.len() < end {
            let all = read.len() <= first;
            self.reached.insert(Branch::Dropped { all });
        }
    }

    fn end(mut self, limits: &Limits, left: &Left<W>) -> BTreeSet<Branch> {
        self.reached.insert(Branch::Ended(left.number));
        if let Some(reads) = self.recovery.ended_wait() {
            self.reached.insert(Branch::Waited(reads));
        }
        match (left.number, self.turn) {
            (0, _) if left.accesses == 0 => {
                assert_eq!(self.transfer.total(), 0);
                self.reached.insert(Branch::Empty);
            }
            (0, _) => {
                assert!(
                    self.transfer.total() > 0,
                    "an empty transfer makes no access"
                );
                assert_eq!((self.to_send, self.to_receive), (0, 0));
                let ready = 4 + 4 * self.transfer.kind.sides() * self.transfer.words();
                assert_eq!(left.accesses, ready + 3 * self.unready);
            }
            (2 | 3, Turn::Recovery) => {
                assert_eq!(self.recovery.place, RECOVERY.len());
                self.reached.insert(Branch::Restored(restored(left)));
            }
            (2 | 3, turn) => assert_eq!((turn, self.place), (Turn::Command, 1)),
            (7, turn) => {
                assert_ne!(turn, Turn::Recovery);
                assert_eq!((self.place, self.depth), (2, 0));
            }
            (4, turn) => {
                assert!(self.depth > 0, "4 after an exponent over 4");
                let place = match turn {
                    Turn::Recovery => self.recovery.place,
                    _ => self.place,
                };
                let stopped = Branch::Stopped(turn, place, left.cause(limits));
                self.reached.insert(stopped);
            }
            _ => assert_eq!((left.accesses, left.answers), (0, 0)),
        }
        self.reached
    }
}

/// The branches of a transfer.
pub fn of_transfer<W: Element>(
    transfer: &Transfer<W>,
    limits: &Limits,
    left: &Left<W>,
) -> BTreeSet<Branch> {
    let mut walk = Walk {
        transfer,
        reached: BTreeSet::new(),
        turn: Turn::Command,
        place: 0,
        recovery: Along::new(RECOVERY),
        depth: 1,
        to_send: transfer.words_to_send(),
        to_receive: transfer.words_to_receive(),
        unready: 0,
    };
    left.made().for_each(|access| walk.access(access));
    walk.end(limits, left)
}

/// The branches of a flush.
pub fn of_flush(limits: &Limits, left: &Left<u8>) -> BTreeSet<FlushBranch> {
    let mut reached = BTreeSet::from([FlushBranch::Ended(left.number)]);
    let (mut place, mut over) = (0, None);
    for (register, value) in left.made() {
        assert_eq!(register, [SR, PARAM, FSR][place]);
        assert_eq!(over, None);
        place += 1;
        if register == SR && value & ERRORS == ERRORS {
            reached.insert(FlushBranch::BothErrors);
        } else if register == SR && value & (ERRORS | BUSY) == BUSY {
            reached.insert(FlushBranch::Busy);
            place = 0;
        } else if register == FSR && value & TXCOUNT != 0 {
            reached.insert(FlushBranch::Filled);
            place = 0;
        } else if register == PARAM {
            over = Fields::over(value);
            reached.extend(over.map(FlushBranch::TooDeep));
        }
    }
    // It ends with 7 right after an exponent over 4, and nowhere else.
    assert_eq!(left.number == 7, place == 2 && over.is_some());
    match left.number {
        0 => assert_eq!(place, 3),
        2 | 3 => assert_eq!(place, 1),
        7 => assert_eq!(place, 2),
        4 => {
            reached.insert(FlushBranch::Stopped(place, left.cause(limits)));
        }
        _ => assert_eq!((left.accesses, left.answers), (0, 0)),
    }
    reached
}
