//! The branches of transfers and flushes.

use super::registers::{CR, FSR, MEN, PARAM, RDR, SR, TCR, TDR, WRITE, exponents};
use super::run::{Cause, Left};
use super::transfer::{Element, Kind, Sides, Transfer};

/// The accesses of a call: `R` a read, `W` a write, `M` reads of CR until MEN is 0.
pub type Table = &'static str;

pub const RECOVERY: Table = "RRRRRRRRRRWMRWRWWWWWWWWWRWW";

/// The stops that there can be: by the budget before every access, by the script
/// before a read.
pub fn stops(table: Table) -> impl Iterator<Item = (usize, Cause)> {
    let places = table.bytes().enumerate();
    places.flat_map(|(place, access)| {
        let script = (access != b'W').then_some((place, Cause::Script));
        [(place, Cause::Budget)].into_iter().chain(script)
    })
}

/// How far accesses have come in a table.
pub struct Along {
    table: Table,
    pub place: usize,
    /// Reads of CR that found MEN 1 in a wait.
    waited: usize,
}

impl Along {
    pub fn new(table: Table) -> Self {
        Self {
            table,
            place: 0,
            waited: 0,
        }
    }

    /// Goes on by an access, which must be of the kind that the table has.
    pub fn access(&mut self, (register, value): (u32, u32)) {
        let kind = self.table.as_bytes()[self.place];
        assert_eq!(kind == b'W', register >= WRITE);
        if kind == b'M' && value & MEN != 0 {
            self.waited += 1;
        } else {
            self.place += 1;
        }
    }

    /// Whether a wait has ended, and after how many reads that found MEN 1: none,
    /// one, or several, which count as 2.
    pub fn ended_wait(&self) -> Option<usize> {
        let wait = self.table.find('M')?;
        (self.place > wait).then_some(self.waited.min(2))
    }
}

/// The MEN that the last write of CR leaves.
pub fn restored<W>(left: &Left<W>) -> bool {
    let writes = left.made().filter(|(register, _)| *register == WRITE + CR);
    writes.last().expect("CR was written").1 & MEN != 0
}

/// Who makes the accesses: the wait for the command's place with the command, the
/// sending side, the receiving side, the recovery.
#[derive(Debug, Clone, Copy, PartialEq, Eq, PartialOrd, Ord)]
pub enum Turn {
    Command,
    Tx,
    Rx,
    Recovery,
}

impl Turn {
    /// The accesses of a poll and its word, or of the recovery.
    fn table(self) -> Table {
        match self {
            Self::Command | Self::Tx => "RRRW",
            Self::Rx => "RRRR",
            Self::Recovery => RECOVERY,
        }
    }

    /// The registers of a poll and its word.
    pub fn registers(self) -> [u32; 4] {
        let word = match self {
            Self::Command => WRITE + TCR,
            Self::Tx => WRITE + TDR,
            _ => RDR,
        };
        [SR, PARAM, FSR, word]
    }
}

/// The fields of PARAM that have an exponent over 4.
#[derive(Debug, Clone, Copy, PartialEq, Eq, PartialOrd, Ord)]
pub enum Fields {
    Tx,
    Rx,
    Both,
}

impl Fields {
    pub const ALL: [Self; 3] = [Self::Tx, Self::Rx, Self::Both];

    /// Those of an answer, if there are any.
    pub fn over(param: u32) -> Option<Self> {
        match exponents(param).map(|exponent| exponent > 4) {
            [true, false] => Some(Self::Tx),
            [false, true] => Some(Self::Rx),
            [true, true] => Some(Self::Both),
            [false, false] => None,
        }
    }
}

/// A branch of a transfer.
#[derive(Debug, Clone, Copy, PartialEq, Eq, PartialOrd, Ord)]
pub enum Branch {
    /// With that number.
    Ended(u32),
    /// Ok without an access.
    Empty,
    /// A word sent or received, with LSB or not.
    Lsb(bool),
    /// A word sent or received where the read buffer is longer, shorter, or neither.
    ReadLonger,
    WriteLonger,
    SameLength,
    /// The flag that this turn looks at was set.
    Error(Turn),
    /// Only the other direction's flag was set.
    Ignored(Turn),
    /// No space, or no word.
    Unready(Turn),
    /// An exponent over 4, of these fields.
    TooDeep(Turn, Fields),
    /// A transmit FIFO of that exponent was just full, or had one place left.
    Full(u32),
    LastPlace(u32),
    /// The command, or a word, written or read.
    Word(Turn),
    /// A last word of fewer elements.
    ShortWord(Turn),
    /// A word sent with dummies: of nothing else, or not.
    Dummies {
        only: bool,
    },
    /// A word received of which something was dropped: all of it, or not.
    Dropped {
        all: bool,
    },
    /// The other side had words left.
    FinishedFirst(Turn),
    /// More words received than sent.
    RxAhead,
    /// The recovery's reads of MEN 1: 0, 1, or 2 for several.
    Waited(usize),
    /// MEN at the end of the recovery.
    Restored(bool),
    /// Before the access of that place in the turn's table.
    Stopped(Turn, usize, Cause),
}

impl Branch {
    /// All branches of a kind of transfer.
    pub fn all<W: Element>(kind: Kind) -> Vec<Self> {
        use Branch::*;
        let mut sides = vec![];
        sides.extend(kind.sends().then_some(Turn::Tx));
        sides.extend(kind.receives().then_some(Turn::Rx));
        let short_words = Transfer::<W>::PER_WORD > 1;
        let mut all = vec![
            Empty,
            Restored(false),
            Restored(true),
            Lsb(false),
            Lsb(true),
        ];
        all.extend([0, 1, 3, 4, 5, 7].map(Ended));
        all.extend([0, 1, 2].map(Waited));
        all.extend((0..=4).flat_map(|exponent| [Full(exponent), LastPlace(exponent)]));
        for turn in [&[Turn::Command], &sides[..]].concat() {
            all.extend([Error(turn), Ignored(turn), Unready(turn), Word(turn)]);
            all.extend(Fields::ALL.map(|fields| TooDeep(turn, fields)));
        }
        for turn in [&[Turn::Command], &sides[..], &[Turn::Recovery]].concat() {
            all.extend(stops(turn.table()).map(|(place, cause)| Stopped(turn, place, cause)));
        }
        if kind.receives() {
            all.push(Ended(2));
        }
        if kind.sides() == 2 {
            all.extend([RxAhead, FinishedFirst(Turn::Tx), FinishedFirst(Turn::Rx)]);
        }
        if short_words {
            all.extend(sides.iter().map(|side| ShortWord(*side)));
        }
        if kind == Kind::ExchangeSeparate {
            all.extend([ReadLonger, WriteLonger, SameLength]);
            all.extend([Dummies { only: true }, Dropped { all: true }]);
        }
        if kind == Kind::ExchangeSeparate && short_words {
            all.extend([Dummies { only: false }, Dropped { all: false }]);
        }
        all
    }
}

/// A branch of a flush.
#[derive(Debug, Clone, Copy, PartialEq, Eq, PartialOrd, Ord)]
pub enum FlushBranch {
    /// With that number.
    Ended(u32),
    /// Both flags were set.
    BothErrors,
    Busy,
    /// Not busy, and words in the transmit FIFO.
    Filled,
    /// An exponent over 4, of these fields.
    TooDeep(Fields),
    /// Before SR, PARAM or FSR.
    Stopped(usize, Cause),
}

impl FlushBranch {
    /// All branches.
    pub fn all() -> Vec<Self> {
        use FlushBranch::*;
        let mut all = vec![BothErrors, Busy, Filled];
        all.extend([0, 2, 3, 4, 5, 7].map(Ended));
        all.extend(Fields::ALL.map(TooDeep));
        all.extend(stops("RRR").map(|(place, cause)| Stopped(place, cause)));
        all
    }
}
