//! What may occur in a list of events.

use super::SIDES;
use original::Element;
use original::bus::{Bus, End, Side};
use std::cmp::Ordering;
use std::collections::BTreeSet;

#[derive(Debug, Clone, Copy, PartialEq, Eq, PartialOrd, Ord)]
pub enum Branch {
    /// Number 9.
    Refused,
    /// Transfers that end without an access.
    Empty,
    FrameSize,
    /// Both ends had Ok twice.
    BothOk,
    /// The same with a transfer of the greatest length.
    BothOkLongest,
    /// The same with unequal exponents.
    BothOkUnequal,
    /// The same with dummies received.
    BothOkDummies,
    /// The same with elements dropped that were sent.
    BothOkDropped,
    /// The same in place at no, one or both ends.
    BothOkSeparate,
    BothOkOneInPlace,
    BothOkInPlace,
    /// One end alone had Ok twice.
    OneOk,
    /// Results of a transfer.
    TransferReceiveError,
    TransferTransmitError,
    /// An error before the command, without recovery.
    EarlyError,
    /// A recovery came to its end.
    Recovered,
    /// An Ok after a transfer that was not.
    OkAfterError,
    /// An Ok transfer, but then an error of flush.
    FlushReceiveError,
    FlushTransmitError,
    /// The same where a word was made up.
    FlushMadeUp,
    /// Words that arrived at a full queue.
    LostAtGate,
    LostAtAntenna,
    MadeUp,
    /// A clock found a command at the gate, and no word behind it.
    OnlyCommandAtGate,
    /// The same at the antenna, where a word was made up.
    OnlyCommandAtAntenna,
    /// A recovery took a command out of the queue.
    CommandCleared,
    /// The exponent is 0: the command was queued, and no word.
    NeverSends,
    /// A transmit queue of that exponent was full.
    Filled(usize),
}

impl Branch {
    pub const ALL: [Self; 32] = [
        Self::Refused,
        Self::Empty,
        Self::FrameSize,
        Self::BothOk,
        Self::BothOkLongest,
        Self::BothOkUnequal,
        Self::BothOkDummies,
        Self::BothOkDropped,
        Self::BothOkSeparate,
        Self::BothOkOneInPlace,
        Self::BothOkInPlace,
        Self::OneOk,
        Self::TransferReceiveError,
        Self::TransferTransmitError,
        Self::EarlyError,
        Self::Recovered,
        Self::OkAfterError,
        Self::FlushReceiveError,
        Self::FlushTransmitError,
        Self::FlushMadeUp,
        Self::LostAtGate,
        Self::LostAtAntenna,
        Self::MadeUp,
        Self::OnlyCommandAtGate,
        Self::OnlyCommandAtAntenna,
        Self::CommandCleared,
        Self::NeverSends,
        Self::Filled(0),
        Self::Filled(1),
        Self::Filled(2),
        Self::Filled(3),
        Self::Filled(4),
    ];
}

/// What occurred, with transfers of at most so many elements.
pub fn reached<W: Element>(bus: &Bus<W>, longest: usize) -> BTreeSet<Branch> {
    let mut reached = BTreeSet::new();
    let boards = SIDES.map(|side| bus.board(side));
    let ends = SIDES.map(|side| bus.end(side));
    let total = boards[0].total();
    if bus.number() == 9 {
        return BTreeSet::from([Branch::Refused]);
    }
    if total == 0 {
        reached.insert(Branch::Empty);
    }
    match ends.map(End::ok_twice) {
        [true, true] => {
            reached.insert(Branch::BothOk);
            let in_place = boards.map(|board| board.in_place);
            reached.insert(match in_place {
                [false, false] => Branch::BothOkSeparate,
                [true, true] => Branch::BothOkInPlace,
                _ => Branch::BothOkOneInPlace,
            });
            if total == longest {
                reached.insert(Branch::BothOkLongest);
            }
            if boards[0].exponent != boards[1].exponent {
                reached.insert(Branch::BothOkUnequal);
            }
            for (sends, reads) in [(boards[0], boards[1]), (boards[1], boards[0])] {
                reached.extend(match sends.sent().len().cmp(&reads.read.len()) {
                    Ordering::Less => Some(Branch::BothOkDummies),
                    Ordering::Equal => None,
                    Ordering::Greater => Some(Branch::BothOkDropped),
                });
            }
        }
        [false, false] => {}
        _ => {
            reached.insert(Branch::OneOk);
        }
    }
    for side in SIDES {
        end(bus, side, &mut reached);
    }
    reached
}

fn end<W: Element>(bus: &Bus<W>, side: Side, reached: &mut BTreeSet<Branch>) {
    let (end, board) = (bus.end(side), bus.board(side));
    let happened = end.happened;
    let mut add = |branch, occurred| {
        if occurred {
            reached.insert(branch);
        }
    };
    let [transfer, flush] = end.numbers();
    let failed = matches!(transfer, Some(2 | 3));
    add(Branch::FrameSize, transfer == Some(1));
    add(Branch::TransferReceiveError, transfer == Some(2));
    add(Branch::TransferTransmitError, transfer == Some(3));
    add(Branch::EarlyError, failed && !happened.recovered);
    add(Branch::Recovered, failed && happened.recovered);
    add(Branch::OkAfterError, failed && flush == Some(0));
    let flush_only = transfer == Some(0) && matches!(flush, Some(2 | 3));
    add(Branch::FlushReceiveError, flush_only && flush == Some(2));
    add(Branch::FlushTransmitError, flush_only && flush == Some(3));
    add(Branch::FlushMadeUp, flush_only && happened.made_up > 0);
    let lost = happened.lost_received > 0;
    add(Branch::LostAtGate, lost && side == Side::Gate);
    add(Branch::LostAtAntenna, lost && side == Side::Antenna);
    add(Branch::MadeUp, happened.made_up > 0);
    let kept = happened.commands_kept > 0;
    add(Branch::OnlyCommandAtGate, kept && side == Side::Gate);
    add(Branch::OnlyCommandAtAntenna, kept && side == Side::Antenna);
    add(Branch::CommandCleared, happened.commands_cleared > 0);
    add(Branch::Filled(board.exponent), happened.filled);
    // Polls for a word behind the command were unready; no error cut them short.
    let waits = transfer.is_none() && !end.flagged() && happened.commands_cleared == 0;
    let waited = waits && end.accesses() > 7 && happened.commands == 1 && happened.sent == 0;
    add(Branch::NeverSends, board.exponent == 0 && waited);
}
