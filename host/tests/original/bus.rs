//! Two boards on one bus: lists of events happen to the port, and to ends that run the
//! original.

mod branches;
mod lists;

use crate::common::Random;
use crate::common::cases::Tally;
use crate::common::transfer::{Element, Transfer};
use crate::port::driver_number;
use branches::{Branch, reached};
use lists::{Chooser, Manner};
use lpspi_host::raw;
use original::Driver;
use original::bus::{Board, Bus, Event, STATE, Side};
use std::collections::BTreeSet;
use std::fmt::Debug;

const SIDES: [Side; 2] = [Side::Gate, Side::Antenna];

/// An element of both sides.
trait Both: Element + original::Element {}

impl Both for u8 {}
impl Both for u16 {}
impl Both for u32 {}

/// Turns of the ends, and a clock where both have a word to send and room for another,
/// come to Ok twice at both.
fn clean<W: Both>(boards: [Board<W>; 2]) {
    let case = format!("{boards:?}");
    let mut bus = Bus::fresh(boards);
    let mut rounds = 0;
    while !SIDES.iter().all(|side| bus.end(*side).finished()) {
        for side in SIDES {
            bus.event(Event::Step { side, busy: false });
        }
        if SIDES.iter().all(|side| bus.end(*side).ready()) {
            bus.event(Event::Clock);
        }
        rounds += 1;
        assert!(rounds < 20_000, "{case}");
    }
    assert!(both_ok(&bus), "{case}");
    check_exchanged(&mut bus, &case);
}

/// A board whose elements go up. It is in place where nothing is written.
fn board<W: Both>([read, write]: [usize; 2], exponent: usize, lsb: bool) -> Board<W> {
    let element = |place| W::of(0x0305_0709_u32.wrapping_mul(place as u32));
    Board {
        driver: Driver {
            lsb,
            ..Driver::default()
        },
        in_place: write == 0,
        exponent,
        read: (0..read).map(|place| element(1_000 + place)).collect(),
        write: (0..write).map(element).collect(),
    }
}

#[test]
#[cfg_attr(not(original), ignore = "the original is missing")]
fn clean_exchanges() {
    for lsb in [false, true] {
        for [a, b] in [[1, 1], [1, 4], [4, 2]] {
            for [gate, antenna] in [
                [[5, 3], [2, 5]],
                [[9, 0], [9, 9]],
                [[40, 1], [40, 0]],
                [[7, 0], [7, 0]],
                [[128, 0], [127, 128]],
            ] {
                clean::<u8>([board(gate, a, lsb), board(antenna, b, lsb)]);
                clean::<u16>([board(gate, a, lsb), board(antenna, b, lsb)]);
                clean::<u32>([board(gate, a, lsb), board(antenna, b, lsb)]);
            }
        }
    }
}

fn both_ok<W: Both>(bus: &Bus<W>) -> bool {
    SIDES.iter().all(|side| bus.end(*side).ok_twice())
}

/// Each end holds what the other started with, and all queues are empty.
fn check_exchanged<W: Both>(bus: &mut Bus<W>, case: &dyn Debug) {
    for (side, other) in [(SIDES[0], SIDES[1]), (SIDES[1], SIDES[0])] {
        let sent = bus.board(other).sent().iter().copied();
        let dummies = std::iter::repeat(W::of(u32::MAX));
        let len = bus.board(side).read.len();
        let expected: Vec<_> = sent.chain(dummies).take(len).collect();
        assert_eq!(bus.buffer(side), expected, "{case:?}: {side:?}");
        assert_eq!(bus.end(side).counts(), [0, 0], "{case:?}: {side:?}");
    }
}

/// What a list of events leaves.
#[derive(Debug, PartialEq)]
struct Left<W> {
    number: u32,
    state: Vec<u32>,
    buffers: [Vec<W>; 2],
}

impl<W: Both> Left<W> {
    /// What the state holds before: words after those of both ends are kept.
    const FOUND: [u32; 2 * STATE + 5] = [0xDEAD_BEEF; 2 * STATE + 5];

    fn by_port(boards: &[Board<W>; 2], events: &[u8]) -> Self {
        let [gate, antenna] = boards;
        let mut state = Self::FOUND.to_vec();
        let mut buffers = [gate.read.clone(), antenna.read.clone()];
        let [gate_read, antenna_read] = &mut buffers;
        let number = raw::trial(
            driver_number(gate.driver),
            driver_number(antenna.driver),
            u32::from(gate.in_place) | u32::from(antenna.in_place) << 1,
            gate.exponent,
            antenna.exponent,
            gate_read,
            &gate.write,
            antenna_read,
            &antenna.write,
            events,
            &mut state,
        );
        Self {
            number,
            state,
            buffers,
        }
    }

    fn by_original(bus: &mut Bus<W>) -> Self {
        let mut state = Self::FOUND.to_vec();
        // At 9 all is as found.
        if bus.number() != 9 {
            let ends = SIDES.map(|side| bus.end(side).state());
            let commands = SIDES.map(|side| bus.end(side).commands() as u32);
            state[..2 * STATE].copy_from_slice(ends.as_flattened());
            state[2 * STATE..][..2].copy_from_slice(&commands);
        }
        Self {
            number: bus.number(),
            state,
            buffers: SIDES.map(|side| bus.buffer(side).to_vec()),
        }
    }
}

/// Both sides are compared after each event up to so many, and then seldom: the port
/// runs the list from fresh for each comparison.
const CLOSELY: usize = 200;

/// A random list. Answers how many events it had, and what they came to.
fn list<W: Both>(random: &mut Random) -> (usize, BTreeSet<Branch>) {
    let boards = lists::boards::<W>(random);
    let manner = lists::manner(random);
    let mut bus = Bus::fresh(boards.clone());
    let mut events = vec![];
    let total = boards[0].total();
    let words = total.div_ceil(Transfer::<W>::PER_WORD);
    let sends = boards.iter().all(|board| board.exponent > 0) || total == 0;
    let mut chooser = Chooser::new(random, manner, words, sends);
    // A flag was set.
    let mut flagged = false;
    loop {
        let event = chooser.next(random, &bus);
        let made = events.len();
        if made <= CLOSELY || made % 1_000 == 0 || event.is_none() {
            let port = Left::by_port(&boards, &events);
            let inputs = (&boards, &events);
            let original = || Left::by_original(&mut bus);
            random.cases.compare(&inputs, &port, original);
        }
        let Some(event) = event else {
            break;
        };
        events.push(lists::byte(random, event));
        let finished = SIDES.map(|side| bus.end(side).finished());
        bus.event(event);
        flagged |= matches!(event, Event::Noise(..)) && finished != [true; 2];
    }

    // Demand 3.
    let case = (&boards, &events);
    for side in SIDES {
        let happened = bus.end(side).happened;
        let flags = happened.lost_received + happened.made_up;
        assert_eq!(happened.lost_sent, 0, "{case:?}: {side:?}");
        // A command is only ever written into an empty queue; with FIFOs of one word
        // no word follows it.
        let exponent = bus.board(side).exponent;
        assert_eq!(happened.commands_behind, 0, "{case:?}: {side:?}");
        assert!(happened.sent == 0 || exponent > 0, "{case:?}: {side:?}");
        assert!(flags == 0 || !bus.end(side).ok_twice(), "{case:?}");
        flagged |= flags > 0;
    }
    if both_ok(&bus) {
        check_exchanged(&mut bus, &case);
    }
    let accepted = bus.number() == 0 && total <= Transfer::<W>::LONGEST;
    if matches!(manner, Manner::Careful | Manner::Mixed) && accepted && sends && !flagged {
        assert!(both_ok(&bus), "{case:?}");
    }
    (events.len(), reached(&bus, Transfer::<W>::LONGEST))
}

/// Random lists of one width, so many of them compared after every event.
fn lists<W: Both>(test: &'static str, count: u32) {
    let mut random = Random::fixed(test);
    let mut tally = Tally::new(Branch::ALL);
    let mut compared = 0;
    while compared < count {
        let (events, branches) = list::<W>(&mut random);
        compared += u32::from(events <= CLOSELY);
        tally.count(branches);
    }
    tally.demand(&test, |branch| match branch {
        Branch::BothOkLongest => 5,
        Branch::LostAtGate | Branch::Filled(_) => 10,
        _ => 20,
    });
}

#[test]
#[cfg_attr(not(original), ignore = "the original is missing")]
fn lists_with_bytes() {
    lists::<u8>("lists_with_bytes", 33_334);
}

#[test]
#[cfg_attr(not(original), ignore = "the original is missing")]
fn lists_with_halves() {
    lists::<u16>("lists_with_halves", 33_333);
}

#[test]
#[cfg_attr(not(original), ignore = "the original is missing")]
fn lists_with_words() {
    lists::<u32>("lists_with_words", 33_333);
}
