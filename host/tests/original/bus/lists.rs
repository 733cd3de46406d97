//! Random boards, and lists of events for them.

use crate::common::Random;
use crate::common::transfer::{Element, Transfer};
use original::Driver;
use original::bus::{Board, Bus, Event, Side};

/// How the events are chosen.
#[derive(Debug, Clone, Copy, PartialEq, Eq)]
pub enum Manner {
    /// Clocks where no word is lost or made up, no noise, until both ends are finished.
    Careful,
    /// The same, but a random event now and then.
    Disturbed,
    /// Random events, some kinds more often than others, then careful ones.
    Mixed,
    /// Random events alone.
    Reckless,
}

pub fn manner(random: &mut Random) -> Manner {
    match random.below(16) {
        0..6 => Manner::Careful,
        6..10 => Manner::Disturbed,
        10..12 => Manner::Mixed,
        _ => Manner::Reckless,
    }
}

/// Two boards, seldom ones that make no pair.
pub fn boards<W: Element>(random: &mut Random) -> [Board<W>; 2] {
    let total = total::<W>(random);
    let lsb = random.flag();
    let gate = board(random, lsb, total);
    let lsb = lsb != random.chance(2);
    let total = match random.chance(2) {
        true => total + 1,
        false => total,
    };
    [gate, board(random, lsb, total)]
}

/// Mostly a few words.
fn total<W: Element>(random: &mut Random) -> usize {
    let longest = Transfer::<W>::LONGEST;
    match random.below(512) {
        0 => longest,
        1 => random.below(longest),
        2..6 => longest + 1 + random.below(3),
        // Enough to fill a queue of 16 places.
        6..12 => (16 + random.below(8)) * Transfer::<W>::PER_WORD,
        12..56 => random.below(41),
        _ => random.below(4 * Transfer::<W>::PER_WORD + 1),
    }
}

fn board<W: Element>(random: &mut Random, lsb: bool, total: usize) -> Board<W> {
    let driver = Driver {
        lsb,
        mode: random.below(4) as u8,
        pcs: random.below(4) as u8,
        dbt: random.word() as u8,
        sckdiv: random.word() as u8,
    };
    let in_place = random.chance(100);
    let exponent = match random.below(64) {
        0 => [5, 6, 16, usize::MAX][random.below(4)],
        1 => 0,
        other => 1 + other % 4,
    };
    let shorter = match random.flag() {
        true => total,
        false => random.below(total + 1),
    };
    // In place the write buffer does not count.
    let (read, write) = match in_place || random.flag() {
        true => (total, shorter),
        false => (shorter, total),
    };
    let mut buffer = |len| (0..len).map(|_| W::of(random.word())).collect();
    Board {
        driver,
        in_place,
        exponent,
        read: buffer(read),
        write: buffer(write),
    }
}

/// Chooses events, looking at the bus.
pub struct Chooser {
    manner: Manner,
    /// Random events still to come.
    random_events: usize,
    /// How often each event is chosen at random.
    weights: [usize; 9],
    /// How often, in 256, a clock comes where it loses and makes up no word.
    clocks: u32,
    /// Events still to come after both ends are finished.
    after: usize,
    /// Events that may still come.
    left: usize,
}

impl Chooser {
    /// For exchanges of so many words; `sends`: both ends have FIFOs that let them send.
    pub fn new(random: &mut Random, manner: Manner, words: usize, sends: bool) -> Self {
        let random_events = match manner {
            Manner::Careful | Manner::Disturbed => 0,
            Manner::Mixed => random.below(60),
            Manner::Reckless => random.below(180),
        };
        let noise = random.chance(64);
        let mut weights = [0; 9];
        for (event, weight) in weights.iter_mut().enumerate() {
            *weight = match event {
                0..4 => 1 << random.below(7),
                4 => 1 << random.below(5),
                _ => usize::from(noise && random.flag()),
            };
        }
        let left = match manner {
            Manner::Reckless => random_events,
            // They do not end.
            Manner::Careful | Manner::Mixed if !sends => 80 + random.below(100),
            // Enough to end.
            Manner::Careful | Manner::Mixed => 600 + 100 * words,
            Manner::Disturbed => 60 + 40 * words,
        };
        Self {
            manner,
            random_events,
            weights,
            // Late clocks fill the queues.
            clocks: [160, 160, 160, 160, 160, 160, 160, 6][random.below(8)],
            after: random.below(4),
            left,
        }
    }

    /// The next event, unless the list ends here.
    pub fn next<W: Element + original::Element>(
        &mut self,
        random: &mut Random,
        bus: &Bus<W>,
    ) -> Option<Event> {
        self.left = self.left.checked_sub(1)?;
        if bus.number() != 0 {
            // Nothing happens.
            self.after = self.after.checked_sub(1)?;
            return Some(self.random(random));
        }
        if self.random_events > 0 {
            self.random_events -= 1;
            return Some(self.random(random));
        }
        let [gate, antenna] = [Side::Gate, Side::Antenna].map(|side| bus.end(side));
        if gate.finished() && antenna.finished() {
            self.after = self.after.checked_sub(1)?;
            return Some(Event::ALL[random.below(9)]);
        }
        if self.manner == Manner::Disturbed && random.chance(3) {
            return Some(Event::ALL[random.below(9)]);
        }
        if gate.ready() && antenna.ready() && random.chance(self.clocks) {
            return Some(Event::Clock);
        }
        let side = match (gate.finished(), antenna.finished(), random.flag()) {
            (true, _, _) | (false, false, true) => Side::Antenna,
            _ => Side::Gate,
        };
        Some(Event::Step {
            side,
            busy: random.chance(10),
        })
    }

    fn random(&self, random: &mut Random) -> Event {
        let mut place = random.below(self.weights.iter().sum());
        for (event, weight) in Event::ALL.into_iter().zip(self.weights) {
            match place.checked_sub(weight) {
                Some(rest) => place = rest,
                None => return event,
            }
        }
        unreachable!("the place is below the sum")
    }
}

/// A byte that means the event.
pub fn byte(random: &mut Random, event: Event) -> u8 {
    let number = Event::ALL.iter().position(|other| *other == event);
    (number.expect("all are there") + 9 * random.below(28)) as u8
}
