//! Inputs with small changes, which may be good or bad.

use super::compare;
use super::input::Input;
use crate::common::Random;
use crate::common::buslog::{BAD, EXAMPLE_INPUT, Text};
use crate::common::cases::{Cases, Tally};
use std::collections::BTreeSet;

/// Inputs of each change.
const INPUTS: usize = 1_000;

#[derive(Debug, Clone, Copy, PartialEq, Eq, PartialOrd, Ord)]
enum Change {
    Insert,
    Delete,
    Replace,
    /// Two neighbours change places.
    Swap,
    /// The end is cut off.
    Truncate,
    /// A piece comes twice.
    Repeat,
}

impl Change {
    const ALL: [Self; 6] = [
        Self::Insert,
        Self::Delete,
        Self::Replace,
        Self::Swap,
        Self::Truncate,
        Self::Repeat,
    ];

    fn made(self, random: &mut Random, text: &mut Vec<u8>) {
        let at = random_place(random, text);
        match self {
            Self::Insert => text.insert(at, random_byte(random)),
            Self::Delete => drop(text.remove(at)),
            Self::Replace => text[at] = random_byte(random),
            Self::Swap => {
                let next = (at + 1).min(text.len() - 1);
                text.swap(at, next);
            }
            Self::Truncate => text.truncate(at),
            Self::Repeat => {
                let end = text.len().min(at + 1 + random.below(12));
                text.splice(at..at, text[at..end].to_vec());
            }
        }
    }
}

/// A place in the text: any, or one of the first or of the last bytes.
fn random_place(random: &mut Random, text: &[u8]) -> usize {
    let near = random.below(text.len().min(12));
    match random.below(3) {
        0 => random.below(text.len()),
        1 => near,
        _ => text.len() - 1 - near,
    }
}

/// For the most part a byte that inputs have.
fn random_byte(random: &mut Random) -> u8 {
    const OF_INPUTS: &[u8] = b"0123456789ABCDEFabcdefML \n";
    match random.below(4) {
        0 => random.word() as u8,
        _ => OF_INPUTS[random.below(OF_INPUTS.len())],
    }
}

/// Each change makes some inputs bad and leaves others good.
#[test]
#[cfg_attr(not(original), ignore = "the original is missing")]
fn changed_inputs() {
    let mut random = Random::fixed("original: buslog, changes");
    let outcomes = Change::ALL.map(|change| [(change, false), (change, true)]);
    let mut tally = Tally::new(outcomes.concat());
    for change in Change::ALL {
        for _ in 0..INPUTS {
            let mut text = Input::random(&mut random).text();
            change.made(&mut random, &mut text);
            let printed = compare(&mut random.cases, text);
            let bad = printed == Text(BAD.into());
            tally.count(BTreeSet::from([(change, bad)]));
        }
    }
    tally.demand(&"changes", |_| 20);
}

/// Every byte inserted at every place of the scope document's example, every byte in
/// every place, and every byte and every end left out.
#[test]
#[cfg_attr(not(original), ignore = "the original is missing")]
fn every_change_of_the_example() {
    let mut cases = Cases::new("original: buslog, example");
    let example = EXAMPLE_INPUT.as_bytes();
    for place in 0..=example.len() {
        let (before, after) = example.split_at(place);
        compare(&mut cases, before.to_vec());
        for byte in 0..=u8::MAX {
            compare(&mut cases, [before, &[byte], after].concat());
        }
        if let Some((_, after)) = after.split_first() {
            compare(&mut cases, [before, after].concat());
            for byte in 0..=u8::MAX {
                compare(&mut cases, [before, &[byte], after].concat());
            }
        }
    }
}

/// Lines of fields, each of which may be right or wrong at its place.
#[test]
#[cfg_attr(not(original), ignore = "the original is missing")]
fn random_lines() {
    let mut random = Random::fixed("original: buslog, lines");
    let mut tally = Tally::new([false, true]);
    for _ in 0..4_000 {
        let text = lines(&mut random);
        let printed = compare(&mut random.cases, text.into_bytes());
        tally.count(BTreeSet::from([printed == Text(BAD.into())]));
    }
    tally.demand(&"bad", |_| 400);
}

/// Fields that are right at their place for the most part.
fn lines(random: &mut Random) -> String {
    let width = field(random, &["8", "16", "32"], &["08", "M", "9"]);
    let order = field(random, &["M", "L"], &["m", "8", "LM"]);
    let budgets = ["0", "7", "12", "020", "8000", "8001", "4294967295"];
    let budget = field(random, &budgets, &["4294967296", "1A", ""]);
    let reads = ["0", "1", "02", "5", "130", "512"];
    let read = field(random, &reads, &["513", "4294967297", "", "1 1"]);
    let write = elements(
        random,
        4,
        &["0", "00", "5a", "A5"],
        &["0A5", "1234", "00000", ""],
    );
    let answers = ["0", "404", "00000000", "10000", "1f0000", "FFFFFFFF"];
    let script = elements(random, 30, &answers, &["000000000", "G", ""]);
    let mut lines = vec![
        format!("{width} {order} {budget}"),
        write,
        read.into(),
        script,
    ];
    match random.below(32) {
        0 => lines.truncate(random.below(4)),
        1 => lines.insert(random.below(5), String::new()),
        2 => lines.swap(random.below(4), random.below(4)),
        _ => {}
    }
    lines.join("\n") + field(random, &["", "\n"], &[" ", " \n", "\n\n", "\r\n"])
}

/// A wrong one now and then.
fn field<'a>(random: &mut Random, right: &[&'a str], wrong: &[&'a str]) -> &'a str {
    let fields = if random.chance(16) { wrong } else { right };
    fields[random.below(fields.len())]
}

/// Fewer elements than that. There is a wrong one in a line now and then.
fn elements(random: &mut Random, limit: usize, right: &[&str], wrong: &[&str]) -> String {
    let count = random.below(limit);
    let mut elements: Vec<_> = (0..count)
        .map(|_| right[random.below(right.len())])
        .collect();
    if let Some(last) = elements.last_mut() {
        *last = field(random, &[last], wrong);
    }
    elements.join(" ")
}
