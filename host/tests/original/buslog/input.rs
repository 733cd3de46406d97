//! Good inputs in every spelling.

use crate::common::Random;
use crate::common::buslog::{MOST_ANSWERS, MOST_ELEMENTS, printed};
use crate::common::random_runs::random_limits;
use crate::common::run::{Left, Limits, MAX_BUDGET};
use crate::common::transfer::{Element, Kind, Transfer};
use lpspi_host::Lpspi;
use std::collections::BTreeSet;
use std::fmt::UpperHex;

/// The four lines, and whether a newline follows the last.
pub struct Input {
    pub lines: Vec<Vec<u8>>,
    pub newline: bool,
}

impl Input {
    pub fn text(&self) -> Vec<u8> {
        let mut text = self.lines.join(&b'\n');
        text.extend(self.newline.then_some(b'\n'));
        text
    }

    /// Of any width.
    pub fn random(random: &mut Random) -> Self {
        match random.below(3) {
            0 => Exchange::<u8>::random(random).input(random),
            1 => Exchange::<u16>::random(random).input(random),
            _ => Exchange::<u32>::random(random).input(random),
        }
    }
}

/// An exchange that an input asks for.
pub struct Exchange<W> {
    pub transfer: Transfer<W>,
    /// A budget of more than 8,001 is 8,001 here.
    pub limits: Limits,
    budget: u32,
}

impl<W: Element + UpperHex> Exchange<W> {
    pub fn random(random: &mut Random) -> Self {
        let lengths = (random_length(random), random_length(random));
        let driver = Lpspi {
            bit_order: random.order(),
            ..Lpspi::default()
        };
        let kind = Kind::ExchangeSeparate;
        let mut transfer = Transfer::new(kind, driver, lengths, || random.word());
        transfer.read.fill(W::of(0));
        let limits = random_limits(random, transfer.words(), |limits| transfer.port(limits));
        let answers = match random.chance(4) {
            true => 0,
            false => limits.script.len().min(MOST_ANSWERS),
        };
        let script = &limits.script[..answers];
        let budget = random_budget(random).unwrap_or(limits.budget as u32);
        Self {
            transfer,
            limits: Limits::new((budget as usize).min(MAX_BUDGET + 1), script),
            budget,
        }
    }

    pub fn input(&self, random: &mut Random) -> Input {
        let lsb = self.transfer.driver.bit_order.is_lsb();
        let (width, order) = (8 * size_of::<W>(), if lsb { 'L' } else { 'M' });
        let budget = decimal(random, self.budget);
        let read = decimal(random, self.transfer.read.len() as u32);
        let spelling = Spelling::random(random);
        let lines = [
            format!("{width} {order} {budget}"),
            spelling.line(random, &self.transfer.write),
            read,
            spelling.line(random, &self.limits.script),
        ];
        Input {
            lines: lines.map(String::into_bytes).into(),
            newline: random.chance(192),
        }
    }

    /// The run by the port's `exchange_separate`, and its listing.
    pub fn run(&self) -> (Left<W>, String) {
        let left = self.transfer.port(&self.limits);
        let listing = printed(&left);
        (left, listing)
    }
}

/// Lengths at which something changes, and short ones.
fn random_length(random: &mut Random) -> usize {
    const CHOSEN: [usize; 13] = [0, 1, 4, 5, 127, 128, 129, 130, 255, 256, 257, 511, 512];
    match random.below(64) {
        0..8 => CHOSEN[random.below(CHOSEN.len())],
        8 => random.below(MOST_ELEMENTS + 1),
        _ => random.below(18),
    }
}

fn random_budget(random: &mut Random) -> Option<u32> {
    const CHOSEN: [u32; 10] = [0, 1, 2, 3, 4, 7_999, 8_000, 8_001, 65_536, u32::MAX];
    random
        .chance(40)
        .then(|| CHOSEN[random.below(CHOSEN.len())])
}

/// With zeros in front, or without.
fn decimal(random: &mut Random, number: u32) -> String {
    let zeros = [0, 0, 0, 0, 0, 1, 2, 30][random.below(8)];
    "0".repeat(zeros) + &number.to_string()
}

/// How numbers are written.
struct Spelling {
    /// Each letter in a case of its own; else all are capitals.
    any_case: bool,
    /// As many zeros in front as there is room for, or fewer.
    zeros: bool,
}

impl Spelling {
    fn random(random: &mut Random) -> Self {
        Self {
            any_case: random.flag(),
            zeros: random.flag(),
        }
    }

    /// A line of elements.
    fn line<W: UpperHex>(&self, random: &mut Random, elements: &[W]) -> String {
        let mut line = String::new();
        for element in elements {
            if !line.is_empty() {
                line.push(' ');
            }
            let digits = match self.zeros {
                true => 1 + random.below(2 * size_of::<W>()),
                false => 1,
            };
            let small = if self.any_case { random.word() } else { 0 };
            let element = format!("{element:0digits$X}");
            line.extend(element.chars().enumerate().map(|(place, digit)| {
                let small = small >> place & 1 == 1;
                if small {
                    digit.to_ascii_lowercase()
                } else {
                    digit
                }
            }));
        }
        line
    }
}

/// What good inputs may show.
#[derive(Debug, Clone, Copy, PartialEq, Eq, PartialOrd, Ord)]
pub enum Shown {
    /// In a write line or a script line.
    Capitals,
    SmallLetters,
    /// An element, or a count, with a zero in front.
    Zeros,
    CountZeros,
    /// A write line without elements, a script line without answers.
    NothingWritten,
    NoAnswers,
    /// The newline of the last line is missing; the last line is empty then, or not.
    NoNewline {
        empty: bool,
    },
}

impl Shown {
    pub const ALL: [Self; 8] = [
        Self::Capitals,
        Self::SmallLetters,
        Self::Zeros,
        Self::CountZeros,
        Self::NothingWritten,
        Self::NoAnswers,
        Self::NoNewline { empty: false },
        Self::NoNewline { empty: true },
    ];

    /// What an input shows.
    pub fn of(input: &Input) -> BTreeSet<Self> {
        let [settings, write, read, script] = &input.lines[..] else {
            panic!("a good input has four lines");
        };
        let mut shown = BTreeSet::new();
        let mut look = |kind, seen: bool| {
            shown.extend(seen.then_some(kind));
        };
        let zero_first = |field: &[u8]| field.len() > 1 && field[0] == b'0';
        for line in [write, script] {
            let mut fields = line.split(|byte| *byte == b' ');
            look(Self::Zeros, fields.any(zero_first));
            look(Self::Capitals, line.iter().any(u8::is_ascii_uppercase));
            look(Self::SmallLetters, line.iter().any(u8::is_ascii_lowercase));
        }
        let budget = settings.rsplit(|byte| *byte == b' ').next();
        look(Self::CountZeros, zero_first(read));
        look(Self::CountZeros, budget.is_some_and(zero_first));
        look(Self::NothingWritten, write.is_empty());
        look(Self::NoAnswers, script.is_empty());
        let empty = script.is_empty();
        look(Self::NoNewline { empty }, !input.newline);
        shown
    }
}
