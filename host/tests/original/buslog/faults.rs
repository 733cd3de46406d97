//! Bad inputs.

use super::compare;
use super::input::Input;
use crate::common::Random;
use crate::common::buslog::{BAD, Text, port};
use crate::common::cases::Tally;
use std::collections::BTreeSet;

/// Inputs of each fault.
const INPUTS: usize = 100;

/// A byte, or bytes, that have no place in any line.
#[derive(Debug, Clone, Copy, PartialEq, Eq, PartialOrd, Ord)]
pub enum Foreign {
    Tab,
    CarriageReturn,
    Nul,
    Sign,
    /// `0x` or `0X`.
    Prefix,
    /// No digit, though its code may be next to one's.
    NoDigit,
    /// A byte over 127.
    HighByte,
    /// A digit or a space of another alphabet, in UTF-8.
    Unicode,
    /// Of the codes below 32.
    Control,
}

impl Foreign {
    const ALL: [Self; 9] = [
        Self::Tab,
        Self::CarriageReturn,
        Self::Nul,
        Self::Sign,
        Self::Prefix,
        Self::NoDigit,
        Self::HighByte,
        Self::Unicode,
        Self::Control,
    ];
}

/// What makes an input bad. Lines are counted from 0.
#[derive(Debug, Clone, Copy, PartialEq, Eq, PartialOrd, Ord)]
pub enum Fault {
    Foreign(usize, Foreign),
    LeadingSpace(usize),
    TrailingSpace(usize),
    DoubleSpace(usize),
    /// Not 8, 16 or 32, or with a zero in front.
    Width,
    /// Not M or L.
    Order,
    /// Two fields in the first line, or four.
    SettingMissing,
    SettingSurplus,
    /// A count with a letter.
    LetterInCount(usize),
    /// A count of 2^32 or more.
    LargeCount(usize),
    /// 513 elements or more.
    Written,
    Read,
    /// No read length, or two.
    ReadMissing,
    ReadSurplus,
    /// 8,001 answers or more.
    Answers,
    /// An element with too many digits: of zeros in front, or not.
    Digits {
        line: usize,
        zeros: bool,
    },
    /// The empty input.
    Nothing,
    /// Empty lines only.
    EmptyLines,
    /// So many lines, without the last newline.
    Lines(usize),
    /// The same, with it.
    WholeLines(usize),
    /// A fifth line with something in it, or empty.
    FifthLine,
    EmptyFifthLine,
    /// An empty line at the start.
    EmptyFirstLine,
    /// More than 131,072 bytes, though only zeros make it so long.
    TooLong,
    /// Bytes that were never an input.
    Garbage,
    /// So many that no input is as long.
    Megabytes,
}

impl Fault {
    fn all() -> Vec<Self> {
        let mut all = vec![
            Self::Width,
            Self::Order,
            Self::SettingMissing,
            Self::SettingSurplus,
            Self::LetterInCount(0),
            Self::LetterInCount(2),
            Self::LargeCount(0),
            Self::LargeCount(2),
            Self::Written,
            Self::Read,
            Self::ReadMissing,
            Self::ReadSurplus,
            Self::Answers,
            Self::Nothing,
            Self::EmptyLines,
            Self::Lines(1),
            Self::Lines(2),
            Self::Lines(3),
            Self::WholeLines(1),
            Self::WholeLines(2),
            Self::FifthLine,
            Self::EmptyFifthLine,
            Self::EmptyFirstLine,
            Self::TooLong,
            Self::Garbage,
            Self::Megabytes,
        ];
        for line in 0..4 {
            all.extend(Foreign::ALL.map(|foreign| Self::Foreign(line, foreign)));
            all.extend([Self::LeadingSpace(line), Self::TrailingSpace(line)]);
        }
        all.extend([0, 1, 3].map(Self::DoubleSpace));
        for line in [1, 3] {
            all.extend([false, true].map(|zeros| Self::Digits { line, zeros }));
        }
        all
    }

    /// How many inputs are made with it.
    fn inputs(self) -> usize {
        match self {
            Self::Nothing => 1,
            Self::Megabytes => 8,
            Self::Written | Self::Answers | Self::TooLong => 40,
            _ => INPUTS,
        }
    }
}

/// Every fault makes a good input bad.
#[test]
#[cfg_attr(not(original), ignore = "the original is missing")]
fn every_fault() {
    let mut random = Random::fixed("original: buslog, faults");
    let mut tally = Tally::new(Fault::all());
    for fault in Fault::all() {
        for _ in 0..fault.inputs() {
            let input = Input::random(&mut random);
            let bad = Text(BAD.into());
            assert_ne!(port(&input.text()), bad);
            let faulty = fault.given(&mut random, input);
            let printed = compare(&mut random.cases, faulty);
            assert_eq!(printed, bad, "{fault:?}");
            tally.count(BTreeSet::from([fault]));
        }
    }
    tally.demand(&"faults", |_| 1);
}
