//! How a fault comes into an input.

use super::faults::{Fault, Foreign};
use super::input::Input;
use crate::common::Random;
use crate::common::buslog::{LONGEST, MOST_ANSWERS, MOST_ELEMENTS};

impl Foreign {
    fn bytes(self, random: &mut Random) -> Vec<u8> {
        match self {
            Self::Tab => b"\t".into(),
            Self::CarriageReturn => b"\r".into(),
            Self::Nul => b"\0".into(),
            Self::Sign => one_of(random, &["+", "-"]),
            Self::Prefix => one_of(random, &["0x", "0X"]),
            Self::NoDigit => vec![any_of(random, b"/:@GNZ[`gmxz{.,;_#'\"\\\x7F")],
            Self::HighByte => vec![128 + random.below(128) as u8],
            // An Arabic and a wide digit, a mark of byte order, a space and a newline.
            Self::Unicode => one_of(random, &["٣", "１", "\u{FEFF}", "\u{A0}", "\u{85}"]),
            Self::Control => vec![any_of(random, b"\x01\x07\x08\x0B\x0C\x1B\x1C\x1F")],
        }
    }
}

impl Fault {
    /// The text of a good input that was given this fault.
    pub fn given(self, random: &mut Random, mut input: Input) -> Vec<u8> {
        let lines = &mut input.lines;
        match self {
            Self::Foreign(line, foreign) => {
                let at = random.below(lines[line].len() + 1);
                lines[line].splice(at..at, foreign.bytes(random));
            }
            Self::LeadingSpace(line) => lines[line].insert(0, b' '),
            Self::TrailingSpace(line) => lines[line].push(b' '),
            Self::DoubleSpace(line) => fields(&mut lines[line], |fields| {
                fields.resize(fields.len().max(2), b"0".into());
                let at = 1 + random.below(fields.len() - 1);
                fields.insert(at, vec![]);
            }),
            Self::Width => fields(&mut lines[0], |fields| {
                let widths = ["0", "4", "7", "9", "08", "016", "032", "24", "64", "88"];
                fields[0] = one_of(random, &widths);
            }),
            Self::Order => fields(&mut lines[0], |fields| {
                fields[1] = one_of(random, &["m", "l", "MM", "ML", "MSB", "0", "A", "8"]);
            }),
            Self::SettingMissing => fields(&mut lines[0], |fields| {
                fields.remove(random.below(3));
            }),
            Self::SettingSurplus => fields(&mut lines[0], |fields| {
                let at = random.below(4);
                fields.insert(at, one_of(random, &["8", "M", "0", "20"]));
            }),
            Self::LetterInCount(line) => fields(&mut lines[line], |fields| {
                let count = last(fields);
                let at = random.below(count.len() + 1);
                count.insert(at, any_of(random, b"ABCDEFabcdefML"));
            }),
            Self::LargeCount(line) => fields(&mut lines[line], |fields| {
                *last(fields) = one_of(random, &LARGE_COUNTS);
            }),
            Self::Written => lines[1] = too_many(random, MOST_ELEMENTS),
            Self::Answers => lines[3] = too_many(random, MOST_ANSWERS),
            Self::Read => {
                let counts = ["513", "0513", "1000", "8000", "65536", "65537"];
                lines[2] = one_of(random, &counts);
            }
            Self::ReadMissing => lines[2].clear(),
            Self::ReadSurplus => lines[2].extend(b" 0"),
            Self::Digits { line, zeros } => {
                let most = match (line, &lines[0][..2]) {
                    (3, _) | (_, b"32") => 8,
                    (_, b"16") => 4,
                    _ => 2,
                };
                fields(&mut lines[line], |fields| {
                    let place = random.below(fields.len());
                    let digits = most + 1 + random.below(2) * random.below(9);
                    let first = if zeros { b"0" } else { b"C" };
                    let more = first.repeat(digits - fields[place].len());
                    fields[place].splice(0..0, more);
                });
            }
            Self::Nothing => return vec![],
            Self::EmptyLines => return vec![b'\n'; 1 + random.below(8)],
            Self::Lines(count) | Self::WholeLines(count) => {
                lines.truncate(count);
                input.newline = matches!(self, Self::WholeLines(_));
            }
            Self::FifthLine => lines.push(one_of(random, &["0", "8 M 20", " ", "#"])),
            Self::EmptyFifthLine => {
                lines.push(vec![]);
                input.newline = true;
            }
            Self::EmptyFirstLine => lines.insert(0, vec![]),
            Self::TooLong => {
                let len = LONGEST + 1 + random.below(2) * random.below(100_000);
                let zeros = b"0".repeat(len - input.text().len());
                let line = &mut input.lines[2 * random.below(2)];
                fields(line, |fields| drop(last(fields).splice(0..0, zeros)));
            }
            Self::Garbage => {
                let len = LONGEST >> random.below(17);
                return garbage(random, len);
            }
            Self::Megabytes => {
                let first = if random.flag() { input.text() } else { vec![] };
                return [first, garbage(random, 3_000_000)].concat();
            }
        }
        input.text()
    }
}

/// 2^32 and more. Those after the first are small in 32 bits or in 64.
const LARGE_COUNTS: [&str; 6] = [
    "4294967296",
    "4294967297",
    "0004294967316",
    "18446744073709551616",
    "18446744073709551617",
    "340282366920938463463374607431768211457",
];

fn one_of(random: &mut Random, texts: &[&str]) -> Vec<u8> {
    texts[random.below(texts.len())].into()
}

fn any_of(random: &mut Random, bytes: &[u8]) -> u8 {
    bytes[random.below(bytes.len())]
}

/// Changes the fields of a line. An empty line has an empty field.
fn fields(line: &mut Vec<u8>, change: impl FnOnce(&mut Vec<Vec<u8>>)) {
    let fields = line.split(|byte| *byte == b' ');
    let mut fields: Vec<_> = fields.map(<[u8]>::to_vec).collect();
    change(&mut fields);
    *line = fields.join(&b' ');
}

/// The count of a line, the budget or the read length, is its last field.
fn last(fields: &mut [Vec<u8>]) -> &mut Vec<u8> {
    fields.last_mut().expect("a line has a field")
}

/// One element more than that many, or some more.
fn too_many(random: &mut Random, most: usize) -> Vec<u8> {
    let count = most + 1 + random.below(2) * random.below(most);
    vec!["5"; count].join(" ").into_bytes()
}

/// That many bytes: any, those of good inputs, or one and the same.
fn garbage(random: &mut Random, len: usize) -> Vec<u8> {
    const OF_INPUTS: &[u8] = b"0123456789ABCDEFabcdefML  \n\n";
    match random.below(4) {
        0 => random.bytes(len),
        1 => (0..len).map(|_| any_of(random, OF_INPUTS)).collect(),
        2 => vec![any_of(random, OF_INPUTS); len],
        _ => vec![random.word() as u8; len],
    }
}
