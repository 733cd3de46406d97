//! The program `trial`.

mod common;

use common::Random;
use common::document::shown;
use lpspi_host::{BitOrder, Board, Element, Error, Event, Lpspi, trial};
use std::fmt::LowerHex;

/// The longest input that is taken.
const LONGEST: usize = 262_144;

/// Lines whose trial makes no access, and what it prints.
const TRIAL: &str = "M S1 S1\nx\ny\n\n";
const PRINTED: &str = "\
number 0
gate transfer - flush - flags sending receiving
gate reads 00
antenna transfer - flush - flags sending receiving
antenna reads 00
";

fn program(arguments: &[&str], input: &[u8]) -> String {
    let printed = common::program::program("trial", arguments, input, usize::MAX);
    String::from_utf8(printed).expect("ASCII")
}

#[track_caller]
fn check(input: &str, expected: &str) {
    assert_eq!(program(&[], input.as_bytes()), expected);
}

/// docs/BUS.md shows what the program prints.
#[test]
#[cfg_attr(not(trial), ignore = "the program is missing")]
fn documented_trials() {
    let pairs = shown("BUS.md", "output");
    assert!(pairs.len() >= 6, "only {} inputs", pairs.len());
    for (input, output) in pairs {
        check(&input, &output);
    }
}

/// Empty lines in front make the input as long as it may be, and a byte longer. Where
/// it is too long, no trial is run, also of those that stand before that byte.
#[test]
#[cfg_attr(not(trial), ignore = "the program is missing")]
fn the_longest_input() {
    let filled = |len: usize| "\n".repeat(len - TRIAL.len()) + TRIAL;
    check(&filled(LONGEST), PRINTED);
    check(&filled(LONGEST + 1), "bad\n");
    let trials = LONGEST / TRIAL.len();
    check(&TRIAL.repeat(trials), &PRINTED.repeat(trials));
    check(&TRIAL.repeat(trials + 1), "bad\n");
    check(&TRIAL.repeat(400_000), "bad\n");
}

/// Empty lines stand before a trial, between two and after the last; within a trial
/// an empty line is one of its four. Bad trials count.
#[test]
#[cfg_attr(not(trial), ignore = "the program is missing")]
fn empty_lines() {
    check("", "");
    check("\n\n", "");
    check(&format!("\n{TRIAL}\n\n{TRIAL}\n"), &PRINTED.repeat(2));
    let bad = "M S1 S1 8\n\n\n\n";
    let input = format!("\n{bad}{TRIAL}\n{bad}");
    check(&input, &format!("bad 1\n{PRINTED}bad 3\n"));
    // A line with a space is the first of a trial, which has the next three lines too.
    check(&format!(" \n{TRIAL}{TRIAL}"), &format!("bad 1\n{PRINTED}"));
}

/// A byte order mark spoils the first trial, carriage returns every one.
#[test]
#[cfg_attr(not(trial), ignore = "the program is missing")]
fn files_of_other_systems() {
    let trials = TRIAL.repeat(2);
    check(&format!("\u{FEFF}{trials}"), &format!("bad 1\n{PRINTED}"));
    check(&trials.replace('\n', "\r\n"), "bad 1\nbad 2\n");
}

/// The most bytes and letters that a trial may have, and one more.
#[test]
#[cfg_attr(not(trial), ignore = "the program is missing")]
fn the_longest_lines() {
    let trial = |bytes, letters| {
        let (line, events) = ("x".repeat(bytes), " ".repeat(letters));
        format!("M P0 P0\n{line}\n{line}\n{events}\n")
    };
    let read = " 78".repeat(512);
    let printed = PRINTED.replace(" 00\n", &format!("{read}\n"));
    check(&trial(512, 65_536), &printed);
    check(&trial(513, 0), "bad 1\n");
    check(&trial(1, 65_537), "bad 1\n");
}

/// It reads standard input, whatever its arguments.
#[test]
#[cfg_attr(not(trial), ignore = "the program is missing")]
fn arguments_are_not_read() {
    let printed = program(&["../docs/BUS.md", "-h"], TRIAL.as_bytes());
    assert_eq!(printed, PRINTED);
}

/// The lines of a random trial of boards that fit.
struct Lines {
    lsb: bool,
    in_place: [bool; 2],
    exponents: [usize; 2],
    elements: [Vec<u8>; 2],
    events: Vec<Event>,
}

impl Lines {
    fn of(random: &mut Random) -> Self {
        let in_place = [random.flag(), random.flag()];
        let len = random.below(24);
        // A separate board is as long as the longer line.
        let other = match in_place {
            [false, false] => random.below(24),
            _ => len,
        };
        let elements = [len, other].map(|len| {
            let mut line = random.bytes(len);
            line.retain(|byte| *byte != b'\n');
            line.resize(len, b' ');
            line
        });
        let events = (0..random.below(600)).map(|_| match random.below(500) {
            0..15 => Event::Clock,
            15 => Event::ALL[random.below(9)],
            turn if turn % 2 == 0 => Event::GateStep,
            _ => Event::AntennaStep,
        });
        Self {
            events: events.collect(),
            lsb: random.flag(),
            in_place,
            exponents: [random.below(5), random.below(5)],
            elements,
        }
    }

    fn input(&self, width: &str) -> Vec<u8> {
        let order = if self.lsb { 'L' } else { 'M' };
        let [gate, antenna] = [0, 1].map(|end| {
            let kind = if self.in_place[end] { 'P' } else { 'S' };
            format!("{kind}{}", self.exponents[end])
        });
        let letter = |event: &Event| b"gGaActrTR"[*event as usize];
        let lines = [
            format!("{order} {gate} {antenna}{width}").into_bytes(),
            self.elements[0].clone(),
            self.elements[1].clone(),
            self.events.iter().map(letter).collect(),
            Vec::new(),
        ];
        lines.join(&b'\n')
    }

    /// What the function for hosts leaves, as the program prints it.
    fn printed<W: Element + From<u8> + LowerHex>(&self) -> String {
        let widened = |line: &Vec<u8>| -> Vec<W> { line.iter().map(|&byte| byte.into()).collect() };
        let written = self.elements.each_ref().map(widened);
        let longer = written[0].len().max(written[1].len());
        let mut reads = [0, 1].map(|end| match self.in_place[end] {
            true => widened(&self.elements[end]),
            false => (0..longer).map(|_| 0.into()).collect(),
        });
        let orders = [BitOrder::Msb, BitOrder::Lsb];
        let mut end = 0;
        let [gate, antenna] = reads.each_mut().map(|read| {
            let board = Board {
                driver: Lpspi {
                    bit_order: orders[usize::from(self.lsb)],
                    ..Lpspi::default()
                },
                in_place: self.in_place[end],
                exponent: self.exponents[end],
                read,
                write: &written[end],
            };
            end += 1;
            board
        });
        let left = trial(gate, antenna, &self.events).expect("they fit");

        let answer = |answered: Option<Result<(), Error>>| match answered {
            None => "-".to_owned(),
            Some(result) => result
                .map_or_else(|error| error.number(), |()| 0)
                .to_string(),
        };
        let flag = |set: bool, name| if set { name } else { "" };
        let queue =
            |words: &[u32]| -> String { words.iter().map(|word| format!(" {word:08x}")).collect() };
        let ends = [("gate", left.gate), ("antenna", left.antenna)];
        let mut text = "number 0\n".to_owned();
        for ((name, end), read) in ends.iter().zip(reads) {
            let (transfer, flush) = (answer(end.transfer()), answer(end.flush()));
            let (t, r) = (
                flag(end.transmit_error(), " T"),
                flag(end.receive_error(), " R"),
            );
            let sending = " command".repeat(end.commands()) + &queue(end.to_send());
            let receiving = queue(end.to_read());
            let digits = 2 * size_of::<W>();
            let read: String = read.iter().map(|e| format!(" {e:0digits$x}")).collect();
            text += &format!(
                "{name} transfer {transfer} flush {flush} flags{t}{r} \
                 sending{sending} receiving{receiving}\n{name} reads{read}\n"
            );
        }
        text
    }
}

/// Of each width, and of 8 bits where none is named: as the function for hosts.
#[test]
#[cfg_attr(not(trial), ignore = "the program is missing")]
fn random_trials() {
    let mut random = Random::fixed("trial: random trials");
    let (mut input, mut expected) = (Vec::new(), String::new());
    for place in 0..500 {
        let lines = Lines::of(&mut random);
        let (width, printed) = match place % 4 {
            0 => ("", lines.printed::<u8>()),
            1 => (" 8 8", lines.printed::<u8>()),
            2 => (" 16 16", lines.printed::<u16>()),
            _ => (" 32 32", lines.printed::<u32>()),
        };
        input.extend(lines.input(width));
        expected += &printed;
        random.cases.count();
    }
    // Boards that have Ok twice, that found an error, and that are not done.
    for answers in [
        "transfer 0 flush 0",
        "transfer 3",
        "transfer 2",
        "transfer -",
        "sending command receiving",
        "sending command 0",
    ] {
        let count = expected.matches(answers).count();
        assert!(count >= 20, "{answers}: {count}");
    }
    assert_eq!(program(&[], &input), expected);
}
