//! The access bill: an Ok exchange of n words, n at least 1, with w unready polls makes exactly 4 + 8n + 3w accesses, a one-way transfer
//! 4 + 4n + 3w, an empty transfer none. The count is the one that the C functions hand over.

mod common;

use common::buslog::documented;
use common::random_runs::{Mood, other_answers, random_driver};
use common::registers::{FSR, SR, TCR, WRITE};
use common::run::{Limits, MAX_BUDGET, found};
use common::transfer::{Element, Kind, Sides, Transfer};
use common::{Random, walk};
use lpspi_host::raw;

/// w, counted off the log alone: behind an unready poll the next one begins at once, so that a read of FSR is followed by a read of SR.
fn unready(registers: &[u32]) -> usize {
    let pairs = registers.windows(2);
    pairs.filter(|pair| **pair == [FSR, SR]).count()
}

/// FIFO words of the frame that TCR was written with.
fn words(tcr: u32) -> usize {
    ((tcr & 0xFFF) as usize + 1).div_ceil(32)
}

/// How many Ok runs had no unready poll, some, and some before the command; and of separate exchanges, by the longer buffer.
#[derive(Debug, Default)]
struct Seen {
    ready: usize,
    unready: usize,
    before_command: usize,
    read_longer: usize,
    write_longer: usize,
}

impl Seen {
    fn enough(&self, kind: Kind) -> bool {
        let lengths =
            kind != Kind::ExchangeSeparate || self.read_longer.min(self.write_longer) >= 200;
        self.ready >= 50 && self.unready >= 500 && self.before_command >= 50 && lengths
    }
}

/// Random runs of one kind. n, too, is read off the log.
fn random_bills<W: Element>(random: &mut Random, kind: Kind) {
    let mut seen = Seen::default();
    for _ in 0..2_000 {
        let longer = match random.below(16) {
            0 => Transfer::<W>::LONGEST,
            _ => 1 + random.below(40),
        };
        let shorter = random.below(longer + 1);
        let lengths = match random.flag() {
            true => (longer, shorter),
            false => (shorter, longer),
        };
        let driver = random_driver(random);
        let transfer = Transfer::<W>::new(kind, driver, lengths, || random.word());
        let mood = Mood::without_errors(random);
        let answers = 16 * transfer.words() + 80;
        let script: Vec<u32> = (0..answers).map(|_| mood.answer(random)).collect();
        let mut limits = Limits::new(MAX_BUDGET, &script);
        let first = transfer.port(&limits);
        other_answers(random, &mut limits.script, &first);
        let left = transfer.port(&limits);
        // This counts the unready polls by what their answers show.
        walk::of_transfer(&transfer, &limits, &left);
        if left.number != 0 {
            continue;
        }
        let (registers, values): (Vec<u32>, Vec<u32>) = left.made().unzip();
        let command = registers
            .iter()
            .position(|register| *register == WRITE + TCR);
        let command = command.expect("an Ok run writes its command");
        let (n, w) = (words(values[command]), unready(&registers));
        assert_eq!(n, longer.div_ceil(Transfer::<W>::PER_WORD));
        assert_eq!(
            left.accesses,
            4 + 4 * kind.sides() * n + 3 * w,
            "{kind:?} {n} {w}"
        );
        *(if w > 0 {
            &mut seen.unready
        } else {
            &mut seen.ready
        }) += 1;
        seen.before_command += usize::from(command > 3);
        seen.read_longer += usize::from(transfer.read.len() > transfer.write.len());
        seen.write_longer += usize::from(transfer.read.len() < transfer.write.len());
        random.cases.count();
    }
    println!("{kind:?}, {} bits: {seen:?}", 8 * size_of::<W>());
    assert!(seen.enough(kind), "{kind:?}: too few Ok runs: {seen:?}");
}

#[test]
fn ok_runs_make_exactly_so_many_accesses() {
    let mut random = Random::new("ok_runs_make_exactly_so_many_accesses");
    for kind in Kind::ALL {
        random_bills::<u8>(&mut random, kind);
        random_bills::<u16>(&mut random, kind);
        random_bills::<u32>(&mut random, kind);
    }
}

/// The counts stand at another value before. A transfer that only writes leaves the read buffer as found, and one that only reads takes no
/// write buffer: neither counts.
fn empty_bills<W: Element>(random: &mut Random, kind: Kind) {
    let other = [W::of(0x5A); 3];
    for (budget, log_len, number) in [
        (0, 0, 0),
        (20, 40, 0),
        (MAX_BUDGET, 2 * MAX_BUDGET, 0),
        (20, 39, 5),
        (MAX_BUDGET + 1, 2 * MAX_BUDGET + 2, 5),
    ] {
        let (mut read, write) = match kind {
            Kind::ExchangeSeparate => (vec![], &[][..]),
            Kind::WriteNoRead => (other.to_vec(), &[][..]),
            Kind::Exchange | Kind::ReadNoWrite => (vec![], &other[..]),
        };
        let (script, mut log) = (random.words(20), found(log_len));
        let (mut driver, mut accesses, mut answers) = (random.word(), 7, 7);
        let given = raw::transfer(
            kind as u32,
            &mut driver,
            &mut read,
            write,
            budget,
            &script,
            &mut log,
            &mut accesses,
            &mut answers,
        );
        assert_eq!((given, accesses, answers), (number, 0, 0), "{kind:?}");
        assert_eq!(log, found(log_len));
        random.cases.count();
    }
}

#[test]
fn empty_transfers_make_no_access() {
    let mut random = Random::new("empty_transfers_make_no_access");
    for kind in Kind::ALL {
        empty_bills::<u8>(&mut random, kind);
        empty_bills::<u16>(&mut random, kind);
        empty_bills::<u32>(&mut random, kind);
    }
}

/// The registers of a listing's accesses, and the numbers of its last line.
fn listed(listing: &str) -> (Vec<u32>, Vec<usize>) {
    let accesses = listing.lines().filter_map(|line| {
        let (kind, rest) = line.split_once(' ')?;
        let offset = u32::from_str_radix(rest.get(..2)?, 16).ok()?;
        match kind {
            "R" => Some(offset),
            "W" => Some(WRITE + offset),
            _ => None,
        }
    });
    let last = listing.lines().last().expect("a line");
    let numbers = last.split(' ').filter_map(|number| number.parse().ok());
    (accesses.collect(), numbers.collect())
}

/// n of an input: the FIFO words of the longer of what is written and what is read.
fn input_words(input: &str) -> usize {
    let lines: Vec<&str> = input.lines().collect();
    let width: usize = lines[0].split(' ').next().unwrap().parse().unwrap();
    let written = lines[1]
        .split(' ')
        .filter(|field| !field.is_empty())
        .count();
    let read: usize = lines[2].parse().unwrap();
    (width * written.max(read)).div_ceil(32)
}

/// docs/BUSLOG.md has the formula, and it holds of every Ok exchange that the page shows: without an unready poll, with some, and with some
/// before the command.
#[test]
fn documented_bills() {
    let page = concat!(env!("CARGO_MANIFEST_DIR"), "/../docs/BUSLOG.md");
    let page = std::fs::read_to_string(page).expect("the page is there");
    assert!(page.contains("\n    accesses = 4 + 8 × n + 3 × w\n"));

    let (mut ready, mut waiting, mut before_command) = (0, 0, 0);
    for (input, listing) in documented() {
        let (registers, numbers) = listed(&listing);
        let [0, accesses, _] = numbers[..] else {
            continue;
        };
        let (n, w) = (input_words(&input), unready(&registers));
        assert!(n > 0);
        assert_eq!(accesses, 4 + 8 * n + 3 * w);
        *(if w > 0 { &mut waiting } else { &mut ready }) += 1;
        before_command += usize::from(registers[3] == SR);
    }
    assert!(ready > 0 && waiting > 0 && before_command > 0);
}
