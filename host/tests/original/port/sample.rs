//! A sample of the original's answers, in the repository, that the proved program
//! `lpspi` gives again.
//!
//! Behind the line `MARK` of `crates/lpspi/stdin` each line has the inputs of a run, as
//! docs/CALLS.md has them, and `crates/lpspi/stdout` what the original leaves. Both are
//! made here, from a fixed seed and by the original alone: the port has no part in
//! them, and of the numbers only those that the original gives by itself. (Whether a
//! FIFO is full is told by the original's counts, as its `is_full` does.) The test holds
//! the files against the original; with `LPSPI_SAMPLE=write` it writes them.

use super::calls::{CALLS, Case};
use super::{Element, judged_flush, judged_transfer, random_driver};
use crate::common::Random;
use crate::common::random_runs::{Mood, other_answers};
use crate::common::registers::ERRORS;
use crate::common::run::{Left, Limits, listing};
use crate::common::transfer::{Kind, Transfer};
use lpspi_host::{CcrCache, Lpspi};
use std::fmt::UpperHex;
use std::path::Path;
use std::{env, fs};

const SEED: u64 = 1;

/// Runs of each transfer, of flush, and of each other call.
const TRANSFERS: usize = 18;
const FLUSHES: usize = 30;
const CALL_RUNS: usize = 8;

/// Greater numbers are those that the scope documents add.
const MOST_ORIGINAL: u32 = 4;

/// More accesses than a run of the sample makes by itself.
const BUDGET: usize = 500;

/// Behind this line of both files stand the runs, up to the end.
const MARK: &str = "# runs of the original: lpspi.rs with the FIFOs' depths";

/// A run as the program takes it, and what the original leaves, as the program prints
/// it.
type Lines = (String, String);

/// A list's name and its numbers, of that many hexadecimal digits or more; nothing
/// where there are none.
fn list<N: UpperHex>(name: &str, numbers: &[N], digits: usize) -> String {
    if numbers.is_empty() {
        return String::new();
    }
    let numbers = numbers.iter().map(|number| format!(" {number:0digits$X}"));
    format!("{name}{}", numbers.collect::<String>())
}

/// A driver value, as lines have it.
fn driver_text(driver: Lpspi) -> String {
    let order = if driver.bit_order.is_lsb() { 'L' } else { 'M' };
    let (mode, pcs) = (driver.mode.number(), driver.pcs.number());
    let CcrCache { dbt, sckdiv } = driver.ccr_cache;
    format!(" driver {order} {mode} {pcs} 0x{dbt:02X} 0x{sckdiv:02X}")
}

/// The lines of a run: its call with the arguments, and what the call's own value is
/// printed as.
fn lines<W: UpperHex>(
    call: &str,
    driver: Lpspi,
    (read, write): (&[W], &[W]),
    limits: &Limits,
    left: &Left<W>,
    value: &str,
) -> Lines {
    let digits = 2 * size_of::<W>();
    let inputs = format!(
        "{call}{} budget {}{}{}{}",
        driver_text(driver),
        limits.budget,
        list(" read", read, digits),
        list(" write", write, digits),
        list(" script", &limits.script, 1)
    );
    let Left {
        number,
        accesses,
        answers,
        driver,
        ..
    } = left;
    let mut answer = listing(&left.log[..2 * accesses]);
    let read = list("read", &left.buffer, digits);
    answer.extend([read, value.to_owned()]);
    answer.retain(|line| !line.is_empty());
    let driver = driver_text(Lpspi::of_number(*driver));
    answer.push(format!("{number} {accesses} {answers}{driver}"));
    (inputs, answer.join("\n"))
}

/// Limits within which a run ends, by itself for the most part.
fn random_limits<W>(
    random: &mut Random,
    answers: usize,
    original: impl FnOnce(&Limits) -> Left<W>,
) -> Limits {
    let mood = Mood::new(random);
    let mut script: Vec<u32> = (0..answers).map(|_| mood.answer(random)).collect();
    // An error, if SR is read there.
    script[random.below(24)] |= random.word() & ERRORS;
    let ended = original(&Limits::new(BUDGET, &script));
    other_answers(random, &mut script, &ended);
    let (mut budget, mut answers) = (ended.accesses + random.below(2), ended.answers);
    match random.below(6) {
        0 => budget = random.below(ended.accesses + 1),
        1 => answers = random.below(ended.answers + 1),
        _ => {}
    }
    Limits::new(budget, &script[..answers])
}

/// A run that ends with a number of the original's.
fn by_itself<W>(
    random: &mut Random,
    answers: usize,
    original: impl Fn(&Limits) -> Left<W>,
) -> (Limits, Left<W>) {
    loop {
        let limits = random_limits(random, answers, &original);
        let left = original(&limits);
        if left.number <= MOST_ORIGINAL {
            return (limits, left);
        }
    }
}

/// A transfer of up to three words; the first of a kind is too long.
fn transfer<W: Element + UpperHex>(random: &mut Random, kind: Kind, first: bool) -> Lines {
    let per_word = Transfer::<W>::PER_WORD;
    let mut length = || random.below(3 * per_word + 1);
    let lengths = match first {
        true => (0, Transfer::<W>::LONGEST + 1),
        false => (length(), length()),
    };
    let driver = random_driver(random);
    let transfer = Transfer::<W>::new(kind, driver, lengths, || random.word());
    let (limits, left) = by_itself(random, 60, |limits| judged_transfer(&transfer, limits));
    let name = match kind {
        Kind::ExchangeSeparate => "exchange_separate",
        Kind::Exchange => "exchange",
        Kind::WriteNoRead => "write_no_read",
        Kind::ReadNoWrite => "read_no_write",
    };
    let call = format!("{name}_u{}", 8 * size_of::<W>());
    let buffers = (&transfer.read[..], &transfer.write[..]);
    lines(&call, driver, buffers, &limits, &left, "")
}

fn flush(random: &mut Random) -> Lines {
    let driver = random_driver(random);
    let (limits, left) = by_itself(random, 24, |limits| judged_flush(driver, limits));
    lines::<u8>("flush", driver, (&[], &[]), &limits, &left, "")
}

/// Some runs of every other call.
fn calls(random: &mut Random) -> Vec<Lines> {
    let mut wanted = [CALL_RUNS; CALLS.len()];
    let mut runs = vec![];
    while wanted.iter().any(|wanted| *wanted > 0) {
        let case = Case::random(random);
        let wanted = &mut wanted[case.place()];
        let left = case.judged();
        if *wanted > 0 && left.number <= MOST_ORIGINAL {
            *wanted -= 1;
            let (call, value) = (case.text(), case.value_text(left.value));
            let nothing = (&[][..], &[][..]);
            runs.push(lines(
                &call,
                case.driver,
                nothing,
                &case.limits,
                &left,
                &value,
            ));
        }
    }
    runs
}

fn sample(random: &mut Random) -> Vec<Lines> {
    let mut runs = vec![];
    for kind in Kind::ALL {
        for run in 0..TRANSFERS {
            runs.push(transfer::<u8>(random, kind, run == 0));
            runs.push(transfer::<u16>(random, kind, run == 0));
            runs.push(transfer::<u32>(random, kind, run == 0));
        }
    }
    runs.extend((0..FLUSHES).map(|_| flush(random)));
    runs.extend(calls(random));
    runs
}

/// What stands behind the mark of a file; and what stands before it, with the mark.
fn split(file: &str) -> (&str, &str) {
    let mark = format!("{MARK}\n");
    let at = file.find(&mark).expect("the mark is there") + mark.len();
    file.split_at(at)
}

/// What the program prints, run by run: the line with the driver value is the last.
fn answers(printed: &str) -> Vec<String> {
    let mut runs = vec![];
    let mut run = vec![];
    for line in printed.lines() {
        run.push(line);
        if line.contains(" driver ") {
            runs.push(run.join("\n"));
            run.clear();
        }
    }
    assert!(run.is_empty(), "the last run is not whole");
    runs
}

/// The lines of the files are what the original gives, and have every number that it
/// gives.
#[test]
#[cfg_attr(not(original), ignore = "the original is missing")]
fn the_sample() {
    let mut random = Random::seeded("original: sample", SEED);
    let runs = sample(&mut random);
    for number in 0..=4 {
        let result = format!("{number} ");
        let given = |run: &&Lines| run.1.lines().last().is_some_and(|l| l.starts_with(&result));
        let given = runs.iter().filter(given).count();
        assert!(given >= 10, "{given} of {number}");
    }

    let folder = Path::new(env!("CARGO_MANIFEST_DIR")).join("../crates/lpspi");
    let paths = [folder.join("stdin"), folder.join("stdout")];
    let files = || {
        paths
            .clone()
            .map(|path| fs::read_to_string(path).expect("a file"))
    };
    if env::var("LPSPI_SAMPLE").is_ok_and(|mode| mode == "write") {
        let (inputs, answers): (Vec<_>, Vec<_>) = runs.iter().cloned().unzip();
        for ((path, file), runs) in paths.iter().zip(files()).zip([inputs, answers]) {
            let text = split(&file).0.to_owned() + &runs.join("\n") + "\n";
            fs::write(path, text).expect("a file is written");
        }
    }
    let [stdin, stdout] = files();
    let inputs: Vec<_> = split(&stdin).1.lines().collect();
    let answers = answers(split(&stdout).1);
    assert_eq!((inputs.len(), answers.len()), (runs.len(), runs.len()));
    for ((input, answer), run) in inputs.iter().zip(&answers).zip(&runs) {
        let made = || (&run.0[..], &run.1[..]);
        random
            .cases
            .compare(&"sample", &(*input, &answer[..]), made);
    }
}
