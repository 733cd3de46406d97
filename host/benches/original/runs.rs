//! Runs over a script, on the same buffers for both sides.

use crate::scripts;
use crate::timing::{Effort, Times, wanted};
use lpspi_host::raw::Transfer as Kind;
use lpspi_host::{Lpspi, Run, exchange, exchange_separate, flush, read_no_write, write_no_read};
use original::{Call, Outcome, Transfer};
use std::cell::RefCell;
use std::fmt::Debug;
use std::hint::black_box;

const BYTES: usize = 512;
const WORDS: usize = BYTES / 4;
const BUDGET: usize = 8_000;
const ROUNDS: u32 = 2_000;
/// A round has as many runs as make about so many accesses.
const ROUND_ACCESSES: usize = 100_000;

pub fn time() {
    println!(
        "Runs over a script, budget {BUDGET}: ns per run and million accesses a second, best of {ROUNDS} rounds."
    );
    println!(
        "{:<40} {:>8} {:>9} {:>9} {:>9} {:>9} {:>7}",
        "", "accesses", "original", "port", "original", "port", "ratio"
    );

    transfers();
    flushes();
    recoveries();
}

fn transfers() {
    let bytes: Vec<u8> = (0..BYTES).map(|i| (i * 37 + 11) as u8).collect();
    let halves: Vec<u16> = (0..BYTES / 2).map(|i| (i * 9_473 + 11) as u16).collect();
    let words: Vec<u32> = (0..WORDS as u32).map(|i| i.wrapping_mul(!i)).collect();

    let ready = scripts::exchange(WORDS, WORDS);
    let by_twos = scripts::exchange(WORDS, 2);
    let kind = Kind::ExchangeSeparate;
    transfer("512/512 bytes, all ready", kind, &bytes, &ready);
    transfer("512/512 bytes, by twos", kind, &bytes, &by_twos);
    transfer("256/256 halves, all ready", kind, &halves, &ready);
    transfer("128/128 words, all ready", kind, &words, &ready);
    transfer("128/128 words, by twos", kind, &words, &by_twos);
    let kind = Kind::Exchange;
    transfer("512 bytes in place, ready", kind, &bytes, &ready);
    transfer("128 words in place, ready", kind, &words, &ready);

    let (kind, ready) = (Kind::WriteNoRead, scripts::write(WORDS));
    transfer("512 bytes written, ready", kind, &bytes, &ready);
    transfer("128 words written, ready", kind, &words, &ready);

    let (kind, ready) = (Kind::ReadNoWrite, scripts::read(WORDS));
    transfer("512 bytes read, ready", kind, &bytes, &ready);
    transfer("256 halves read, ready", kind, &halves, &ready);
    transfer("128 words read, ready", kind, &words, &ready);
}

fn flushes() {
    let busy = scripts::busy(7_900);
    flushing("flush, 7,900 times busy, stopped", &busy);
    let ended = [&busy, &scripts::FLUSHED[..]].concat();
    flushing("flush, 7,900 times busy, then Ok", &ended);
    let ended = [&scripts::filled(2_600), &scripts::FLUSHED[..]].concat();
    flushing("flush, 2,600 times filled, then Ok", &ended);
}

/// Recoveries after a receive error. They end, or stop at the wait for MEN.
fn recoveries() {
    let kind = Kind::ExchangeSeparate;
    let ended = scripts::recovery(0);
    let stopped = &ended[..scripts::READS_TO_WAIT];
    transfer("error, recovery", kind, &[0u8], &ended);
    transfer("error, recovery stopped", kind, &[0u8], stopped);

    let ended = scripts::recovery(7_900);
    let stopped = &ended[..scripts::READS_TO_WAIT + 7_900];
    transfer("the same, 7,900 waits", kind, &[0u8], &ended);
    transfer("the same, stopped", kind, &[0u8], stopped);
}

/// Result number, accesses and answers.
type Counts = (Option<u32>, usize, usize);

fn of_original(outcome: Outcome) -> Counts {
    (outcome.number(), outcome.accesses, outcome.answers)
}

fn of_port(run: Run) -> Counts {
    (Some(run.number()), run.accesses, run.answers)
}

/// A transfer of `elements`, into as many places, or both.
fn transfer<W>(name: &str, kind: Kind, elements: &[W], script: &[u32])
where
    W: original::Element + lpspi_host::Element + Debug + PartialEq,
{
    job(
        name,
        elements,
        script,
        &|buffer, script, log| {
            let write = black_box(elements);
            let (driver, budget) = black_box((original::Driver::default(), BUDGET));
            let transfer = match black_box(kind) {
                Kind::ExchangeSeparate => Transfer::ExchangeSeparate {
                    read: buffer,
                    write,
                },
                Kind::Exchange => Transfer::Exchange(buffer),
                Kind::WriteNoRead => Transfer::WriteNoRead(write),
                Kind::ReadNoWrite => Transfer::ReadNoWrite(buffer),
            };
            of_original(original::run(
                W::call(transfer),
                driver,
                budget,
                script,
                log,
            ))
        },
        &|buffer, script, log| {
            let write = black_box(elements);
            let (driver, budget) = black_box((Lpspi::default(), BUDGET));
            of_port(match black_box(kind) {
                Kind::ExchangeSeparate => {
                    exchange_separate(driver, buffer, write, budget, script, log)
                }
                Kind::Exchange => exchange(driver, buffer, budget, script, log),
                Kind::WriteNoRead => write_no_read(driver, write, budget, script, log),
                Kind::ReadNoWrite => read_no_write(driver, buffer, budget, script, log),
            })
        },
    );
}

fn flushing(name: &str, script: &[u32]) {
    job::<u8>(
        name,
        &[],
        script,
        &|_, script, log| {
            let (driver, budget) = black_box((original::Driver::default(), BUDGET));
            of_original(original::run(Call::Flush, driver, budget, script, log))
        },
        &|_, script, log| {
            let (driver, budget) = black_box((Lpspi::default(), BUDGET));
            of_port(flush(driver, budget, script, log))
        },
    );
}

/// A run of one side on its buffer, with script and log.
type Side<'a, W> = &'a dyn Fn(&mut [W], &[u32], &mut [u32]) -> Counts;

/// Both sides use the same buffers, as the places of these in memory matter.
fn job<W>(name: &str, buffer: &[W], script: &[u32], original: Side<W>, port: Side<W>)
where
    W: Copy + Debug + PartialEq,
{
    if !wanted(name) {
        return;
    }
    let [left, right] = [original, port].map(|side| {
        let (mut buffer, mut log) = (buffer.to_vec(), vec![0; 2 * BUDGET]);
        (side(&mut buffer, script, &mut log), buffer, log)
    });
    assert_eq!(left, right, "{name}: both sides do the same");

    let ((_, accesses, _), buffer, log) = left;
    let buffers = RefCell::new((buffer, log));
    let call = |side: Side<W>| {
        let (buffer, log) = &mut *buffers.borrow_mut();
        black_box(side(black_box(buffer), black_box(script), black_box(log)));
    };
    let effort = Effort {
        rounds: ROUNDS,
        calls: (ROUND_ACCESSES / accesses) as u32,
    };
    let times = Times::best(effort, || call(original), || call(port));
    let rate = |ns| 1e3 * accesses as f64 / ns;
    println!(
        "{name:<40} {accesses:>8} {:>9.0} {:>9.0} {:>9.0} {:>9.0} {:>7.2}",
        times.original,
        times.port,
        rate(times.original),
        rate(times.port),
        times.ratio()
    );
}
