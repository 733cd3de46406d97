//! Runs: the scope document's example, refusals and the bound on accesses.

mod common;

use common::Random;
use common::buslog::{example_output, printed};
use common::function::Function;
use common::run::{EXAMPLE_SCRIPT, Left, Limits, found};
use lpspi_host::raw::{self, Disabled, Get, Reset, Set, Transfer};
use lpspi_host::{Element, Lpspi, Run, exchange_separate, flush};
use std::fmt::Debug;

#[test]
fn the_example() {
    let script = EXAMPLE_SCRIPT;
    let (mut read, mut log) = ([0u8], found(50));
    let driver = Lpspi::default();
    let run = exchange_separate(driver, &mut read, &[0xA5], 20, &script, &mut log);
    assert_eq!(log[24..], found(50)[24..]);
    assert_eq!(
        printed(&Left::new(run, read.to_vec(), log)),
        example_output()
    );
}

/// All answers of an exchange whose polls are all ready.
fn all_ready(words: usize) -> Vec<u32> {
    let poll = [0, 0x404, 0x1_0000];
    let mut script = poll.repeat(1 + words);
    for word in 0..words {
        script.extend(poll);
        script.push(word as u32);
    }
    script
}

#[test]
fn ready_runs_make_4_and_8n_accesses() {
    for n in 1..=128 {
        let script = all_ready(n);
        let mut log = found(2 * (4 + 8 * n));
        let expected = Run {
            result: Ok(()),
            accesses: 4 + 8 * n,
            answers: 3 + 7 * n,
            driver: Lpspi::default(),
        };
        let (driver, budget) = (Lpspi::default(), 4 + 8 * n);
        let mut read = vec![0u32; n];
        let write = read.clone();
        let run = exchange_separate(driver, &mut read, &write, budget, &script, &mut log);
        assert_eq!(run, expected);
        assert!(read.iter().zip(0..).all(|(word, place)| *word == place));

        for len in 4 * n - 3..=4 * n {
            let mut read = vec![0u8; len];
            let write = read.clone();
            let run = exchange_separate(driver, &mut read, &write, budget, &script, &mut log);
            assert_eq!(run, expected);
        }
    }
}

/// The number and counts of an exchange that leaves its read buffer and its driver
/// as found, of which any word may be given. The counts stand at another value before.
fn without_accesses<W: Element + PartialEq + Debug>(
    word: u32,
    (read, write): (&[W], &[W]),
    budget: usize,
    script: &[u32],
    log: &mut [u32],
) -> (u32, usize, usize) {
    let (mut driver, mut accesses, mut answers) = (word, 7, 7);
    let mut given = read.to_vec();
    let number = raw::transfer(
        Transfer::ExchangeSeparate as u32,
        &mut driver,
        &mut given,
        write,
        budget,
        script,
        log,
        &mut accesses,
        &mut answers,
    );
    assert_eq!(given, read);
    assert_eq!(driver, word);
    (number, accesses, answers)
}

/// Numbers 5 and 1 and the empty transfer leave all as found, in this order.
#[test]
fn runs_without_accesses() {
    let mut random = Random::new("runs_without_accesses");
    let script = all_ready(128);
    let cases = [
        // budget, log length, elements read and written, number
        (8_001, 16_002, 4, 4, 5),
        (usize::MAX, 16_002, 4, 4, 5),
        (1 << 63, 0, 4, 4, 5),
        (100, 199, 4, 4, 5),
        (1, 0, 0, 0, 5),
        (8_001, 16_002, 513, 4, 5),
        (8_000, 16_000, 513, 4, 1),
        (8_000, 16_000, 4, 513, 1),
        (0, 0, 4, 8_192, 1),
        (0, 0, 8_193, 0, 1),
        (8_000, 16_000, 0, 0, 0),
        (0, 0, 0, 0, 0),
    ];
    for (budget, log_len, read_len, write_len, number) in cases {
        let case = format!("budget {budget}, log {log_len}, read {read_len}, write {write_len}");
        let mut log = found(log_len);
        let bytes = (&vec![0x5Au8; read_len][..], &vec![0xA5u8; write_len][..]);
        let given = without_accesses(random.word(), bytes, budget, &script, &mut log);
        assert_eq!(given, (number, 0, 0), "{case}");

        // The same number of words, in buffers half and a quarter as long.
        let (read_len, write_len) = (read_len.div_ceil(2), write_len.div_ceil(2));
        let halves = (&vec![0x5Au16; read_len][..], &vec![0xA5u16; write_len][..]);
        let given = without_accesses(random.word(), halves, budget, &script, &mut log);
        assert_eq!(given, (number, 0, 0), "{case}");

        let (read_len, write_len) = (read_len.div_ceil(2), write_len.div_ceil(2));
        let words = (&vec![0x5Au32; read_len][..], &vec![0xA5u32; write_len][..]);
        let given = without_accesses(random.word(), words, budget, &script, &mut log);
        assert_eq!(given, (number, 0, 0), "{case}");

        if number == 5 {
            let word = random.word();
            let (mut driver, mut accesses, mut answers) = (word, 7, 7);
            let given = raw::flush(
                &mut driver,
                budget,
                &script,
                &mut log,
                &mut accesses,
                &mut answers,
            );
            assert_eq!((given, accesses, answers), (5, 0, 0), "{case}");
            assert_eq!(driver, word, "{case}");
        }
        assert_eq!(log, found(log_len), "{case}");
        random.cases.count();
    }
}

/// Bits 31..21 of a driver word are as found after every call; after one that is
/// refused, or that changes no setting of the driver, all are.
#[test]
fn the_word_of_the_driver() {
    let mut random = Random::new("the_word_of_the_driver");
    let init = Function::Reset(Reset::Init);
    let enqueue = Function::Set(Set::EnqueueTransaction);
    let clock_hz = Function::Disabled(Disabled::SetClockHz);
    let clock_configs = Function::Disabled(Disabled::SetClockConfigs);
    let cases = [
        // call, parameters, budget, number, the word's last bits if they change
        (Function::Reset(Reset::SoftReset), [0, 0], 8_001, 5, None),
        (
            Function::Reset(Reset::RecoverFromError),
            [0, 0],
            41,
            5,
            None,
        ),
        (init, [0, 0], 41, 5, None),
        (init, [0, 0], 0, 4, Some(0)),
        (init, [0, 0], 40, 0, Some(0)),
        (enqueue, [7, 0], 8_001, 5, None),
        (enqueue, [7, 0], 40, 1, None),
        (enqueue, [8, 0], 40, 0, None),
        (clock_hz, [0, 1], 41, 5, None),
        (clock_hz, [0, 1], 40, 6, None),
        (clock_hz, [1, 0], 40, 6, None),
        (clock_configs, [0x1234_5678, 0], 40, 0, Some(0x5678)),
        (Function::Get(Get::Status), [0, 0], 41, 5, None),
        (Function::Get(Get::SetWatermark), [0, 0], 40, 0, None),
        (Function::Get(Get::ReadData), [0, 0], 40, 0, None),
    ];
    for case in cases {
        let (call, parameters, budget, number, last) = case;
        let word = random.word();
        let limits = Limits {
            budget,
            log_len: 80,
            script: vec![0; 40],
        };
        let left = call.port(parameters, word, &limits);
        assert_eq!(left.number, number, "{case:?}");
        let expected = match last {
            // `init` starts anew; a clock changes the cache only.
            Some(0) => word & !0x1F_FFFF,
            Some(cache) => word & !0xFFFF | cache,
            None => word,
        };
        assert_eq!(left.driver, expected, "{case:?}");
        random.cases.count();
    }
}

/// A number past a function's last call is taken modulo the number of its calls.
#[test]
fn kinds_past_the_last() {
    let mut random = Random::new("kinds_past_the_last");
    let past = |kind: u32, kinds: u32| {
        let most = (u32::MAX - kind) / kinds;
        [1, 2, most / 2, most].map(|rounds| kind + rounds * kinds)
    };
    for function in Function::ALL {
        let (parameters, driver) = ([8, 1], random.word());
        let limits = Limits::new(40, &random.words(40));
        let left = function.port(parameters, driver, &limits);
        for kind in past(function.kind(), function.kinds()) {
            let other = function.port_of_kind(kind, parameters, driver, &limits);
            assert_eq!(other, left, "{function:?} {kind}");
            random.cases.count();
        }
    }
    for transfer in Transfer::ALL {
        let (word, script) = (random.word(), all_ready(2));
        let run = |kind| {
            let (mut driver, mut accesses, mut answers) = (word, 7, 7);
            let (mut read, mut log) = ([1u16, 2, 3], found(80));
            let number = raw::transfer(
                kind,
                &mut driver,
                &mut read,
                &[4, 5, 6],
                40,
                &script,
                &mut log,
                &mut accesses,
                &mut answers,
            );
            (number, driver, read, log, accesses, answers)
        };
        for kind in past(transfer as u32, 4) {
            assert_eq!(run(kind), run(transfer as u32), "{transfer:?} {kind}");
            random.cases.count();
        }
    }
}

#[test]
fn flush_sees_the_receive_error_first() {
    let (rx, tx, busy) = (1 << 12, 1 << 11, 1 << 24);
    let cases: [(&[u32], u32, usize); 11] = [
        (&[rx | tx | busy], 2, 1),
        (&[tx | busy], 3, 1),
        (&[0, 0x404, 0], 0, 3),
        (&[busy, 0, 0, 0x1F_0000], 0, 4),
        (&[0, 0, 1, rx], 2, 4),
        (&[busy, busy], 4, 2),
        (&[0, 0], 4, 2),
        (&[0, 5], 7, 2),
        (&[busy, 0, 0x500, 0], 7, 3),
        (&[tx, 5], 3, 1),
        (&[0, 0, 1, 0, 0xFFFF_FF00], 7, 5),
    ];
    for (script, number, accesses) in cases {
        let run = flush(Lpspi::default(), 10, script, &mut found(20));
        let given = (run.number(), run.accesses, run.answers);
        assert_eq!(given, (number, accesses, accesses), "{script:X?}");
    }
}
