//! What the FIFO's true depth is for (document 02, No. 5): 512 bytes are uploaded into
//! a transmit FIFO of 16 words, on one simulated peripheral, by lpspi.rs as it was
//! published, by lpspi.rs with the depths, and by the port. docs/BENCHMARKS.md has the
//! counts.

use crate::common::document::document;
use crate::common::registers::{TCR, TDR, WRITE};
use lpspi_host::{Lpspi, write_no_read};
use original::{Call, Driver, Element, Outcome, Transfer, run, run_published};

const BYTES: [u8; 512] = [0xA5; 512];
const BUDGET: usize = 8_000;
/// Of 2^4 words each.
const PARAM: u32 = 0x404;

/// A peripheral that takes its words from the transmit FIFO.
struct Peripheral {
    name: &'static str,
    /// Accesses of the driver that it takes for a word.
    shift: usize,
    /// After so many accesses the processor is away until the FIFO is empty.
    slice: usize,
}

const PERIPHERALS: [Peripheral; 4] = [
    Peripheral {
        name: "a word leaves every 8 accesses",
        shift: 8,
        slice: usize::MAX,
    },
    Peripheral {
        name: "a word leaves every 16 accesses",
        shift: 16,
        slice: usize::MAX,
    },
    Peripheral {
        name: "a word leaves every 32 accesses",
        shift: 32,
        slice: usize::MAX,
    },
    Peripheral {
        name: "after every 64 accesses the processor is away until the FIFO is empty",
        shift: 1_000,
        slice: 64,
    },
];

impl Peripheral {
    /// TXCOUNT after those accesses. The command leaves with the first word.
    fn txcount(&self, accesses: impl Iterator<Item = u32>) -> u32 {
        let (mut command, mut words, mut shifting) = (0, 0, 0);
        for (made, register) in accesses.enumerate() {
            if made > 0 && made % self.slice == 0 {
                command = if words > 0 { 0 } else { command };
                (words, shifting) = (0, 0);
            }
            shifting -= usize::from(shifting > 0);
            if shifting == 0 && words > 0 {
                (command, words, shifting) = (0, words - 1, self.shift);
            }
            command += u32::from(register == WRITE + TCR);
            words += u32::from(register == WRITE + TDR);
            assert!(command + words <= 16, "no word is lost");
        }
        command + words
    }

    /// The accesses of an upload. `upload` makes it over a script, and answers its
    /// number and the registers of its accesses.
    fn accesses(&self, upload: impl Fn(&[u32]) -> (Option<u32>, Vec<u32>)) -> usize {
        let mut script = vec![];
        loop {
            let (number, made) = upload(&script);
            if number == Some(0) {
                return made.len();
            }
            assert_eq!(number, Some(4));
            assert!(made.len() < BUDGET, "the upload ends within the budget");
            // A poll: two reads pass before FSR is read.
            let fsr = self.txcount(made.into_iter().chain([0; 2]));
            script.extend([0, PARAM, fsr]);
        }
    }
}

type Run = fn(Call, Driver, usize, &[u32], &mut [u32]) -> Outcome;

fn registers(log: &[u32], accesses: usize) -> Vec<u32> {
    let made = log[..2 * accesses].chunks_exact(2);
    made.map(|access| access[0]).collect()
}

fn by_original(run: Run, script: &[u32]) -> (Option<u32>, Vec<u32>) {
    let mut log = vec![0; 2 * BUDGET];
    let call = u8::call(Transfer::WriteNoRead(&BYTES));
    let outcome = run(call, Driver::default(), BUDGET, script, &mut log);
    (outcome.number(), registers(&log, outcome.accesses))
}

fn by_port(script: &[u32]) -> (Option<u32>, Vec<u32>) {
    let mut log = vec![0; 2 * BUDGET];
    let run = write_no_read(Lpspi::default(), &BYTES, BUDGET, script, &mut log);
    (Some(run.number()), registers(&log, run.accesses))
}

/// A number below a million, as the documents have it.
fn decimal(number: usize) -> String {
    match number {
        0..1_000 => number.to_string(),
        _ => format!("{},{:03}", number / 1_000, number % 1_000),
    }
}

#[test]
#[cfg_attr(not(original), ignore = "the original is missing")]
fn uploads() {
    let rows = PERIPHERALS.map(|peripheral| {
        let published = peripheral.accesses(|script| by_original(run_published, script));
        let deep = peripheral.accesses(|script| by_original(run, script));
        let port = peripheral.accesses(by_port);
        assert_eq!(deep, port);
        assert!(port < published);
        let (published, port) = (decimal(published), decimal(port));
        format!("| {} | {published} | {port} |\n", peripheral.name)
    });
    let table = rows.concat();
    print!("{table}");
    assert!(
        document("BENCHMARKS.md").contains(&table),
        "not in docs/BENCHMARKS.md"
    );
}
