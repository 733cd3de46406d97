//! Random limits, and comparisons of the port with another side on random runs.

use super::branches::{Branch, FlushBranch};
use super::cases::Tally;
use super::registers::{
    BUSY, CR, ERRORS, FSR, MEN, PARAM, RXCOUNT, RXFIFO, SR, TXCOUNT, TXFIFO, WRITE, exponents,
    param,
};
use super::run::{Left, Limits, MAX_BUDGET};
use super::transfer::{Element, Kind, Transfer, port_flush};
use super::{Random, walk};
use lpspi_host::{CcrCache, Lpspi, Mode, Pcs};

/// How often, in 256, an answer is of each kind.
pub struct Mood {
    error: u32,
    unready: u32,
    deep: u32,
    idle: u32,
}

impl Mood {
    pub fn new(random: &mut Random) -> Self {
        let mut one_of = |often: [u32; 4]| often[random.below(4)];
        Self {
            error: one_of([0, 4, 16, 64]),
            unready: one_of([0, 8, 32, 128]),
            deep: one_of([0, 0, 1, 4]),
            idle: one_of([0, 32, 128, 256]),
        }
    }

    pub fn without_errors(random: &mut Random) -> Self {
        Self {
            error: 0,
            ..Self::new(random)
        }
    }

    /// An answer that may be to any register.
    pub fn answer(&self, random: &mut Random) -> u32 {
        // As SR no error, as PARAM exponents up to 4, as FSR words to receive. The
        // same bits are TXFIFO and TXCOUNT: 3 or 4 is a FIFO with space, of 0 to 2
        // some show it full to another.
        let mut word = random.word() & !(ERRORS | RXCOUNT | TXFIFO | RXFIFO);
        word |= param([3 + random.below(2) as u32, random.below(5) as u32]);
        word |= 1 << (16 + random.below(5));
        if random.chance(self.error) {
            // As PARAM these are an exponent over 4.
            word |= random.word() & ERRORS;
        }
        if random.chance(self.unready) {
            word = word & !(RXCOUNT | TXFIFO) | random.below(3) as u32;
        }
        if random.chance(self.deep) {
            word |= if random.flag() {
                0xE8
            } else {
                0x400 | 1 << (8 + random.below(2))
            };
        }
        if random.chance(self.idle) {
            // Not busy, or TXCOUNT is 0.
            word &= !(BUSY | TXCOUNT);
        }
        word
    }
}

/// Exponents of which one at least is over 4.
fn over_4(random: &mut Random) -> [u32; 2] {
    let small = random.below(5) as u32;
    let over = [5, 5, 6, 8, 16, 31, 32, 255][random.below(8)];
    match random.below(3) {
        0 => [over, small],
        1 => [small, over],
        _ => [over, 5 + random.below(251) as u32],
    }
}

/// Puts other answers in place of those that a run has used, of which it would have
/// made the same: any exponents and counts that leave a FIFO as full or as empty. PARAM
/// is one answer in half of the runs, as a peripheral has it, mostly of 16 words, and
/// else any.
pub fn other_answers<W>(random: &mut Random, script: &mut [u32], ended: &Left<W>) {
    let reads = ended.made().filter(|(register, _)| *register < WRITE);
    let registers: Vec<u32> = reads.map(|(register, _)| register).collect();
    // Of the transmit FIFO, as it was and as it is chosen.
    let mut depths = [1u32; 2];
    let always = random.flag().then(|| {
        let exponents = match random.flag() {
            true => [4; 2],
            false => [1 + random.below(4) as u32, random.below(5) as u32],
        };
        random.word() & !(TXFIFO | RXFIFO) | param(exponents)
    });
    for (place, register) in registers.into_iter().enumerate() {
        let (answer, any) = (script[place], random.word());
        let keep = |mask: u32| any & !mask | answer & mask;
        script[place] = match register {
            CR => keep(MEN),
            SR => keep(ERRORS | BUSY),
            PARAM => {
                let found = exponents(answer);
                let any = always.unwrap_or(
                    any & !(TXFIFO | RXFIFO) | param([0; 2].map(|_| random.below(5) as u32)),
                );
                let mut chosen = exponents(any);
                if found.iter().any(|exponent| *exponent > 4) {
                    chosen = over_4(random);
                } else {
                    // A FIFO that has a word and space has two places or more.
                    let count = script.get(place + 1).map_or(0, |fsr| fsr & TXCOUNT);
                    let some = count > 0 && count < 1 << found[0];
                    chosen[0] = chosen[0].max(u32::from(some));
                    depths = [found[0], chosen[0]].map(|exponent| 1u32 << exponent);
                }
                any & !(TXFIFO | RXFIFO) | param(chosen)
            }
            FSR => {
                let (count, edge) = (answer & TXCOUNT, random.flag());
                let mut from =
                    |least: u32, limit: u32| least + random.below((limit - least) as usize) as u32;
                let sent = match count {
                    0 => 0,
                    _ if count < depths[0] && edge => depths[1] - 1,
                    _ if count < depths[0] => from(1, depths[1]),
                    _ if edge => depths[1],
                    _ => from(depths[1], 32),
                };
                let received = match answer & RXCOUNT {
                    0 => 0,
                    _ => from(1, 32),
                };
                any & !(TXCOUNT | RXCOUNT) | received << 16 | sent
            }
            _ => any,
        };
    }
}

/// Limits of a run. `words` tells how long a script is of use, and `port` makes the
/// run.
pub fn random_limits<W>(
    random: &mut Random,
    words: usize,
    port: impl Fn(&Limits) -> Left<W>,
) -> Limits {
    let mood = Mood::new(random);
    let len = match random.below(64) {
        0 => 8_100,
        1 => random.below(20),
        2..16 => random.below(12 * words + 80),
        _ => 16 * words + 80,
    };
    let script: Vec<u32> = (0..len).map(|_| mood.answer(random)).collect();

    // Where the run would end by itself, if it does. Seldom with 7.
    let mut limits = Limits::new(MAX_BUDGET, &script);
    let mut ended = port(&limits);
    while ended.number == 7 && random.chance(176) {
        limits.script[ended.answers - 1] &= !(TXFIFO | RXFIFO) | param([3; 2]);
        ended = port(&limits);
    }
    other_answers(random, &mut limits.script, &ended);

    limits.script.truncate(match random.below(8) {
        0 => ended.answers,
        1 => ended.answers.saturating_sub(1),
        2 => random.below(ended.answers + 1),
        _ => len,
    });
    let budget = match random.below(12) {
        0 | 1 => ended.accesses,
        2 => ended.accesses.saturating_sub(1),
        3 => random.below(ended.accesses + 1),
        4 => random.below(40),
        5 => MAX_BUDGET + 1,
        _ => MAX_BUDGET,
    };
    limits.budget = budget;
    limits.log_len = match random.below(12) {
        0 => (2 * budget).saturating_sub(1),
        1 => random.below(2 * budget + 1),
        2 => 2 * budget + random.below(9),
        _ => 2 * budget,
    };
    limits
}

pub fn random_driver(random: &mut Random) -> Lpspi {
    Lpspi {
        bit_order: random.order(),
        mode: Mode::of_number(random.any_size()),
        pcs: Pcs::of_number(random.any_size()),
        ccr_cache: CcrCache {
            dbt: random.word() as u8,
            sckdiv: random.word() as u8,
        },
    }
}

/// Compares random transfers of one kind. Every branch must be reached, but for the
/// places of stops.
pub fn transfers<W: Element>(
    random: &mut Random,
    kind: Kind,
    runs: usize,
    other: impl Fn(&Transfer<W>, &Limits) -> Left<W>,
) {
    let mut tally = Tally::new(Branch::all::<W>(kind));
    for _ in 0..runs {
        let mut length = || match random.below(32) {
            0 => Transfer::<W>::LONGEST,
            1 => Transfer::<W>::LONGEST + 1,
            2 => random.below(Transfer::<W>::LONGEST),
            3 => 0,
            _ => random.below(40),
        };
        let (read, write) = (length(), length());
        let lengths = match kind {
            Kind::ExchangeSeparate if random.chance(4) => (0, 0),
            Kind::ExchangeSeparate => (read, write),
            _ => (read, 0),
        };
        let driver = random_driver(random);
        let transfer = Transfer::new(kind, driver, lengths, || random.word());
        let limits = random_limits(random, transfer.words(), |limits| transfer.port(limits));
        let left = transfer.port(&limits);
        let judged = || other(&transfer, &limits);
        random.cases.compare(&(&transfer, &limits), &left, judged);
        assert_eq!(left.number == 5, limits.refused());
        tally.count(walk::of_transfer(&transfer, &limits, &left));
    }
    tally.demand(&kind, |branch| match branch {
        Branch::Stopped(..) => 0,
        // Rare: of recoveries only, and of one poll and field, or of one count.
        Branch::Waited(_) | Branch::TooDeep(..) | Branch::Full(_) | Branch::LastPlace(_) => 1,
        _ => 20,
    });
}

/// Compares random flushes. Every branch must be reached.
pub fn flushes(random: &mut Random, runs: usize, other: impl Fn(Lpspi, &Limits) -> Left<u8>) {
    let mut tally = Tally::new(FlushBranch::all());
    for _ in 0..runs {
        let driver = random_driver(random);
        let limits = random_limits(random, 5, |limits| port_flush(driver, limits));
        let left = port_flush(driver, &limits);
        let judged = || other(driver, &limits);
        random.cases.compare(&(driver, &limits), &left, judged);
        assert_eq!(left.number == 5, limits.refused());
        tally.count(walk::of_flush(&limits, &left));
    }
    tally.demand(&"flush", |branch| match branch {
        FlushBranch::TooDeep(_) => 5,
        _ => 20,
    });
}
