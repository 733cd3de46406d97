//! Random transfers and flushes.

use super::{judged_flush, judged_transfer};
use crate::common::Random;
use crate::common::random_runs::{flushes, transfers};
use crate::common::transfer::Kind;

#[test]
#[cfg_attr(not(original), ignore = "the original is missing")]
fn exchanges_of_bytes() {
    let mut random = Random::new("original: exchanges of bytes");
    transfers::<u8>(&mut random, Kind::ExchangeSeparate, 8_000, judged_transfer);
}

#[test]
#[cfg_attr(not(original), ignore = "the original is missing")]
fn exchanges_of_halves() {
    let mut random = Random::new("original: exchanges of halves");
    transfers::<u16>(&mut random, Kind::ExchangeSeparate, 8_000, judged_transfer);
}

#[test]
#[cfg_attr(not(original), ignore = "the original is missing")]
fn exchanges_of_words() {
    let mut random = Random::new("original: exchanges of words");
    transfers::<u32>(&mut random, Kind::ExchangeSeparate, 8_000, judged_transfer);
}

#[test]
#[cfg_attr(not(original), ignore = "the original is missing")]
fn transfers_of_one_buffer() {
    let mut random = Random::new("original: transfers of one buffer");
    for kind in [Kind::Exchange, Kind::WriteNoRead, Kind::ReadNoWrite] {
        transfers::<u8>(&mut random, kind, 4_000, judged_transfer);
        transfers::<u16>(&mut random, kind, 4_000, judged_transfer);
        transfers::<u32>(&mut random, kind, 4_000, judged_transfer);
    }
}

#[test]
#[cfg_attr(not(original), ignore = "the original is missing")]
fn flushes_of_both() {
    let mut random = Random::new("original: flushes");
    flushes(&mut random, 8_000, judged_flush);
}
