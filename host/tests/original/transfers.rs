//! Transfers and recoveries of the original.

use crate::common::run::{EXAMPLE_LISTING, EXAMPLE_SCRIPT};
use crate::{SET, listed};
use original::{Call, Driver, Element, Transfer, Value};

#[test]
#[cfg_attr(not(original), ignore = "the original is missing")]
fn the_example() {
    let mut read = [0];
    let transfer = Transfer::ExchangeSeparate {
        read: &mut read,
        write: &[0xA5],
    };
    let (outcome, accesses) = listed(u8::call(transfer), Driver::default(), 20, &EXAMPLE_SCRIPT);
    assert_eq!(accesses.join("\n"), EXAMPLE_LISTING);
    assert_eq!(read, [0x5A]);
    let numbers = (outcome.number(), outcome.accesses, outcome.answers);
    assert_eq!(numbers, (Some(0), 12, 10));
}

/// The other transfers. In place, the byte that is received first is sent.
#[test]
#[cfg_attr(not(original), ignore = "the original is missing")]
fn one_way_and_in_place() {
    let write = Transfer::WriteNoRead(&[0x1122, 0x3344, 0x5566]);
    let ready = [0, 0x404, 15].repeat(3);
    let (outcome, accesses) = listed(u16::call(write), Driver::default(), 50, &ready);
    let expected = "\
        R 14 00000000, R 04 00000404, R 5C 0000000F, W 60 0008002F, \
        R 14 00000000, R 04 00000404, R 5C 0000000F, W 64 11223344, \
        R 14 00000000, R 04 00000404, R 5C 0000000F, W 64 00005566";
    assert_eq!(accesses.join(", "), expected);
    assert_eq!(outcome.number(), Some(0));

    let mut data = [0];
    let read = Transfer::ReadNoWrite(&mut data);
    let script = [0, 1, 0, 0, 0, 0, 0, 0, 0x1_0000, 0x1234_5678];
    let (outcome, accesses) = listed(u32::call(read), Driver::default(), 50, &script);
    let expected = "\
        R 14 00000000, R 04 00000001, R 5C 00000000, W 60 0004001F, \
        R 14 00000000, R 04 00000000, R 5C 00000000, \
        R 14 00000000, R 04 00000000, R 5C 00010000, R 74 12345678";
    assert_eq!(accesses.join(", "), expected);
    assert_eq!(outcome.number(), Some(0));
    assert_eq!(data, [0x1234_5678]);

    let mut data = [0xA5];
    let in_place = Transfer::Exchange(&mut data);
    let script = [0, 1, 0, 0, 1, 2, 0, 0, 0x1_0000, 0x5A, 0, 1, 1];
    let (outcome, accesses) = listed(u8::call(in_place), Driver::default(), 50, &script);
    let expected = "\
        R 14 00000000, R 04 00000001, R 5C 00000000, W 60 00000007, \
        R 14 00000000, R 04 00000001, R 5C 00000002, \
        R 14 00000000, R 04 00000000, R 5C 00010000, R 74 0000005A, \
        R 14 00000000, R 04 00000001, R 5C 00000001, W 64 0000005A";
    assert_eq!(accesses.join(", "), expected);
    assert_eq!(outcome.number(), Some(0));
    assert_eq!(data, [0x5A]);
}

/// The answers and the accesses of a recovery with a cache of 12 and 34.
const RECOVERY: [u32; 15] = [
    0x18, 0x1C, 0x20, 0x24, 0x30, 0x34, 0xABCDFFFF, 0x58, 1, !0, 1, 0, 3, 0, 0xFE,
];
const RECOVERY_LISTING: &str = "\
    R 18 00000018, R 1C 0000001C, R 20 00000020, R 24 00000024, \
    R 30 00000030, R 34 00000034, R 40 ABCDFFFF, R 58 00000058, \
    R 10 00000001, R 10 FFFFFFFF, W 10 FFFFFFFE, R 10 00000001, R 10 00000000, \
    R 10 00000003, W 10 00000001, R 10 00000000, W 10 00000300, \
    W 18 00000018, W 1C 0000001C, W 20 00000020, W 24 00000024, \
    W 30 00000030, W 34 00000034, W 40 ABCD1234, W 58 00000058, \
    R 10 000000FE, W 10 000000FF, W 14 00001800";

#[test]
#[cfg_attr(not(original), ignore = "the original is missing")]
fn recoveries() {
    let (outcome, accesses) = listed(Call::RecoverFromError, SET, 50, &RECOVERY);
    assert_eq!(accesses.join(", "), RECOVERY_LISTING);
    assert_eq!((outcome.result, outcome.answers), (Ok(Value::Unit), 15));

    let (_, reset) = listed(Call::SoftReset, SET, 50, &RECOVERY);
    assert_eq!(reset[..], accesses[..27]);

    // A receive error after TCR, and stops before every access.
    let script = [&[0, 0x404, 0, 0, 0x404, 0, 0x1000], &RECOVERY[..]].concat();
    let expected = "\
        R 14 00000000, R 04 00000404, R 5C 00000000, W 60 C2800007, \
        R 14 00000000, R 04 00000404, R 5C 00000000, W 64 000000A5, R 14 00001000, "
        .to_owned()
        + RECOVERY_LISTING;
    let expected: Vec<_> = expected.split(", ").collect();
    for budget in 0..=expected.len() {
        let mut data = [0xA5];
        let call = u8::call(Transfer::Exchange(&mut data));
        let (outcome, accesses) = listed(call, SET, budget, &script);
        assert_eq!(accesses, expected[..budget]);
        let ended = budget == expected.len();
        assert_eq!(outcome.number(), Some(if ended { 2 } else { 4 }));
        assert_eq!(outcome.driver, SET);
        assert_eq!(data, [0xA5]);
    }
}
