//! What docs/DIFFERENCES.md says of the Rust, at the inputs given there.

use crate::listed;
use original::{Call, Direction, Driver, Element, Failure, Transfer, Value};
use original::{pack_word, run, run_published, unpack_word};
use std::panic::catch_unwind;

const START: Driver = Driver {
    lsb: false,
    mode: 0,
    pcs: 0,
    dbt: 0,
    sckdiv: 0,
};

/// The result of setting a clock, and the access that follows MEN's reading 0.
fn clock(source_hz: u32, clock_hz: u32) -> (Result<Value, Failure>, String) {
    let call = Call::SetClockHz {
        source_hz,
        clock_hz,
    };
    let (outcome, mut accesses) = listed(call, START, 50, &[0; 4]);
    (outcome.result, accesses.swap_remove(4))
}

#[test]
#[cfg_attr(not(original), ignore = "the original is missing")]
fn clocks() {
    let written = |ccr: &str| (Ok(Value::Unit), format!("W 40 {ccr}"));
    assert_eq!(clock(257, 1), written("7F7F7FFE"));
    // Slower than the manual allows: SCKDIV is at least 4, and even.
    assert_eq!(clock(1, 1), written("02020204"));
    assert_eq!(clock(7, 1), written("03030306"));

    // The next access is then the guard's, as it unwinds.
    let panicked = (Err(Failure::Panicked), "R 10 00000000".into());
    assert_eq!(clock(1, 0), panicked);
    // A build without overflow checks wraps.
    assert!([panicked, written("7F7F7FFE")].contains(&clock(0, 1)));
}

/// A level of 16 does not fit its field; the FIFO of `init` would have 32 words.
#[test]
#[cfg_attr(not(original), ignore = "the original is missing")]
fn exponents_over_4() {
    let set = |exponent, level| {
        let call = Call::SetWatermark(Direction::Tx, level);
        let (outcome, accesses) = listed(call, START, 50, &[exponent, 0]);
        (outcome.result, accesses[1..].join(", "))
    };
    let written = |level, fcr: &str| {
        (
            Ok(Value::Level(level)),
            format!("R 58 00000000, W 58 {fcr}"),
        )
    };
    assert_eq!(set(5, 0), written(0, "00000000"));
    assert_eq!(set(5, 16), written(16, "00000000"));
    for (exponent, level) in [(5, 31), (6, 63), (7, 127)] {
        assert_eq!(set(exponent, 200), written(level, "0000000F"));
    }
    // A build without overflow checks shifts by the exponent modulo 8.
    let panicked = (Err(Failure::Panicked), String::new());
    assert!([panicked, written(0, "00000000")].contains(&set(8, 200)));

    let init = |exponent| {
        let (outcome, accesses) = listed(Call::Init, START, 50, &[0, 0, 0, 0, exponent]);
        (outcome.result, accesses[9..].join(", "))
    };
    let enabled = |fcr: &str| (Ok(Value::Unit), format!("W 58 {fcr}, W 10 00000001"));
    for exponent in 5..32 {
        assert_eq!(init(exponent), enabled("00000000"));
    }
    // Or modulo 32.
    let panicked = (Err(Failure::Panicked), String::new());
    assert!([panicked, enabled("00000008")].contains(&init(36)));
}

/// As published an exponent is taken for a depth: no space at one of two words, nor at
/// none of one, nor at four of sixteen. With the depths in its place there is.
#[test]
#[cfg_attr(not(original), ignore = "the original is missing")]
fn space_in_the_transmit_fifo() {
    for poll in [[0, 1, 1], [0, 0, 0], [0, 4, 4]] {
        let (script, mut log) = (poll.repeat(9), [0; 100]);
        let write = || u8::call(Transfer::WriteNoRead(&[0]));
        let outcome = run_published(write(), START, 50, &script, &mut log);
        assert_eq!((outcome.number(), outcome.accesses), (Some(4), 27));
        let outcome = run(write(), START, 50, &script, &mut log);
        assert_eq!((outcome.number(), outcome.accesses), (Some(0), 8));
    }
    // Nor does it refuse an exponent.
    let (script, mut log) = ([0, 0xFFFF, 0].repeat(2), [0; 100]);
    for run in [run, run_published] {
        let call = u8::call(Transfer::WriteNoRead(&[0]));
        let outcome = run(call, START, 50, &script, &mut log);
        assert_eq!((outcome.number(), outcome.accesses), (Some(0), 8));
    }
    let outcome = run_published(Call::FifoStatus, START, 50, &[0x0304, 0], &mut log);
    let Ok(Value::FifoStatus(fifo)) = outcome.result else {
        panic!("{outcome:?}");
    };
    assert_eq!((fifo.rxcap, fifo.txcap), (3, 4));
}

#[test]
#[cfg_attr(not(original), ignore = "the original is missing")]
fn frame_sizes() {
    let bytes = [0; 513];
    let write = |len| u8::call(Transfer::WriteNoRead(&bytes[..len]));
    let (_, accesses) = listed(write(512), START, 50, &[0, 1, 0]);
    assert_eq!(accesses[3], "W 60 00080FFF");
    let (outcome, accesses) = listed(write(513), START, 50, &[0, 1, 0]);
    assert_eq!((outcome.number(), accesses.len()), (Some(1), 0));
}

/// A soft reset writes DBT and SCKDIV from the cache, and not what CCR had.
#[test]
#[cfg_attr(not(original), ignore = "the original is missing")]
fn cache() {
    let script = [0, 0, 0, 0, 0, 0, 1, 0, 0, 0, 0, 0, 0, 0];
    let (outcome, accesses) = listed(Call::SoftReset, START, 50, &script);
    assert_eq!(outcome.number(), Some(0));
    assert!(accesses.contains(&"R 40 00000001".into()));
    assert!(accesses.contains(&"W 40 00000000".into()));
}

/// There is no limit of 8,000 accesses.
#[test]
#[cfg_attr(not(original), ignore = "the original is missing")]
fn a_long_flush() {
    let script = [vec![1 << 24; 7_998], vec![0; 3]].concat();
    let mut log = vec![0; 16_002];
    let outcome = original::run(Call::Flush, START, 8_001, &script, &mut log);
    assert_eq!((outcome.number(), outcome.accesses), (Some(0), 8_001));
}

/// An `init` that does not return makes no driver.
#[test]
#[cfg_attr(not(original), ignore = "the original is missing")]
fn a_stopped_init() {
    let (outcome, _) = listed(Call::Init, crate::SET, 0, &[]);
    assert_eq!((outcome.number(), outcome.driver), (Some(4), crate::SET));
}

/// A closure may set nothing, or set twice while MEN is 0.
#[test]
#[cfg_attr(not(original), ignore = "the original is missing")]
fn closures() {
    let (outcome, accesses) = listed(Call::NoSetting, START, 50, &[1, 1, 0, 0]);
    assert_eq!(outcome.number(), Some(0));
    let expected = "R 10 00000001, R 10 00000001, W 10 00000000, R 10 00000000, \
                    R 10 00000000, W 10 00000001";
    assert_eq!(accesses.join(", "), expected);

    let call = Call::SetSamplePointAndPeripheral {
        delayed: true,
        enable: false,
    };
    let (outcome, accesses) = listed(call, START, 50, &[1, 1, 0, 0, 2, 0]);
    assert_eq!(outcome.number(), Some(0));
    let expected = "R 10 00000001, R 10 00000001, W 10 00000000, R 10 00000000, \
                    R 24 00000000, W 24 00000002, R 24 00000002, W 24 00000003, \
                    R 10 00000000, W 10 00000001";
    assert_eq!(accesses.join(", "), expected);
}

/// Of too many elements the rest is left, and too many bytes panic but at width 32.
#[test]
#[cfg_attr(not(original), ignore = "the original is missing")]
fn words_of_too_many() {
    let five = [0x11, 0x22, 0x33, 0x44, 0x55];
    assert_eq!(pack_word(8, false, &five), (0x1122_3344, 4));
    assert_eq!(pack_word(16, false, &five[..3]), (0x0011_0022, 2));
    assert_eq!(pack_word(32, false, &five[..2]), (0x11, 1));
    for (bits, valid_bytes) in [(8, 5), (16, 6)] {
        assert!(catch_unwind(|| unpack_word(bits, false, 0, valid_bytes)).is_err());
    }
    assert_eq!(unpack_word(32, false, 0x11, 8), [0x11]);
}

/// `unpack_word` is told bytes and not elements.
#[test]
#[cfg_attr(not(original), ignore = "the original is missing")]
fn half_an_element() {
    assert_eq!(unpack_word(16, false, 0x1122_3344, 1), []);
    assert_eq!(unpack_word(16, false, 0x1122_3344, 3), [0x3344]);
}
