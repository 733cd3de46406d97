//! The other calls of the original.

use crate::{SET, listed};
use original::{Call, ClockConfigs, Direction, Driver, Failure, FifoStatus, Value};

/// Every call that is neither a transfer nor a recovery.
#[test]
#[cfg_attr(not(original), ignore = "the original is missing")]
fn other_calls() {
    let (tx, rx) = (Direction::Tx, Direction::Rx);
    let fifo_status = FifoStatus {
        rxcount: 0x1F,
        txcount: 0x12,
        rxcap: 8,
        txcap: 16,
    };
    let cases: [(Call, &[u32], Value, &str); 20] = [
        (
            Call::Flush,
            &[1 << 24, 0, 0x404, 1, 0, 0x404, 0],
            Value::Unit,
            "R 14 01000000, R 14 00000000, R 04 00000404, R 5C 00000001, \
             R 14 00000000, R 04 00000404, R 5C 00000000",
        ),
        (
            Call::Watermark(tx),
            &[0xFFFA_FFF5],
            Value::Level(5),
            "R 58 FFFAFFF5",
        ),
        (
            Call::Watermark(rx),
            &[0xFFFA_FFF5],
            Value::Level(10),
            "R 58 FFFAFFF5",
        ),
        (
            Call::SetWatermark(tx, 9),
            &[0x403, !0],
            Value::Level(7),
            "R 04 00000403, R 58 FFFFFFFF, W 58 FFFFFFF7",
        ),
        (
            Call::SetWatermark(rx, 9),
            &[0x403, 0],
            Value::Level(9),
            "R 04 00000403, R 58 00000000, W 58 00090000",
        ),
        (
            Call::Status,
            &[!0],
            Value::Status(0x0100_3F03),
            "R 14 FFFFFFFF",
        ),
        (Call::ClearStatus(!0), &[], Value::Unit, "W 14 00003F00"),
        (
            Call::IsEnabled,
            &[!1],
            Value::Enabled(false),
            "R 10 FFFFFFFE",
        ),
        (
            Call::SetEnable(true),
            &[!1],
            Value::Unit,
            "R 10 FFFFFFFE, W 10 FFFFFFFF",
        ),
        (
            Call::ClearFifo(tx),
            &[1],
            Value::Unit,
            "R 10 00000001, W 10 00000101",
        ),
        (
            Call::ClearFifo(rx),
            &[1],
            Value::Unit,
            "R 10 00000001, W 10 00000201",
        ),
        (
            Call::FifoStatus,
            &[0xFFFF_0304, 0xFFFF_FFF2],
            Value::FifoStatus(fifo_status),
            "R 04 FFFF0304, R 5C FFFFFFF2",
        ),
        (
            Call::ReadData,
            &[!2, 0x1234_5678],
            Value::Data(Some(0x1234_5678)),
            "R 70 FFFFFFFD, R 74 12345678",
        ),
        (Call::ReadData, &[2], Value::Data(None), "R 70 00000002"),
        (Call::EnqueueData(7), &[], Value::Unit, "W 64 00000007"),
        (
            Call::EnqueueTransaction { frame_size: 40 },
            &[],
            Value::Unit,
            "W 60 C2800027",
        ),
        (
            Call::SetSamplePoint { delayed: true },
            &[0, 0, 0, 1, 1],
            Value::Unit,
            "R 10 00000000, R 10 00000000, W 10 00000000, R 10 00000000, \
             R 24 00000001, W 24 00000003, R 10 00000001, W 10 00000000",
        ),
        (
            Call::SetSamplePoint { delayed: false },
            &[1, 1, 0, !0, 0],
            Value::Unit,
            "R 10 00000001, R 10 00000001, W 10 00000000, R 10 00000000, \
             R 24 FFFFFFFF, W 24 FFFFFFFD, R 10 00000000, W 10 00000001",
        ),
        (
            Call::SetPeripheralEnable(true),
            &[1, 1, 0, !0, 0],
            Value::Unit,
            "R 10 00000001, R 10 00000001, W 10 00000000, R 10 00000000, \
             R 24 FFFFFFFF, W 24 FFFFFFFE, R 10 00000000, W 10 00000001",
        ),
        (
            Call::SetChipSelectPolarity {
                pcs: 2,
                active_high: true,
            },
            &[1, 1, 0, 0x100, 0xF03, 0],
            Value::Unit,
            "R 10 00000001, R 10 00000001, W 10 00000000, R 10 00000000, \
             R 24 00000100, R 24 00000F03, W 24 00000503, R 10 00000000, W 10 00000001",
        ),
    ];
    for (call, script, value, expected) in cases {
        let case = format!("{call:?}");
        let (outcome, accesses) = listed(call, SET, 50, script);
        assert_eq!(accesses.join(", "), expected, "{case}");
        assert_eq!(outcome.result, Ok(value), "{case}");
        assert_eq!(outcome.answers, script.len(), "{case}");
        assert_eq!(outcome.driver, SET, "{case}");
    }
}

#[test]
#[cfg_attr(not(original), ignore = "the original is missing")]
fn calls_that_change_the_driver() {
    let (outcome, accesses) = listed(Call::Init, SET, 50, &[!0, 1, 0, 3, 0, 4]);
    let expected = "R 10 FFFFFFFF, W 10 FFFFFFFE, R 10 00000001, R 10 00000000, \
        R 10 00000003, W 10 00000001, R 10 00000000, W 10 00000300, W 24 00000003, \
        R 04 00000004, W 58 00000008, W 10 00000001";
    assert_eq!(accesses.join(", "), expected);
    assert_eq!(outcome.driver, Driver::default());

    let call = Call::SetClockHz {
        source_hz: 60_000_000,
        clock_hz: 4_000_000,
    };
    let (outcome, accesses) = listed(call, SET, 50, &[0, 0, 0, 0]);
    assert_eq!(accesses[4], "W 40 0707070E");
    let taken = Driver {
        dbt: 7,
        sckdiv: 14,
        ..SET
    };
    assert_eq!(outcome.driver, taken);
}

/// What the `Disabled` guard's destructor would do is not done in a stopped run.
#[test]
#[cfg_attr(not(original), ignore = "the original is missing")]
fn stops_while_disabled() {
    let configs = ClockConfigs {
        sckpcs: 1,
        pcssck: 2,
        dbt: 3,
        sckdiv: 4,
    };
    let script = [1, 1, 1, 0, 0xFE];
    let expected = [
        "R 10 00000001",
        "R 10 00000001",
        "W 10 00000000",
        "R 10 00000001",
        "R 10 00000000",
        "W 40 01020304",
        "R 10 000000FE",
        "W 10 000000FF",
    ];
    let taken = Driver {
        dbt: 3,
        sckdiv: 4,
        ..SET
    };
    for budget in 0..=8 {
        let (outcome, accesses) = listed(Call::SetClockConfigs(configs), SET, budget, &script);
        assert_eq!(accesses, expected[..budget]);
        assert_eq!(outcome.number(), Some(if budget == 8 { 0 } else { 4 }));
        // The cache takes the clock once MEN has read 0.
        assert_eq!(outcome.driver, if budget < 5 { SET } else { taken });
    }
    for (answers, made) in [0, 1, 3, 4, 6, 8].into_iter().enumerate() {
        let script = &script[..answers];
        let (outcome, accesses) = listed(Call::SetClockConfigs(configs), SET, 8, script);
        assert_eq!(accesses, expected[..made]);
        assert_eq!(outcome.answers, answers);
    }
}

/// A panic is told from a stop. The guard restores MEN, as it unwinds.
#[test]
#[cfg_attr(not(original), ignore = "the original is missing")]
fn panics() {
    let call = Call::SetClockHz {
        source_hz: 1,
        clock_hz: 0,
    };
    let (outcome, accesses) = listed(call, SET, 50, &[1, 1, 0, 0]);
    let expected = "R 10 00000001, R 10 00000001, W 10 00000000, R 10 00000000, \
        R 10 00000000, W 10 00000001";
    assert_eq!(accesses.join(", "), expected);
    assert_eq!(outcome.result, Err(Failure::Panicked));
    assert_eq!((outcome.number(), outcome.driver), (None, SET));
}
