//! Calls by example. The accesses expected of resets, settings and values are those
//! of a model that was written from the original and the scope document alone.

mod common;

use common::function::Function;
use common::run::Limits;
use lpspi_host::raw::Get;
use lpspi_host::*;

/// What a log holds before a run, in each place.
const FOUND: u32 = 0xAAAA_AAAA;

/// A driver none of whose settings is the starting one.
const DRIVER: Lpspi = Lpspi {
    bit_order: BitOrder::Lsb,
    mode: MODE_3,
    pcs: Pcs::Pcs2,
    ccr_cache: CcrCache {
        dbt: 0xB2,
        sckdiv: 0xC3,
    },
};

/// Compares a run's accesses, as far as they go, with those listed, and its number,
/// accesses, answers and next driver with the ending. Leaves the log as found.
#[track_caller]
fn check(run: Run, log: &mut [u32], listed: &str, ending: &str) {
    let (made, rest) = log.split_at(2 * run.accesses);
    assert!(rest.iter().all(|word| *word == FOUND));
    let made = made.chunks(2).map(|pair| {
        let kind = if pair[0] < 0x1000 { 'R' } else { 'W' };
        format!("{kind} {:02X} {:X}", pair[0] % 0x1000, pair[1])
    });
    let listed = listed.split(", ").take(run.accesses);
    assert_eq!(made.collect::<Vec<_>>(), listed.collect::<Vec<_>>());

    let Run {
        accesses, answers, ..
    } = run;
    let (number, driver) = (run.number(), run.driver.number());
    let given = format!("{number} {accesses} {answers} {driver:06X}");
    assert_eq!(given, ending);
    log.fill(FOUND);
}

#[test]
fn driver_numbers() {
    assert_eq!(DRIVER.number(), 0x1E_B2C3);
    assert_eq!(Lpspi::of_number(0xFFFE_B2C3), DRIVER);
    assert_eq!(Lpspi::of_number(0), Lpspi::default());
    let past = Lpspi {
        mode: Mode::of_number(u32::MAX),
        pcs: Pcs::of_number(6),
        ..DRIVER
    };
    assert_eq!(past.number(), DRIVER.number());
}

#[test]
fn limits_come_first_and_leave_all_as_found() {
    let (script, ending) = ([u32::MAX; 20], "5 0 0 1EB2C3");
    for (budget, log_len) in [(8_001, 16_002), (40, 79)] {
        let log = &mut vec![FOUND; log_len][..];
        check(soft_reset(DRIVER, budget, &script, log), log, "", ending);
        check(init(DRIVER, budget, &script, log), log, "", ending);
        let run = enqueue_data(DRIVER, 1, budget, &script, log);
        check(run, log, "", ending);
        let run = set_clock_hz(DRIVER, 0, 0, budget, &script, log);
        check(run, log, "", ending);
        let (run, value) = status(DRIVER, budget, &script, log);
        check(run, log, "", ending);
        assert_eq!(value, Status::empty());
    }
}

#[test]
fn a_clock_of_0_is_number_6() {
    let log = &mut [FOUND; 80];
    for (source, clock, budget) in [(0, 4_000_000, 20), (60_000_000, 0, 20), (0, 0, 0)] {
        let run = set_clock_hz(DRIVER, source, clock, budget, &[0; 4], log);
        check(run, log, "", "6 0 0 1EB2C3");
    }
}

/// Also where PARAM uses up the budget.
#[test]
fn an_exponent_over_4_is_number_7() {
    let log = &mut [FOUND; 80];
    for (direction, param, listed) in [
        (Direction::Rx, 0x504, "R 04 504"),
        (Direction::Tx, 0x405, "R 04 405"),
    ] {
        let (run, level) = set_watermark(DRIVER, direction, 3, 1, &[param, 0], log);
        check(run, log, listed, "7 1 1 1EB2C3");
        assert_eq!((run.result, level), (Err(Error::FifoExponent), 0));
    }
}

/// The cache has the new clock once MEN has read 0, before CCR is written.
#[test]
fn clocks_and_the_cache() {
    let log = &mut [FOUND; 80];
    let script = [0x0B, u32::MAX, 0x0B, u32::MAX, 0xFFFF_FFFE, 0x0A];
    let listed = "R 10 B, R 10 FFFFFFFF, W 10 FFFFFFFE, R 10 B, R 10 FFFFFFFF, \
                  R 10 FFFFFFFE, W 40 707070E, R 10 A, W 10 B";
    for (budget, ending) in [
        (5, "4 5 4 1EB2C3"),
        (6, "4 6 5 1E070E"),
        (9, "0 9 6 1E070E"),
    ] {
        let run = set_clock_hz(DRIVER, 60_000_000, 4_000_000, budget, &script, log);
        check(run, log, listed, ending);
    }

    let configs = ClockConfigs::from_raw(0x1234_5678);
    let script = [1, 0x0B, 0x0A, 0xFFFF_FFFE];
    let listed = "R 10 1, R 10 B, W 10 A, R 10 A, W 40 12345678, R 10 FFFFFFFE, W 10 FFFFFFFF";
    for (budget, ending) in [
        (3, "4 3 2 1EB2C3"),
        (4, "4 4 3 1E5678"),
        (20, "0 7 4 1E5678"),
    ] {
        let run = set_clock_configs(DRIVER, configs, budget, &script, log);
        check(run, log, listed, ending);
    }
}

#[test]
fn other_disabled_settings() {
    let log = &mut [FOUND; 80];
    let (off, on) = ("R 10 B, R 10 B, W 10 A, R 10 A", "R 10 2, W 10 3");
    for (point, cfgr1, listed) in [
        (SamplePoint::Edge, u32::MAX, "R 24 FFFFFFFF, W 24 FFFFFFFD"),
        (SamplePoint::DelayedEdge, 0xF0FC, "R 24 F0FC, W 24 F0FE"),
    ] {
        let script = [0x0B, 0x0B, 0x0A, cfgr1, 2];
        let run = set_sample_point(DRIVER, point, 20, &script, log);
        check(run, log, &[off, listed, on].join(", "), "0 8 5 1EB2C3");
    }
    for (enable, cfgr1, listed) in [
        (true, u32::MAX, "R 24 FFFFFFFF, W 24 FFFFFFFE"),
        (false, 0xF0FC, "R 24 F0FC, W 24 F0FD"),
    ] {
        let script = [0x0B, 0x0B, 0x0A, cfgr1, 2];
        let run = set_peripheral_enable(DRIVER, enable, 20, &script, log);
        check(run, log, &[off, listed, on].join(", "), "0 8 5 1EB2C3");
    }
    for (pcs, polarity, cfgr1, listed) in [
        (
            Pcs::Pcs3,
            PcsPolarity::ActiveHigh,
            [0x200, 0xFFFF_F5FC],
            "R 24 200, R 24 FFFFF5FC, W 24 FFFFFAFC",
        ),
        (
            Pcs::Pcs0,
            PcsPolarity::ActiveLow,
            [0xFFFF_F3FF, 0xF03],
            "R 24 FFFFF3FF, R 24 F03, W 24 203",
        ),
    ] {
        let script = [0x0B, 0x0B, 0x0A, cfgr1[0], cfgr1[1], 2];
        let run = set_chip_select_polarity(DRIVER, pcs, polarity, 20, &script, log);
        check(run, log, &[off, listed, on].join(", "), "0 9 6 1EB2C3");
    }
    // To C a chip select is taken modulo 4.
    let script = [0x0B, 0x0B, 0x0A, 0xFFFF_F3FF, 0xF03, 2];
    let (mut driver, mut accesses, mut answers) = (DRIVER.number(), 0, 0);
    log.fill(FOUND);
    let number = raw::disabled(
        raw::Disabled::SetChipSelectPolarity as u32,
        4,
        0,
        &mut driver,
        20,
        &script,
        log,
        &mut accesses,
        &mut answers,
    );
    assert_eq!((number, accesses, answers), (0, 9, 6));
    assert_eq!(log[12..14], [0x1024, 0x203]);
}

#[test]
fn resets_write_the_cache() {
    let log = &mut [FOUND; 80];
    let kept = [0x11, 0x22, 0x33, 0x44, 0x55, 0x66, 0x7788_99AA, 0xBB];
    let script = [
        &kept[..],
        &[0x0B, 0xFFFF_FFFD, 0x0B, u32::MAX, 0xFFFF_FFFE],
        &[u32::MAX, 0xFFFF_FCFF, 0x0A],
    ]
    .concat();
    let listed = "R 18 11, R 1C 22, R 20 33, R 24 44, R 30 55, R 34 66, R 40 778899AA, R 58 BB, \
                  R 10 B, R 10 FFFFFFFD, W 10 FFFFFFFE, R 10 B, R 10 FFFFFFFF, R 10 FFFFFFFE, \
                  R 10 FFFFFFFF, W 10 FFFFFFFD, R 10 FFFFFCFF, W 10 FFFFFFFF, \
                  W 18 11, W 1C 22, W 20 33, W 24 44, W 30 55, W 34 66, W 40 7788B2C3, W 58 BB, \
                  R 10 A, W 10 B, W 14 1800";
    for (budget, ending) in [
        (13, "4 13 12 1EB2C3"),
        (24, "4 24 15 1EB2C3"),
        (28, "0 28 16 1EB2C3"),
    ] {
        let run = soft_reset(DRIVER, budget, &script, log);
        check(run, log, listed, ending);
    }
    for (budget, ending) in [(28, "4 28 16 1EB2C3"), (40, "0 29 16 1EB2C3")] {
        let run = recover_from_error(DRIVER, budget, &script, log);
        check(run, log, listed, ending);
    }
}

/// `init` past the limits gives the starting driver value, whatever its number.
#[test]
fn init_starts_anew() {
    let log = &mut [FOUND; 80];
    for (param, budget, ending) in [
        (0x404, 0, "4 0 0 000000"),
        (0x404, 4, "4 4 3 000000"),
        (0x404, 12, "4 12 7 000000"),
        (0xFF04, 40, "0 13 7 000000"),
        (0x405, 40, "7 11 7 000000"),
        (0x4FF, 11, "7 11 7 000000"),
    ] {
        let script = [
            0xFFFF_FFFD,
            0x0B,
            u32::MAX,
            0x0A,
            u32::MAX,
            0xFFFF_FCFF,
            param,
        ];
        let listed = format!(
            "R 10 FFFFFFFD, W 10 FFFFFFFE, R 10 B, R 10 FFFFFFFF, R 10 A, \
             R 10 FFFFFFFF, W 10 FFFFFFFD, R 10 FFFFFCFF, W 10 FFFFFFFF, \
             W 24 3, R 04 {param:X}, W 58 8, W 10 1"
        );
        check(init(DRIVER, budget, &script, log), log, &listed, ending);
    }
}

#[test]
fn read_data_with_and_without_a_word() {
    let log = &mut [FOUND; 80];
    for (rsr, rdr, budget, ending, word) in [
        (
            0xFFFF_FFFD,
            0xDEAD_BEEF,
            20,
            "0 2 2 1EB2C3",
            Some(0xDEAD_BEEF),
        ),
        (0, 0, 20, "0 2 2 1EB2C3", Some(0)),
        (2, 0xDEAD_BEEF, 20, "0 1 1 1EB2C3", None),
        (0, 0xDEAD_BEEF, 1, "4 1 1 1EB2C3", None),
    ] {
        let (run, given) = read_data(DRIVER, budget, &[rsr, rdr], log);
        check(run, log, &format!("R 70 {rsr:X}, R 74 {rdr:X}"), ending);
        assert_eq!(given, word);
    }
}

#[test]
fn watermarks() {
    let log = &mut [FOUND; 80];
    for (direction, level) in [(Direction::Rx, 5), (Direction::Tx, 10)] {
        let (run, given) = watermark(DRIVER, direction, 20, &[0xFFF5_FFFA], log);
        check(run, log, "R 58 FFF5FFFA", "0 1 1 1EB2C3");
        assert_eq!(given, level);
    }

    let (run, level) = set_watermark(DRIVER, Direction::Tx, 3, 20, &[0x504, u32::MAX], log);
    let listed = "R 04 504, R 58 FFFFFFFF, W 58 FFFFFFF3";
    check(run, log, listed, "0 3 2 1EB2C3");
    assert_eq!(level, 3);

    let (run, level) = set_watermark(DRIVER, Direction::Rx, 200, 20, &[0x405, 0x1230_5678], log);
    let listed = "R 04 405, R 58 12305678, W 58 123F5678";
    check(run, log, listed, "0 3 2 1EB2C3");
    assert_eq!(level, 15);
}

/// Whatever stood there before, and also with a number other than 0.
#[test]
fn a_value_is_always_written() {
    for (kind, budget, number, expected) in [
        (Get::Status, 20, 0, 0x0100_3F03),
        (Get::Status, 0, 4, 0),
        (Get::Status, 41, 5, 0),
        (Get::SetWatermark, 20, 7, 0),
        (Get::FifoStatus, 20, 7, 0),
        (Get::ReadData, 20, 0, 0),
    ] {
        let limits = Limits {
            budget,
            log_len: 80,
            script: vec![u32::MAX; 2],
        };
        let left = Function::Get(kind).port([0; 2], DRIVER.number(), &limits);
        assert_eq!((left.number, left.value), (number, expected), "{kind:?}");
        assert!(left.accesses < 3 && left.answers < 3, "{kind:?}");
        assert_eq!(left.driver, DRIVER.number(), "{kind:?}");
    }
}

#[test]
fn other_values() {
    let log = &mut [FOUND; 80];
    let (run, flags) = status(DRIVER, 20, &[u32::MAX], log);
    check(run, log, "R 14 FFFFFFFF", "0 1 1 1EB2C3");
    assert_eq!((flags, flags.bits()), (Status::all(), 0x0100_3F03));

    for (cr, enabled) in [(1, true), (0xFFFF_FFFE, false)] {
        let (run, given) = is_enabled(DRIVER, 20, &[cr], log);
        check(run, log, &format!("R 10 {cr:X}"), "0 1 1 1EB2C3");
        assert_eq!(given, enabled);
    }

    let (run, fifos) = fifo_status(DRIVER, 20, &[0xFFFF_0302, 0xFFE4_FFE1], log);
    check(run, log, "R 04 FFFF0302, R 5C FFE4FFE1", "0 2 2 1EB2C3");
    let expected = FifoStatus {
        rxcount: 4,
        txcount: 1,
        rxcap: 8,
        txcap: 4,
    };
    assert_eq!(fifos, expected);
    for (param, budget) in [(0xFFFF_0305, 20), (0xFFFF_0502, 20), (0xFF04, 1)] {
        let (run, fifos) = fifo_status(DRIVER, budget, &[param, 0], log);
        check(run, log, &format!("R 04 {param:X}"), "7 1 1 1EB2C3");
        assert_eq!(fifos, FifoStatus::default());
    }
    let (run, fifos) = fifo_status(DRIVER, 1, &[0x404, 0], log);
    check(run, log, "R 04 404", "4 1 1 1EB2C3");
    assert_eq!(fifos, FifoStatus::default());
}

#[test]
fn calls_without_a_value() {
    let log = &mut [FOUND; 80];
    let run = clear_status(DRIVER, Status::from_bits_retain(u32::MAX), 20, &[], log);
    check(run, log, "W 14 3F00", "0 1 0 1EB2C3");
    let errors = Status::TRANSMIT_ERROR | Status::RECEIVE_ERROR;
    let run = clear_status(DRIVER, errors, 20, &[], log);
    check(run, log, "W 14 1800", "0 1 0 1EB2C3");
    let run = set_enable(DRIVER, true, 20, &[0xFFFF_FFFE], log);
    check(run, log, "R 10 FFFFFFFE, W 10 FFFFFFFF", "0 2 1 1EB2C3");
    let run = set_enable(DRIVER, false, 20, &[0x0B], log);
    check(run, log, "R 10 B, W 10 A", "0 2 1 1EB2C3");
    let run = clear_fifo(DRIVER, Direction::Tx, 20, &[0xFFFF_FCFE], log);
    check(run, log, "R 10 FFFFFCFE, W 10 FFFFFDFE", "0 2 1 1EB2C3");
    let run = clear_fifo(DRIVER, Direction::Rx, 20, &[0xFFFF_FCFE], log);
    check(run, log, "R 10 FFFFFCFE, W 10 FFFFFEFE", "0 2 1 1EB2C3");
    let run = enqueue_data(DRIVER, 0x89AB_CDEF, 20, &[], log);
    check(run, log, "W 64 89ABCDEF", "0 1 0 1EB2C3");
}

#[test]
fn commands_by_frame_size() {
    let log = &mut [FOUND; 80];
    let run = enqueue_transaction(DRIVER, 40, 20, &[], log);
    check(run, log, "W 60 C2800027", "0 1 0 1EB2C3");
    let run = enqueue_transaction(DRIVER, 40, 0, &[], log);
    check(run, log, "", "4 0 0 1EB2C3");
    let run = enqueue_transaction(DRIVER, 40, 41, &[], log);
    check(run, log, "", "5 0 0 1EB2C3");
    // The limits come first.
    for (frame_size, budget, ending) in [
        (0, 20, "1 0 0 1EB2C3"),
        (7, 20, "1 0 0 1EB2C3"),
        (33, 0, "1 0 0 1EB2C3"),
        (65_544, 40, "1 0 0 1EB2C3"),
        (0, 8_001, "5 0 0 1EB2C3"),
        (4_097, 41, "5 0 0 1EB2C3"),
    ] {
        let run = enqueue_transaction(DRIVER, frame_size, budget, &[], log);
        check(run, log, "", ending);
    }
}

/// The sending side finds no space at first, so that a word is received over the
/// first before that is sent.
#[test]
fn in_place_a_received_word_is_sent() {
    let log = &mut [FOUND; 80];
    let (ready, no_space, no_word) = ([0, 0x404, 0x1_0000], [0, 0x404, 16], [0, 0x404, 0]);
    let script = [
        &[ready, no_space, ready].concat()[..],
        &[0x55],
        &[no_word, ready, ready, ready].concat(),
        &[0x66],
    ]
    .concat();
    let listed = "R 14 0, R 04 404, R 5C 10000, W 60 C280003F, \
                  R 14 0, R 04 404, R 5C 10, \
                  R 14 0, R 04 404, R 5C 10000, R 74 55, \
                  R 14 0, R 04 404, R 5C 0, \
                  R 14 0, R 04 404, R 5C 10000, W 64 55, \
                  R 14 0, R 04 404, R 5C 10000, W 64 22, \
                  R 14 0, R 04 404, R 5C 10000, R 74 66";
    let mut data = [0x11u32, 0x22];
    let run = exchange(DRIVER, &mut data, 40, &script, log);
    check(run, log, listed, "0 26 23 1EB2C3");
    assert_eq!(data, [0x55, 0x66]);
}

#[test]
fn one_way_transfers() {
    let log = &mut [FOUND; 80];
    let script = [0, 0x404, 0x1_0000, 0, 0x404, 0x1_0000, 0x3344_1122];
    let run = write_no_read(DRIVER, &[0x1122u16, 0x3344], 40, &script, log);
    let listed = "R 14 0, R 04 404, R 5C 10000, W 60 C288001F, \
                  R 14 0, R 04 404, R 5C 10000, W 64 33441122";
    check(run, log, listed, "0 8 6 1EB2C3");

    let mut data = [0u16; 2];
    let run = read_no_write(DRIVER, &mut data, 40, &script, log);
    let listed = "R 14 0, R 04 404, R 5C 10000, W 60 C284001F, \
                  R 14 0, R 04 404, R 5C 10000, R 74 33441122";
    check(run, log, listed, "0 8 7 1EB2C3");
    assert_eq!(data, [0x1122, 0x3344]);
}
