//! The scope document's examples, limits and refusals.

mod common;

use common::command::Command;
use lpspi_host::BitOrder::{Lsb, Msb};
use lpspi_host::*;

/// A value that no call below gives.
const FOUND: u32 = 0xDEAD_BEEF;

fn sized(frame_size: u32) -> Command {
    Command {
        frame_size,
        ..Command::default()
    }
}

/// The word of a transaction, which must be the one that the C function gives.
fn command(command: &Command) -> Result<u32, Error> {
    let mut word = FOUND;
    let number = command.raw(&mut word);
    let transaction = command.transaction();
    let given = transaction.map_or_else(|error| (error.number(), FOUND), |word| (0, word));
    assert_eq!((number, word), given, "{command:?}");
    transaction
}

/// The word of a clock.
fn clock(source: u32, wanted: u32) -> Result<u32, Error> {
    ClockConfigs::from_hz(source, wanted).map(ClockConfigs::as_raw)
}

#[test]
fn error_numbers() {
    for (error, number) in [
        (LpspiError::FrameSize, 1),
        (LpspiError::Fifo(Direction::Rx), 2),
        (LpspiError::Fifo(Direction::Tx), 3),
    ] {
        assert_eq!([error.number(), Error::from(error).number()], [number; 2]);
    }
    assert_eq!(Error::Stopped.number(), 4);
    assert_eq!(Error::Limits.number(), 5);
    assert_eq!(Error::ZeroClock.number(), 6);
    assert_eq!(Error::FifoExponent.number(), 7);
    assert_eq!(Error::TooManyElements.number(), 8);
    assert_eq!(Error::Unpaired.number(), 9);
}

#[test]
fn word_examples() {
    let five = [0x11, 0x22, 0x33, 0x44, 0x55];
    let mut words = [FOUND; 3];
    pack_words_u8(Msb, &five, 5, &mut words);
    assert_eq!(words, [0x1122_3344, 0x0000_0055, FOUND]);

    let mut words = [FOUND; 3];
    pack_words_u8(Lsb, &five, 5, &mut words);
    assert_eq!(words, [0x4433_2211, 0x0000_0055, FOUND]);

    assert_eq!(pack_u8(Msb, &five[..3]), Ok(0x0011_2233));
    assert_eq!(pack_u8(Lsb, &five[..3]), Ok(0x0033_2211));
    assert_eq!(pack_u8(Msb, &five[..4]), Ok(0x1122_3344));
    assert_eq!(pack_u8(Lsb, &five[..4]), Ok(0x4433_2211));
}

#[test]
fn no_bytes_give_zero() {
    for order in BitOrder::ALL {
        let mut word = FOUND;
        assert_eq!(raw::pack_u8(order.is_lsb(), &[], &mut word), 0);
        assert_eq!(word, 0);
    }
}

#[test]
fn word_examples_unpacked() {
    let mut bytes = [0xEE; 6];
    unpack_words_u8(Msb, &[0x1122_3344, 0xAABB_CC55], 5, &mut bytes);
    assert_eq!(bytes, [0x11, 0x22, 0x33, 0x44, 0x55, 0xEE]);

    let mut bytes = [0xEE; 6];
    unpack_words_u8(Lsb, &[0x4433_2211, 0xAABB_CC55], 5, &mut bytes);
    assert_eq!(bytes, [0x11, 0x22, 0x33, 0x44, 0x55, 0xEE]);

    let mut bytes = [0xEE; 4];
    assert_eq!(unpack_u8(Msb, 0xAA11_2233, 3, &mut bytes), Ok(()));
    assert_eq!(bytes, [0x11, 0x22, 0x33, 0xEE]);

    let mut bytes = [0xEE; 4];
    assert_eq!(unpack_u8(Lsb, 0xAA33_2211, 3, &mut bytes), Ok(()));
    assert_eq!(bytes, [0x11, 0x22, 0x33, 0xEE]);
}

/// A one-byte read of a four-byte word takes the first element.
#[test]
fn short_buffer_takes_the_first_elements() {
    let mut one = [0xEE];
    assert_eq!(unpack_u8(Msb, 0x1122_3344, 4, &mut one), Ok(()));
    assert_eq!(one, [0x11]);
    assert_eq!(unpack_u8(Lsb, 0x1122_3344, 4, &mut one), Ok(()));
    assert_eq!(one, [0x44]);

    unpack_words_u8(Msb, &[0x1122_3344], 4, &mut one);
    assert_eq!(one, [0x11]);
    unpack_words_u8(Msb, &[0x1122_3344], 2, &mut one);
    assert_eq!(one, [0x33]);
}

#[test]
fn missing_bytes_are_dummies() {
    let mut words = [FOUND; 3];
    pack_words_u8(Msb, &[0x11], 6, &mut words);
    assert_eq!(words, [0x11FF_FFFF, 0x0000_FFFF, FOUND]);

    let mut words = [FOUND; 3];
    pack_words_u8(Lsb, &[0x11], 6, &mut words);
    assert_eq!(words, [0xFFFF_FF11, 0x0000_FFFF, FOUND]);
}

#[test]
fn bytes_past_the_total_are_not_sent() {
    let mut words = [FOUND; 2];
    pack_words_u8(Msb, &[0x11, 0x22, 0x33, 0x44, 0x55], 2, &mut words);
    assert_eq!(words, [0x0000_1122, FOUND]);

    pack_words_u8(Msb, &[0x11], 0, &mut words);
    assert_eq!(words, [0x0000_1122, FOUND]);
}

#[test]
fn more_than_four_bytes_are_refused() {
    for order in BitOrder::ALL {
        for len in [5, 6, 8, 100] {
            let mut word = FOUND;
            let bytes = vec![0x5A; len];
            assert_eq!(raw::pack_u8(order.is_lsb(), &bytes, &mut word), 8);
            assert_eq!(word, FOUND);
            assert_eq!(pack_u8(order, &bytes), Err(Error::TooManyElements));
        }
    }
}

#[test]
fn unpacking_more_than_four_is_refused() {
    for order in BitOrder::ALL {
        for count in [5, 6, 8, 256, 1 << 32, usize::MAX] {
            let mut bytes = [1, 2, 3, 4, 5, 6];
            assert_eq!(
                unpack_u8(order, FOUND, count, &mut bytes),
                Err(Error::TooManyElements)
            );
            assert_eq!(bytes, [1, 2, 3, 4, 5, 6]);
            let number = raw::unpack_u8(order.is_lsb(), FOUND, count, &mut bytes);
            assert_eq!(number, 8);
            assert_eq!(bytes, [1, 2, 3, 4, 5, 6]);
        }
    }
}

#[test]
fn command_examples() {
    for frame_size in [7, 33, 4065, 4097] {
        let refused = Err(LpspiError::FrameSize.into());
        assert_eq!(command(&sized(frame_size)), refused);
    }
    assert_eq!(command(&sized(8)), Ok(0x007));
    assert_eq!(command(&sized(4096)), Ok(0xFFF));
    let example = Command {
        bit_order: Lsb,
        mode: 3,
        pcs: 2,
        ..sized(40)
    };
    assert_eq!(command(&example), Ok(0xC280_0027));
}

#[test]
fn frame_size_limits() {
    for accepted in [8, 9, 31, 32, 34, 64, 66, 4064, 4066, 4095, 4096] {
        assert_eq!(command(&sized(accepted)), Ok(accepted - 1));
    }
    // 4104 is 8 in its low 12 bits.
    for refused in [0, 1, 7, 33, 65, 4033, 4065, 4097, 4098, 4104, 65535] {
        let mut word = FOUND;
        assert_eq!(sized(refused).raw(&mut word), 1);
        assert_eq!(word, FOUND);
    }
}

#[test]
fn each_setting_has_its_own_field() {
    let base = sized(8);
    #[rustfmt::skip]
    let cases = [
        (Command { mode: 2, ..base }, 1 << 31),
        (Command { mode: 1, ..base }, 1 << 30),
        (Command { pcs: 2, ..base }, 1 << 25),
        (Command { pcs: 1, ..base }, 1 << 24),
        (Command { bit_order: Lsb, ..base }, 1 << 23),
        (Command { byte_swap: true, ..base }, 1 << 22),
        (Command { continuous: true, ..base }, 1 << 21),
        (Command { continuing: true, ..base }, 1 << 20),
        (Command { receive_mask: true, ..base }, 1 << 19),
        (Command { transmit_mask: true, ..base }, 1 << 18),
        (Command { mode: 4, ..base }, 0),
        (Command { pcs: 4, ..base }, 0),
    ];
    for (case, bit) in cases {
        assert_eq!(command(&case), Ok(bit | 7), "{case:?}");
    }
}

#[test]
fn refused_frame_size_with_all_settings_keeps_the_word() {
    let all = Command {
        frame_size: 33,
        byte_swap: true,
        bit_order: Lsb,
        receive_mask: true,
        transmit_mask: true,
        continuous: true,
        continuing: true,
        mode: u32::MAX,
        pcs: u32::MAX,
    };
    let mut word = FOUND;
    assert_eq!(all.raw(&mut word), 1);
    assert_eq!(word, FOUND);
    let accepted = Command {
        frame_size: 32,
        ..all
    };
    assert_eq!(command(&accepted), Ok(0xC3FC_001F));
}

#[test]
fn clock_examples() {
    assert_eq!(clock(60_000_000, 4_000_000), Ok(0x0707_070E));
    assert_eq!(clock(60_000_000, 100_000), Ok(0x7F7F_7FFE));
}

#[test]
fn clock_limits() {
    // h is at least 3 and at most 128.
    assert_eq!(clock(1, u32::MAX), Ok(0x0202_0204));
    assert_eq!(clock(u32::MAX, 1), Ok(0x7F7F_7FFE));
    // h goes from 3 to 4 past a source of 6 times the clock.
    assert_eq!(clock(6_000, 1_000), Ok(0x0202_0204));
    assert_eq!(clock(6_001, 1_000), Ok(0x0303_0306));
    // h goes from 127 to 128 past a source of 254 times the clock.
    assert_eq!(clock(254_000, 1_000), Ok(0x7E7E_7EFC));
    assert_eq!(clock(254_001, 1_000), Ok(0x7F7F_7FFE));
}

#[test]
fn zero_clocks_are_refused() {
    for (source, wanted) in [(0, 0), (0, 1), (1, 0), (0, u32::MAX), (u32::MAX, 0)] {
        let mut word = FOUND;
        assert_eq!(raw::clock(source, wanted, &mut word), 6);
        assert_eq!(word, FOUND);
        assert_eq!(clock(source, wanted), Err(Error::ZeroClock));
    }
}

/// The fields of the word, and each SPI mode and chip select by its number.
#[test]
fn fields_and_numbers() {
    let configs = ClockConfigs {
        sckpcs: 0x12,
        pcssck: 0x34,
        dbt: 0x56,
        sckdiv: 0x78,
    };
    assert_eq!(configs.as_raw(), 0x1234_5678);
    assert_eq!(ClockConfigs::from_raw(0x1234_5678), configs);

    let phases = [
        Phase::CaptureOnFirstTransition,
        Phase::CaptureOnSecondTransition,
    ];
    let modes = [MODE_0, MODE_1, MODE_2, MODE_3];
    let selects = [Pcs::Pcs0, Pcs::Pcs1, Pcs::Pcs2, Pcs::Pcs3];
    for (number, (mode, pcs)) in (0..).zip(modes.into_iter().zip(selects)) {
        assert_eq!([mode.number(), pcs.number()], [number; 2]);
        assert_eq!(mode.polarity == Polarity::IdleHigh, number >= 2);
        assert_eq!(mode.phase, phases[number as usize % 2]);
        for past in [number, number + 4, number + 0xFFFF_FFFC] {
            assert_eq!((Mode::of_number(past), Pcs::of_number(past)), (mode, pcs));
        }
    }
    assert_eq!((Mode::default(), Pcs::default()), (MODE_0, Pcs::Pcs0));
}

/// The flags are at their bits, and those without a name are dropped or kept.
#[test]
fn status_flags() {
    let flags = [
        (Status::BUSY, 24),
        (Status::DATA_MATCH, 13),
        (Status::RECEIVE_ERROR, 12),
        (Status::TRANSMIT_ERROR, 11),
        (Status::TRANSFER_COMPLETE, 10),
        (Status::FRAME_COMPLETE, 9),
        (Status::WORD_COMPLETE, 8),
        (Status::RECEIVE_DATA, 1),
        (Status::TRANSMIT_DATA, 0),
    ];
    let mut all = Status::empty();
    for (flag, bit) in flags {
        assert_eq!(flag.bits(), 1 << bit);
        assert!(!all.intersects(flag));
        all = all | flag;
    }
    assert_eq!(all, Status::all());
    assert_eq!(Status::from_bits_truncate(u32::MAX), all);
    assert_eq!(Status::from_bits_retain(u32::MAX).bits(), u32::MAX);

    let errors = Status::TRANSMIT_ERROR | Status::RECEIVE_ERROR;
    let found = Status::BUSY | Status::RECEIVE_ERROR;
    assert!(found.intersects(errors) && !found.contains(errors));
    assert!(all.contains(errors) && found.contains(Status::BUSY));
    assert_eq!(found & errors, Status::RECEIVE_ERROR);
}
