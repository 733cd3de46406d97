//! Packing, clocks and commands against the original.

mod common;

use common::{Random, lengths};
use lpspi_host::{BitOrder, ClockConfigs, pack_words_u8, unpack_words_u8};

#[test]
#[cfg_attr(not(original), ignore = "the original is missing")]
fn buffers() {
    let mut random = Random::new("original: buffers");
    for order in BitOrder::ALL {
        for len in lengths() {
            for total in lengths() {
                let bytes = random.bytes(len);
                let mut left = random.words(total.div_ceil(4) + 1);
                let mut right = left.clone();
                pack_words_u8(order, &bytes, total, &mut left);
                original::pack_words(order.is_lsb(), &bytes, total, &mut right);
                assert_eq!(left, right, "{order:?} {len} of {total}");

                let words = random.words(total.div_ceil(4));
                let (mut left, mut right) = (bytes.clone(), bytes);
                unpack_words_u8(order, &words, total, &mut left);
                original::unpack_words(order.is_lsb(), &words, total, &mut right);
                assert_eq!(left, right, "{order:?} {len} of {total}");
                random.cases.count();
            }
        }
    }
}

#[test]
#[cfg_attr(not(original), ignore = "the original is missing")]
fn clocks() {
    let mut random = Random::new("original: clocks");
    for _ in 0..100_000 {
        let (source, wanted) = (random.any_size().max(1), random.any_size().max(1));
        let word = original::clock_word(source, wanted);
        let configs = ClockConfigs::from_hz(source, wanted);
        assert_eq!(
            configs.map(ClockConfigs::as_raw),
            Ok(word),
            "source {source}, clock {wanted}"
        );
        random.cases.count();
    }
}

#[test]
#[cfg_attr(not(original), ignore = "the original is missing")]
fn commands() {
    let mut random = Random::new("original: commands");
    for frame_size in 0..=u16::MAX {
        let settings = random.command(frame_size.into());
        let word = original::command_word(&original::Command {
            frame_size,
            byte_swap: settings.byte_swap,
            lsb: settings.bit_order.is_lsb(),
            receive_mask: settings.receive_mask,
            transmit_mask: settings.transmit_mask,
            continuous: settings.continuous,
            continuing: settings.continuing,
            mode: settings.mode as u8,
            pcs: settings.pcs as u8,
        });
        assert_eq!(settings.transaction().ok(), word.ok(), "{settings:?}");
        random.cases.count();
    }
}
