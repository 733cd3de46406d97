//! The proved functions against `common::reference`.

mod common;

use common::command::Command;
use common::{Random, lengths, reference};
use lpspi_host::{BitOrder, ClockConfigs, Error, raw};

/// The number and out-value that a call must give.
fn expected(answer: Result<u32, Error>, found: u32) -> (u32, u32) {
    match answer {
        Ok(word) => (0, word),
        Err(error) => (error.number(), found),
    }
}

/// Compares both forms of the call; true if the command was accepted.
fn check_command(random: &mut Random, command: &Command) -> bool {
    let answer = reference::command(command);
    let found = random.word();
    let mut word = found;
    let number = command.raw(&mut word);
    assert_eq!((number, word), expected(answer, found), "{command:?}");
    assert_eq!(command.transaction(), answer, "{command:?}");
    random.cases.count();
    answer.is_ok()
}

#[test]
fn commands_of_every_frame_size() {
    let mut random = Random::new("commands_of_every_frame_size");
    let mut accepted = 0;
    let past_u16 = [
        1 << 16,
        (1 << 16) + 8,
        (1 << 16) + 40,
        u32::MAX - 1,
        u32::MAX,
    ];
    for frame_size in (0..=u32::from(u16::MAX)).chain(past_u16) {
        let plain = Command {
            frame_size,
            ..Command::default()
        };
        accepted += u32::from(check_command(&mut random, &plain));
        for _ in 0..7 {
            let command = random.command(frame_size);
            check_command(&mut random, &command);
        }
    }
    // 8 to 4096, without 33, 65, .. 4065.
    assert_eq!(accepted, 4089 - 127);
}

#[test]
fn commands_of_every_setting() {
    let mut random = Random::new("commands_of_every_setting");
    for bits in 0..1 << 12_u32 {
        let bit = |place: u32| bits >> place & 1 == 1;
        let command = Command {
            frame_size: 40,
            byte_swap: bit(0),
            bit_order: BitOrder::ALL[usize::from(bit(1))],
            receive_mask: bit(2),
            transmit_mask: bit(3),
            continuous: bit(4),
            continuing: bit(5),
            mode: bits >> 6 & 7,
            pcs: bits >> 9 & 7,
        };
        assert!(check_command(&mut random, &command), "{command:?}");
    }
}

fn check_clock(random: &mut Random, source: u32, wanted: u32) {
    let answer = reference::clock(source, wanted);
    let found = random.word();
    let mut word = found;
    let number = raw::clock(source, wanted, &mut word);
    let case = format_args!("source {source}, clock {wanted}").to_string();
    assert_eq!((number, word), expected(answer, found), "{case}");
    let configs = ClockConfigs::from_hz(source, wanted);
    assert_eq!(configs.map(ClockConfigs::as_raw), answer, "{case}");
    random.cases.count();
}

#[test]
fn clocks_at_the_edges() {
    let mut random = Random::new("clocks_at_the_edges");
    let edges: Vec<u32> = (0..=10)
        .chain(250..=260)
        .chain(760..=770)
        .chain((1 << 24) - 2..=(1 << 24) + 2)
        .chain((1 << 31) - 2..=(1 << 31) + 2)
        .chain(u32::MAX - 3..=u32::MAX)
        .collect();
    for source in &edges {
        for wanted in &edges {
            check_clock(&mut random, *source, *wanted);
        }
    }
}

/// Sources around 2 * clock * h for every h; 256 * clock is h = 128.
#[test]
fn clocks_around_every_half_divider() {
    let mut random = Random::new("clocks_around_every_half_divider");
    let mut clocks = vec![1, 2, 3, 100_000, 4_000_000, 1 << 24, u32::MAX / 2, u32::MAX];
    clocks.extend((0..200).map(|_| random.any_size().max(1)));
    for wanted in clocks {
        for h in 1..=130 {
            let middle = 2 * i128::from(wanted) * h;
            for source in middle - 2..=middle + 2 {
                if let Ok(source) = u32::try_from(source) {
                    check_clock(&mut random, source, wanted);
                }
            }
        }
    }
}

#[test]
fn clocks_at_random() {
    let mut random = Random::new("clocks_at_random");
    for _ in 0..200_000 {
        let (source, wanted) = (random.any_size(), random.any_size());
        check_clock(&mut random, source, wanted);
    }
}

#[test]
fn pack_one_word() {
    let mut random = Random::new("pack_one_word");
    for order in BitOrder::ALL {
        for len in 0..=9 {
            for _ in 0..500 {
                let bytes = random.bytes(len);
                let found = random.word();
                let mut word = found;
                let number = raw::pack_u8(order.is_lsb(), &bytes, &mut word);
                let answer = reference::pack_u8(order, &bytes);
                let case = format!("{order:?} {bytes:02X?}");
                assert_eq!((number, word), expected(answer, found), "{case}");
                assert_eq!(lpspi_host::pack_u8(order, &bytes), answer, "{case}");
                random.cases.count();
            }
        }
    }
}

/// Places before and after the slice under test, which must be kept.
const MARGIN: usize = 8;

/// Runs both sides on the same random contents, in the middle of a longer
/// buffer, and compares the whole of it.
fn compare<T: Copy + PartialEq + std::fmt::Debug>(
    contents: &[T],
    case: &str,
    proved: impl FnOnce(&mut [T]),
    reference: impl FnOnce(&mut [T]),
) {
    let inside = MARGIN..contents.len() - MARGIN;
    let (mut left, mut right) = (contents.to_vec(), contents.to_vec());
    proved(&mut left[inside.clone()]);
    reference(&mut right[inside]);
    assert_eq!(left, right, "{case}");
}

#[test]
fn unpack_one_word() {
    let mut random = Random::new("unpack_one_word");
    for order in BitOrder::ALL {
        for count in (0..=9).chain([1 << 32, usize::MAX]) {
            for len in 0..=9 {
                for _ in 0..50 {
                    let word = random.word();
                    let contents = random.bytes(len + 2 * MARGIN);
                    let case = format!("{order:?} {word:08X} count {count} length {len}");
                    let (mut left, mut right) = (Ok(()), Ok(()));
                    compare(
                        &contents,
                        &case,
                        |bytes| left = lpspi_host::unpack_u8(order, word, count, bytes),
                        |bytes| right = reference::unpack_u8(order, word, count, bytes),
                    );
                    assert_eq!(left, right, "{case}");
                    random.cases.count();
                }
            }
        }
    }
}

fn check_pack_words(random: &mut Random, bytes: &[u8], total: usize, words_len: usize) {
    for order in BitOrder::ALL {
        let contents = random.words(words_len + 2 * MARGIN);
        let case = format!(
            "{order:?} {} bytes of {total} into {words_len} words",
            bytes.len()
        );
        compare(
            &contents,
            &case,
            |words| lpspi_host::pack_words_u8(order, bytes, total, words),
            |words| reference::pack_words_u8(order, bytes, total, words),
        );
        random.cases.count();
    }
}

fn check_unpack_words(random: &mut Random, words: &[u32], total: usize, len: usize) {
    for order in BitOrder::ALL {
        let contents = random.bytes(len + 2 * MARGIN);
        let case = format!(
            "{order:?} {} words of {total} bytes into {len}",
            words.len()
        );
        compare(
            &contents,
            &case,
            |bytes| lpspi_host::unpack_words_u8(order, words, total, bytes),
            |bytes| reference::unpack_words_u8(order, words, total, bytes),
        );
        random.cases.count();
    }
}

/// Word counts shorter than, equal to and longer than `total` bytes need.
fn word_lengths(total: usize) -> [usize; 6] {
    let need = total.div_ceil(4);
    let shorter = need.saturating_sub(1);
    [0, need / 2, shorter, need, need + 1, need + 5]
}

#[test]
fn pack_buffers() {
    let mut random = Random::new("pack_buffers");
    for len in lengths() {
        for total in lengths() {
            for words_len in word_lengths(total) {
                let bytes = random.bytes(len);
                check_pack_words(&mut random, &bytes, total, words_len);
            }
        }
    }
}

#[test]
fn unpack_buffers() {
    let mut random = Random::new("unpack_buffers");
    for len in lengths() {
        for total in lengths() {
            for words_len in word_lengths(total) {
                let words = random.words(words_len);
                check_unpack_words(&mut random, &words, total, len);
            }
        }
    }
}

/// Totals for which rounding up, or a product with 4, could overflow.
#[test]
fn largest_totals() {
    let mut random = Random::new("largest_totals");
    let totals = [
        1 << 32,
        (1 << 32) + 1,
        usize::MAX / 4,
        usize::MAX / 2,
        usize::MAX - 4,
        usize::MAX - 3,
        usize::MAX - 2,
        usize::MAX - 1,
        usize::MAX,
    ];
    for total in totals {
        for words_len in 0..=5 {
            for len in 0..=21 {
                let bytes = random.bytes(len);
                check_pack_words(&mut random, &bytes, total, words_len);
                let words = random.words(words_len);
                check_unpack_words(&mut random, &words, total, len);
            }
        }
    }
}
