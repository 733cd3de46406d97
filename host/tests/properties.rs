//! Properties of the proved functions, without the reference.

mod common;

use common::{Random, lengths};
use lpspi_host::BitOrder::{Lsb, Msb};
use lpspi_host::{BitOrder, ClockConfigs, pack_u8, pack_words_u8, unpack_u8, unpack_words_u8};

/// The word with the places above its `count` elements zero.
fn low_elements(word: u32, count: usize) -> u32 {
    (u64::from(word) & ((1 << (8 * count)) - 1)) as u32
}

#[test]
fn one_word_there_and_back() {
    let mut random = Random::new("one_word_there_and_back");
    for order in BitOrder::ALL {
        for count in 1..=4 {
            for _ in 0..2_000 {
                let bytes = random.bytes(count);
                // Every byte is changed beforehand, so each must be written.
                let mut back: Vec<u8> = bytes.iter().map(|byte| !byte).collect();
                let word = pack_u8(order, &bytes).unwrap();
                unpack_u8(order, word, count, &mut back).unwrap();
                assert_eq!(back, bytes, "{order:?} {word:08X}");

                let word = random.word();
                unpack_u8(order, word, count, &mut back).unwrap();
                let again = pack_u8(order, &back);
                assert_eq!(again, Ok(low_elements(word, count)), "{order:?} {word:08X}");
                random.cases.count();
            }
        }
    }
}

#[test]
fn buffers_there_and_back() {
    let mut random = Random::new("buffers_there_and_back");
    for order in BitOrder::ALL {
        for len in lengths() {
            for dummies in 0..=9 {
                let total = len + dummies;
                let bytes = random.bytes(len);
                let mut words = random.words(total.div_ceil(4));
                pack_words_u8(order, &bytes, total, &mut words);
                let mut back = vec![0; total];
                unpack_words_u8(order, &words, total, &mut back);
                assert_eq!(back[..len], bytes, "{order:?} total {total}");
                assert_eq!(back[len..], vec![0xFF; dummies], "{order:?} total {total}");
                random.cases.count();
            }
        }
    }
}

#[test]
fn words_there_and_back() {
    let mut random = Random::new("words_there_and_back");
    for order in BitOrder::ALL {
        for total in lengths() {
            for _ in 0..20 {
                let mut words = random.words(total.div_ceil(4));
                let mut bytes = random.bytes(total);
                unpack_words_u8(order, &words, total, &mut bytes);
                let mut back: Vec<u32> = words.iter().map(|word| !word).collect();
                pack_words_u8(order, &bytes, total, &mut back);
                if let (Some(last), 1..) = (words.last_mut(), total % 4) {
                    *last = low_elements(*last, total % 4);
                }
                assert_eq!(back, words, "{order:?} total {total}");
                random.cases.count();
            }
        }
    }
}

#[test]
fn buffer_words_are_single_words() {
    let mut random = Random::new("buffer_words_are_single_words");
    for order in BitOrder::ALL {
        for len in lengths() {
            let bytes = random.bytes(len);
            let mut words = random.words(len.div_ceil(4));
            pack_words_u8(order, &bytes, len, &mut words);
            for (word, chunk) in words.iter().zip(bytes.chunks(4)) {
                assert_eq!(pack_u8(order, chunk), Ok(*word), "{order:?} {chunk:02X?}");
                random.cases.count();
            }
        }
    }
}

#[test]
fn orders_mirror_each_other() {
    let mut random = Random::new("orders_mirror_each_other");
    for count in 0..=4 {
        for _ in 0..500 {
            let bytes = random.bytes(count);
            let reversed: Vec<u8> = bytes.iter().rev().copied().collect();
            assert_eq!(
                pack_u8(Msb, &bytes),
                pack_u8(Lsb, &reversed),
                "{bytes:02X?}"
            );
            random.cases.count();
        }
    }
}

/// SCK is at most the wanted clock exactly when source <= 256 * clock.
#[test]
fn clock_bound() {
    let mut random = Random::new("clock_bound");
    let (mut within, mut over) = (0, 0);
    for _ in 0..200_000 {
        let (source, wanted) = (random.any_size().max(1), random.any_size().max(1));
        let word = ClockConfigs::from_hz(source, wanted).unwrap().as_raw();
        let divider = u64::from(word & 0xFF) + 2;
        // SCK = source / divider, compared without rounding.
        let bounded = u64::from(source) <= u64::from(wanted) * divider;
        let reachable = u64::from(source) <= 256 * u64::from(wanted);
        assert_eq!(bounded, reachable, "source {source}, clock {wanted}");
        *(if bounded { &mut within } else { &mut over }) += 1;
        random.cases.count();
    }
    assert!(within > 0 && over > 0, "both sides of the bound must occur");
}
