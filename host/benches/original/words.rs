//! Packing, clocks and commands. Each side is one call that is not inlined.

use crate::timing::{Effort, Times, wanted};
use lpspi_host::{BitOrder, raw};
use std::hint::black_box;

const BYTES: usize = 512;
const WORDS: usize = BYTES / 4;
const BUFFERS: Effort = Effort {
    rounds: 400,
    calls: 1_000,
};
const SINGLE_WORDS: Effort = Effort {
    rounds: 400,
    calls: 50_000,
};

pub fn time() {
    println!(
        "Packing, clocks and commands: ns per call, best of {} rounds.",
        BUFFERS.rounds
    );
    println!(
        "{:<40} {:>10} {:>10} {:>7}",
        "", "original", "port", "ratio"
    );
    for order in BitOrder::ALL {
        pack(order);
    }
    for order in BitOrder::ALL {
        unpack(order);
    }
    clock();
    command();
}

fn job(name: &str, effort: Effort, original: impl FnMut(), port: impl FnMut()) {
    if !wanted(name) {
        return;
    }
    let times = Times::best(effort, original, port);
    println!(
        "{name:<40} {:>10.2} {:>10.2} {:>7.2}",
        times.original,
        times.port,
        times.ratio()
    );
}

fn pack(order: BitOrder) {
    let bytes: Vec<u8> = (0..BYTES).map(|i| (i * 37 + 11) as u8).collect();
    let (mut left, mut right) = ([0; WORDS], [0; WORDS]);
    job(
        &format!("pack {BYTES} bytes, {order:?}"),
        BUFFERS,
        || {
            original::pack_words(
                black_box(order.is_lsb()),
                black_box(&bytes),
                black_box(BYTES),
                black_box(&mut left),
            )
        },
        || {
            raw::pack_words_u8(
                black_box(order.is_lsb()),
                black_box(&bytes),
                black_box(BYTES),
                black_box(&mut right),
            )
        },
    );
    assert_eq!(left, right, "both sides pack the same");
}

fn unpack(order: BitOrder) {
    let words: Vec<u32> = (0..WORDS as u32)
        .map(|i| i.wrapping_mul(0x9E37_79B9))
        .collect();
    let (mut left, mut right) = ([0; BYTES], [0; BYTES]);
    job(
        &format!("unpack {WORDS} words, {order:?}"),
        BUFFERS,
        || {
            original::unpack_words(
                black_box(order.is_lsb()),
                black_box(&words),
                black_box(BYTES),
                black_box(&mut left),
            )
        },
        || {
            raw::unpack_words_u8(
                black_box(order.is_lsb()),
                black_box(&words),
                black_box(BYTES),
                black_box(&mut right),
            )
        },
    );
    assert_eq!(left, right, "both sides unpack the same");
}

fn clock() {
    let (source, wanted) = (60_000_000, 4_000_000);
    let (mut left, mut right) = (0, 0);
    job(
        "clock word",
        SINGLE_WORDS,
        || left = black_box(original::clock_word(black_box(source), black_box(wanted))),
        || {
            raw::clock(black_box(source), black_box(wanted), black_box(&mut right));
        },
    );
    assert_eq!(left, right, "both sides give the same clock word");
}

fn command() {
    let settings = original::Command {
        frame_size: 40,
        byte_swap: true,
        lsb: true,
        receive_mask: true,
        transmit_mask: false,
        continuous: true,
        continuing: false,
        mode: 3,
        pcs: 2,
    };
    let (mut left, mut right) = (Ok(0), 0);
    job(
        "command word, new and 8 setters",
        SINGLE_WORDS,
        || left = black_box(original::command_word(black_box(&settings))),
        || {
            let settings = black_box(&settings);
            raw::command(
                settings.frame_size.into(),
                settings.byte_swap,
                settings.lsb,
                settings.receive_mask,
                settings.transmit_mask,
                settings.continuous,
                settings.continuing,
                settings.mode.into(),
                settings.pcs.into(),
                black_box(&mut right),
            );
        },
    );
    assert_eq!(left, Ok(right), "both sides give the same command word");
}
