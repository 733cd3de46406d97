//! Scripts of signs. Blanks do not count.

use crate::common::registers::{
    BUSY, ERRORS, MEN, RX_ERROR, RXCOUNT, RXFIFO, TX_ERROR, TXCOUNT, TXFIFO, param,
};

/// The word of a place: words that look like any.
pub fn any_word(place: usize) -> u32 {
    (place as u32 + 1).wrapping_mul(0x9E37_79B9)
}

/// What PARAM answers, as far as exponents up to 4 go.
#[derive(Debug, Clone, Copy)]
pub enum Sizes {
    /// Another answer at each place: all depths are had.
    Any,
    /// One answer, as a peripheral has it: 16 words.
    Same,
}

impl Sizes {
    pub const ALL: [Self; 2] = [Self::Any, Self::Same];
}

/// Answers. Bits that do not count are any.
struct Script {
    answers: Vec<u32>,
    sizes: Sizes,
}

impl Script {
    /// An answer with `value` in the bits of `mask`.
    fn answer(&mut self, mask: u32, value: u32) {
        let place = self.answers.len();
        self.answers.push(any_word(place) & !mask | value);
    }

    /// PARAM with those exponents.
    fn sizes(&mut self, exponents: [u32; 2]) {
        self.answer(TXFIFO | RXFIFO, param(exponents));
    }

    /// PARAM with exponents up to 4. Returns the transmit FIFO's depth.
    fn small_sizes(&mut self) -> u32 {
        match self.sizes {
            Sizes::Any => {
                let place = self.answers.len() as u32;
                let (tx, rx) = (place / 3 % 5, place % 5);
                self.sizes([tx, rx]);
                1 << tx
            }
            Sizes::Same => {
                self.answers.push(0xABCD_0404);
                16
            }
        }
    }

    /// SR with these errors, PARAM, and FSR: a transmit FIFO with one place left, or
    /// none.
    fn transmit_poll(&mut self, errors: u32, left: u32) {
        self.answer(ERRORS, errors);
        let depth = self.small_sizes();
        self.answer(TXCOUNT, depth - left);
    }

    /// SR with these errors, PARAM, and FSR.
    fn receive_poll(&mut self, errors: u32, rxcount: u32) {
        self.answer(ERRORS, errors);
        self.small_sizes();
        self.answer(RXCOUNT, rxcount << 16);
    }

    /// A recovery whose wait reads MEN 1 so often. It finds the peripheral enabled if
    /// it waits at all.
    fn recovery(&mut self, waits: u32) {
        (0..8).for_each(|_| self.answer(0, 0));
        self.answer(MEN, u32::from(waits > 0));
        self.answer(0, 0);
        (0..waits).for_each(|_| self.answer(MEN, 1));
        self.answer(MEN, 0);
        (0..3).for_each(|_| self.answer(0, 0));
    }
}

/// A read of SR with those errors, and not busy, and one of PARAM with those exponents, behind a script.
pub fn and_sizes(script: &[u32], errors: u32, exponents: [u32; 2]) -> Vec<u32> {
    let mut script = Script {
        answers: script.to_vec(),
        sizes: Sizes::Any,
    };
    script.answer(ERRORS | BUSY, errors);
    script.sizes(exponents);
    script.answers
}

/// Two transmit polls of a FIFO of that exponent: full, and with one place left.
pub fn depth_polls(exponent: u32) -> Vec<u32> {
    let polls = [0, 1].map(|left| [0, param([exponent, 4 - exponent]), (1 << exponent) - left]);
    polls.concat()
}

/// The script of a transfer:
///
/// - `s`, `f`: a poll that finds space in the transmit FIFO, or that it is full;
/// - `w`, `e`: a poll that finds a word in the receive FIFO, or that it is empty;
/// - `S`, `W`: as `s` and `w`, with the error of the other direction;
/// - `t`, `r`, `b`: a transmit error, a receive error, both;
/// - `0`, `1`, `3`: a recovery whose wait reads MEN 1 so often.
pub fn transfer_script(signs: &str, sizes: Sizes) -> Vec<u32> {
    let mut script = Script {
        answers: vec![],
        sizes,
    };
    for sign in signs.chars() {
        match sign {
            's' => script.transmit_poll(0, 1),
            'S' => script.transmit_poll(RX_ERROR, 1),
            'f' => script.transmit_poll(0, 0),
            'w' | 'W' => {
                script.receive_poll(if sign == 'W' { TX_ERROR } else { 0 }, 1);
                script.answer(0, 0);
            }
            'e' => script.receive_poll(0, 0),
            't' => script.answer(ERRORS, TX_ERROR),
            'r' => script.answer(ERRORS, RX_ERROR),
            'b' => script.answer(ERRORS, ERRORS),
            '0' | '1' | '3' => script.recovery(sign as u32 - '0' as u32),
            _ => assert_eq!(sign, ' '),
        }
    }
    script.answers
}

/// The script of a flush:
///
/// - `b`: busy;
/// - `f`, `d`: not busy, with a word in the transmit FIFO, or with none;
/// - `t`, `r`, `x`: a transmit error, a receive error, both.
pub fn flush_script(signs: &str, sizes: Sizes) -> Vec<u32> {
    let mut script = Script {
        answers: vec![],
        sizes,
    };
    for sign in signs.chars() {
        match sign {
            'b' => script.answer(ERRORS | BUSY, BUSY),
            'f' | 'd' => {
                script.answer(ERRORS | BUSY, 0);
                script.small_sizes();
                script.answer(TXCOUNT, u32::from(sign == 'f'));
            }
            't' => script.answer(ERRORS, TX_ERROR),
            'r' => script.answer(ERRORS, RX_ERROR),
            _ => {
                assert_eq!(sign, 'x');
                script.answer(ERRORS, ERRORS);
            }
        }
    }
    script.answers
}
