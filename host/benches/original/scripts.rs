//! Answers of the registers.

// SR, PARAM and FSR of a poll: ready on either side, no space, no word.
const READY: [u32; 3] = [0, 0x404, 0x1_0000];
const NO_SPACE: [u32; 3] = [0, 0x404, 0x1_0010];
const NO_WORD: [u32; 3] = [0, 0x404, 0];
// Bits of SR and of CR.
const RECEIVE_ERROR: u32 = 1 << 12;
const BUSY: u32 = 1 << 24;
const MEN: u32 = 1;

fn received(word: usize) -> u32 {
    (word as u32).wrapping_mul(0x9E37_79B9)
}

/// An exchange of so many words that goes by bursts: the sending side sends a burst
/// and finds no space, the receiving side receives it and finds no word.
pub fn exchange(words: usize, burst: usize) -> Vec<u32> {
    let mut script = READY.to_vec();
    for first in (0..words).step_by(burst) {
        let after = words.min(first + burst);
        script.extend(READY.repeat(after - first));
        if after < words {
            script.extend(NO_SPACE);
        }
        for word in first..after {
            script.extend(READY);
            script.push(received(word));
        }
        if after < words {
            script.extend(NO_WORD);
        }
    }
    script
}

/// An exchange that goes a word at a time, with so many unready polls of each side
/// that it comes as near to that many accesses as it can.
pub fn waiting(words: usize, accesses: usize) -> Vec<u32> {
    let waits = (accesses - 4 - 8 * words) / 6;
    // The others stand between words.
    let first = waits + 1 - words;
    let mut script = READY.to_vec();
    for word in 0..words {
        let before = first * (word + 1) / words - first * word / words;
        script.extend([NO_SPACE, NO_WORD].concat().repeat(before));
        script.extend(READY);
        if word + 1 < words {
            script.extend(NO_SPACE);
        }
        script.extend(READY);
        script.push(received(word));
        if word + 1 < words {
            script.extend(NO_WORD);
        }
    }
    script
}

/// A transfer that only sends, all polls ready.
pub fn write(words: usize) -> Vec<u32> {
    READY.repeat(1 + words)
}

/// A transfer that only receives, all polls ready.
pub fn read(words: usize) -> Vec<u32> {
    let mut script = READY.to_vec();
    for word in 0..words {
        script.extend(READY);
        script.push(received(word));
    }
    script
}

/// An exchange of one word with a receive error, then a recovery that finds the
/// peripheral still enabled so many times.
pub fn recovery(waits: usize) -> Vec<u32> {
    let mut script = READY.repeat(2);
    script.push(RECEIVE_ERROR);
    // IER, DER, CFGR0, CFGR1, DMR0, DMR1, CCR, FCR, MEN and the reset.
    script.extend([0, 0, 0, 3, 0, 0, 0x0707_070E, 2, MEN, MEN]);
    script.extend(vec![MEN; waits]);
    // Disabled, the reset's end, the FIFOs' reset, MEN.
    script.extend([0; 4]);
    script
}

/// The reads of `recovery` up to the one that finds the peripheral disabled.
pub const READS_TO_WAIT: usize = 17;

/// A flush of a busy peripheral.
pub fn busy(reads: usize) -> Vec<u32> {
    vec![BUSY; reads]
}

/// A flush that finds words in the FIFO so many times, though not busy.
pub fn filled(polls: usize) -> Vec<u32> {
    NO_SPACE.repeat(polls)
}

/// Nothing is left to be sent.
pub const FLUSHED: [u32; 3] = NO_WORD;
