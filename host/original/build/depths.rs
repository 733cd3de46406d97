//! The original with the FIFOs' true depths: document 02, No. 5.

/// The two capacities of `fifo_status`, and the depths that take their places. A shift
/// by 16 or more wraps: there is an answer for every exponent.
const CAPACITIES: [(&str, &str); 2] = [
    ("rxcap: rxcap as u16,", "rxcap: 1u16.wrapping_shl(rxcap),"),
    ("txcap: txcap as u16,", "txcap: 1u16.wrapping_shl(txcap),"),
];

/// The text with both replaced. Each must stand there exactly once.
pub fn with_depths(original: &str) -> Result<String, String> {
    let mut text = original.to_owned();
    for (capacity, depth) in CAPACITIES {
        let times = text.matches(capacity).count();
        if times != 1 {
            return Err(format!(
                "`{capacity}` stands in the original {times} times, and not once"
            ));
        }
        text = text.replace(capacity, depth);
    }
    Ok(text)
}
