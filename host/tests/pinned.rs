//! The original is known by its SHA-256, and two of its expressions are replaced.

#[path = "../original/build/depths.rs"]
mod depths;
#[path = "../original/build/pinned.rs"]
mod pinned;

use depths::with_depths;
use pinned::sha256::hex;
use pinned::{SUM, check};
use std::fs;
use std::path::Path;

/// The examples of FIPS 180-4, and no message.
#[test]
fn known_sums() {
    let million = "a".repeat(1_000_000);
    #[rustfmt::skip]
    let cases = [
        ("", "e3b0c44298fc1c149afbf4c8996fb92427ae41e4649b934ca495991b7852b855"),
        ("abc", "ba7816bf8f01cfea414140de5dae2223b00361a396177a9cb410ff61f20015ad"),
        ("abcdbcdecdefdefgefghfghighijhijkijkljklmklmnlmnomnopnopq",
         "248d6a61d20638b8e5c026930c3e6039a33ce45964ff2167f6ecedd419db06c1"),
        (&million, "cdc76e5c9914fb9281a1c7e284d73e67f1809a48a497200e046d39ccc7112cd0"),
    ];
    for (message, sum) in cases {
        assert_eq!(hex(message.as_bytes()), sum);
    }
}

/// Every length around the ends of the first blocks, in one sum of sums.
#[test]
fn every_length() {
    let bytes: Vec<u8> = (0..200).collect();
    let sums: String = (0..=200).map(|len| hex(&bytes[..len])).collect();
    let sum = "b367ea311264aae50e6260b96a10761169ce3eec5d5f8f2258351f82c7252776";
    assert_eq!(hex(sums.as_bytes()), sum);
}

#[test]
fn a_changed_source_is_refused() {
    let found = "d67e2e944994496c8d8ec76eed0cf9f09679448d584b532bebf941852a37f5ed";
    let message = format!(
        "some/lpspi.rs is not the original lpspi.rs: expected SHA-256 {SUM}, found {found}"
    );
    assert_eq!(check(Path::new("some/lpspi.rs"), b"changed"), Err(message));
}

/// Fails where a changed source was built on purpose.
#[test]
#[cfg_attr(not(original), ignore = "the original is missing")]
fn the_source_is_the_original() {
    let source = Path::new(original::SOURCE);
    let text = fs::read(source).expect("it was there when this was built");
    assert_eq!(check(source, &text), Ok(()));
}

/// Each capacity must stand there once; nothing else changes.
#[test]
fn only_the_capacities_are_replaced() {
    let text = "a\nrxcap: rxcap as u16,\nb\ntxcap: txcap as u16,\nc";
    let deep = "a\nrxcap: 1u16.wrapping_shl(rxcap),\nb\ntxcap: 1u16.wrapping_shl(txcap),\nc";
    assert_eq!(with_depths(text).as_deref(), Ok(deep));
    for (capacity, others) in [("rxcap", "txcap"), ("txcap", "rxcap")] {
        let twice = format!("{text}\n{capacity}: {capacity} as u16,");
        let none = format!("{others}: {others} as u16,");
        for (text, times) in [(twice, 2), (none, 0)] {
            let message = format!(
                "`{capacity}: {capacity} as u16,` stands in the original {times} times, and not once"
            );
            assert_eq!(with_depths(&text), Err(message));
        }
    }
}
