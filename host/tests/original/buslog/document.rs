//! The page for technicians.

use super::compare;
use crate::common::buslog::{Text, documented};
use crate::common::cases::Cases;

/// Both sides print the listings of docs/BUSLOG.md.
#[test]
#[cfg_attr(not(original), ignore = "the original is missing")]
fn documented_inputs() {
    let mut cases = Cases::new("original: buslog, document");
    for (input, listing) in documented() {
        let printed = compare(&mut cases, input.into_bytes());
        assert_eq!(printed, Text(listing.into_bytes()));
    }
}
