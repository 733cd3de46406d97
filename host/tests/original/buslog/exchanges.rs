//! Good inputs.

use super::compare;
use super::input::{Exchange, Shown};
use crate::common::branches::Branch;
use crate::common::buslog::{EXAMPLE_INPUT, LONGEST, Text, example_output, largest};
use crate::common::cases::{Cases, Tally};
use crate::common::transfer::{Element, Kind};
use crate::common::{Random, walk};
use std::fmt::UpperHex;

/// Inputs of each width.
const INPUTS: usize = 4_000;

/// Compares random inputs of one width. Every branch of the exchange must be reached,
/// but for the places of stops, and every spelling.
fn inputs<W: Element + UpperHex>(test: &'static str) {
    let mut random = Random::fixed(test);
    let mut branches = Tally::new(branches::<W>());
    let mut spellings = Tally::new(Shown::ALL);
    for _ in 0..INPUTS {
        let exchange = Exchange::<W>::random(&mut random);
        let input = exchange.input(&mut random);
        let printed = compare(&mut random.cases, input.text());
        let (left, listing) = exchange.run();
        assert_eq!(printed, Text(listing.into_bytes()));

        branches.count(walk::of_transfer(
            &exchange.transfer,
            &exchange.limits,
            &left,
        ));
        spellings.count(Shown::of(&input));
    }
    branches.demand(&test, |branch| match branch {
        Branch::Stopped(..) => 0,
        // Rare: of recoveries only, and of one poll and field, or of one count.
        Branch::Waited(_) | Branch::TooDeep(..) | Branch::Full(_) | Branch::LastPlace(_) => 1,
        _ => 5,
    });
    spellings.demand(&test, |_| 20);
}

/// The branches of an exchange. 512 bytes are a frame: number 1 takes wider elements.
fn branches<W: Element>() -> impl Iterator<Item = Branch> {
    let all = Branch::all::<W>(Kind::ExchangeSeparate).into_iter();
    all.filter(|branch| size_of::<W>() > 1 || *branch != Branch::Ended(1))
}

#[test]
#[cfg_attr(not(original), ignore = "the original is missing")]
fn inputs_of_bytes() {
    inputs::<u8>("original: buslog, bytes");
}

#[test]
#[cfg_attr(not(original), ignore = "the original is missing")]
fn inputs_of_halves() {
    inputs::<u16>("original: buslog, halves");
}

#[test]
#[cfg_attr(not(original), ignore = "the original is missing")]
fn inputs_of_words() {
    inputs::<u32>("original: buslog, words");
}

/// The largest exchanges, and the longest input.
#[test]
#[cfg_attr(not(original), ignore = "the original is missing")]
fn large_inputs() {
    let mut cases = Cases::new("original: buslog, large");
    for width in [8, 16, 32] {
        let printed = compare(&mut cases, largest(width).into_bytes());
        assert!(printed.0.ends_with(b"\n0 8000 7871\n"));
    }
    for field in ["20", "1"] {
        let zeros = "0".repeat(LONGEST - EXAMPLE_INPUT.len());
        let input = EXAMPLE_INPUT.replacen(field, &format!("{zeros}{field}"), 1);
        assert_eq!(input.len(), LONGEST);
        let printed = compare(&mut cases, input.into_bytes());
        assert_eq!(printed, Text(example_output().into_bytes()));
    }
}
