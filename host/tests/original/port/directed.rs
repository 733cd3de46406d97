//! Transfers at chosen places: stops, lengths, the receiving side ahead, frame sizes,
//! limits and exponents.

use super::script::{Sizes, and_sizes, any_word, depth_polls, transfer_script};
use super::{DRIVER, Element, REFUSED, judged_transfer, stops};
use crate::common::branches::Branch;
use crate::common::cases::{Cases, Tally};
use crate::common::registers::{ERRORS, RX_ERROR, TX_ERROR};
use crate::common::run::{Left, Limits, MAX_BUDGET};
use crate::common::transfer::{Kind, Sides, Transfer};
use crate::common::walk;
use lpspi_host::{BitOrder, Lpspi};

/// The polls of a transfer in which each side moves up to `most` words in its turn.
fn bursts<W: Element>(transfer: &Transfer<W>, most: usize) -> String {
    let mut to_send = transfer.words_to_send();
    let mut to_receive = transfer.words_to_receive();
    let mut signs = String::new();
    while to_send + to_receive > 0 {
        for (left, ready, unready) in [(&mut to_send, "s", "f"), (&mut to_receive, "w", "e")] {
            let moved = most.min(*left);
            let others = *left > moved;
            signs += &ready.repeat(moved);
            signs += if others { unready } else { "" };
            *left -= moved;
        }
    }
    signs
}

/// Transfers of one kind, and the branches that they reach.
struct Directed<'a> {
    kind: Kind,
    cases: &'a mut Cases,
    tally: Tally<Branch>,
}

impl Directed<'_> {
    fn transfer<W: Element>(&self, bit_order: BitOrder, lengths: (usize, usize)) -> Transfer<W> {
        let mut places = 0..;
        let word = || any_word(places.next().expect("no end"));
        let driver = Lpspi {
            bit_order,
            ..DRIVER
        };
        Transfer::new(self.kind, driver, lengths, word)
    }

    fn run<W: Element>(&mut self, transfer: &Transfer<W>, limits: &Limits) -> Left<W> {
        let left = transfer.port(limits);
        let judged = || judged_transfer(transfer, limits);
        self.cases.compare(&(transfer, limits), &left, judged);
        self.tally.count(walk::of_transfer(transfer, limits, &left));
        left
    }

    /// A run whose command finds space at once, and that ends with 0 after all polls.
    fn ends<W: Element>(&mut self, transfer: &Transfer<W>, signs: &str) {
        let command = if transfer.total() == 0 { "" } else { "s" };
        for sizes in Sizes::ALL {
            let script = transfer_script(&format!("{command}{signs}"), sizes);
            let left = self.run(transfer, &Limits::new(2 * script.len(), &script));
            assert_eq!((left.number, left.answers), (0, script.len()));
        }
    }
}

/// Three words, with errors in every turn: the polls, and the number at their end.
fn three_words(kind: Kind) -> &'static [(&'static str, u32)] {
    match kind {
        Kind::ExchangeSeparate | Kind::Exchange => &[
            ("fs sf we f e ss ww", 0),
            ("s f wwe f w f sfSs", 0),
            ("S Sss WeWw", 0),
            ("t", 3),
            ("ffb", 3),
            ("s st0", 3),
            ("s f we b3", 3),
            ("s f www ft1", 3),
            ("s sf r0", 2),
            ("s f wb3", 2),
            ("s sss wer1", 2),
        ],
        Kind::WriteNoRead => &[
            ("fs sffs s", 0),
            ("S Sfss", 0),
            ("ft", 3),
            ("s t0", 3),
            ("s sfb1", 3),
            ("s sst3", 3),
        ],
        Kind::ReadNoWrite => &[
            ("fs wee ww", 0),
            ("S WewW", 0),
            ("fb", 3),
            ("s r0", 2),
            ("s web1", 2),
            ("s wwr3", 2),
        ],
    }
}

fn stops_everywhere<W: Element>(directed: &mut Directed) {
    // The last word has one element; the shorter buffer ends within the second.
    let longer = 2 * Transfer::<W>::PER_WORD + 1;
    let shorter = Transfer::<W>::PER_WORD + 1;
    let lengths: &[_] = match directed.kind {
        Kind::ExchangeSeparate => &[(longer, longer), (longer, shorter), (shorter, longer)],
        _ => &[(longer, 0)],
    };
    for bit_order in BitOrder::ALL {
        for lengths in lengths {
            let transfer = directed.transfer::<W>(bit_order, *lengths);
            for (signs, end) in three_words(directed.kind) {
                for sizes in Sizes::ALL {
                    let run = |limits: &Limits| directed.run(&transfer, limits);
                    stops::before_every_access(&transfer_script(signs, sizes), *end, run);
                }
            }
        }
    }
}

/// All lengths up to 9, ready always and in bursts of one or two words.
fn lengths<W: Element>(directed: &mut Directed) {
    let writes = match directed.kind {
        Kind::ExchangeSeparate => 10,
        _ => 1,
    };
    for bit_order in BitOrder::ALL {
        for lengths in (0..10).flat_map(|read| (0..writes).map(move |write| (read, write))) {
            let transfer = directed.transfer::<W>(bit_order, lengths);
            for most in [1, 2, 9] {
                directed.ends(&transfer, &bursts(&transfer, most));
            }
        }
    }
}

/// The sending side finds no space once it has sent some words, none at first, and the
/// receiving side goes on past it.
fn receiving_ahead<W: Element>(directed: &mut Directed) {
    for bit_order in BitOrder::ALL {
        for length in 1..=3 * Transfer::<W>::PER_WORD + 1 {
            let transfer = directed.transfer::<W>(bit_order, (length, length));
            let words = transfer.words();
            for sent in 0..words {
                for received in sent + 1..=words {
                    let wait = if received < words { "e" } else { "" };
                    let (send, receive) = ("s".repeat(sent), "w".repeat(received));
                    let rest = "s".repeat(words - sent) + &"w".repeat(words - received);
                    directed.ends(&transfer, &format!("{send}f{receive}{wait}{rest}"));
                }
            }
        }
    }
}

/// Frame sizes at the limits, by each of the buffers.
fn frame_sizes<W: Element>(directed: &mut Directed) {
    let kind = directed.kind;
    let lengths = |longer| match kind {
        Kind::ExchangeSeparate => vec![
            (longer, 0),
            (longer, 1),
            (longer, longer),
            (1, longer),
            (0, longer),
        ],
        _ => vec![(longer, 0)],
    };
    let longest = Transfer::<W>::LONGEST;
    for lengths in [1, longest - 1, longest].into_iter().flat_map(lengths) {
        let transfer = directed.transfer::<W>(BitOrder::Msb, lengths);
        directed.ends(&transfer, &bursts(&transfer, longest));
    }
    // A frame of 65,536 bits is 16 times the longest.
    let refused = [
        longest + 1,
        16 * longest - 1,
        16 * longest,
        16 * longest + 1,
    ];
    for lengths in refused.into_iter().flat_map(lengths) {
        let transfer = directed.transfer::<W>(BitOrder::Msb, lengths);
        let script = transfer_script("ssw", Sizes::Any);
        let left = directed.run(&transfer, &Limits::new(20, &script));
        assert_eq!(left.number, 1);
    }
}

/// A run of 8,000 accesses, and one that would take more; limits that are refused.
fn limits<W: Element>(directed: &mut Directed) {
    // So that whole polls come to 8,000.
    let words = directed.kind.sides();
    let unready = (MAX_BUDGET - 4 - 4 * words * words) / 3;
    let length = words * Transfer::<W>::PER_WORD;
    let transfer = directed.transfer::<W>(BitOrder::Msb, (length, length));
    for (unready, number) in [(unready, 0), (unready + 1, 4)] {
        let signs = "f".repeat(unready) + "s" + &bursts(&transfer, words);
        for sizes in Sizes::ALL {
            let limits = Limits::new(MAX_BUDGET, &transfer_script(&signs, sizes));
            let left = directed.run(&transfer, &limits);
            assert_eq!((left.number, left.accesses), (number, MAX_BUDGET));
        }
    }
    // Number 5 comes before the empty test and number 1.
    for length in [0, length, Transfer::<W>::LONGEST + 1] {
        let transfer = directed.transfer::<W>(BitOrder::Msb, (length, length));
        for (budget, log_len) in REFUSED {
            let limits = Limits {
                budget,
                log_len,
                script: transfer_script("ssw", Sizes::Any),
            };
            assert_eq!(directed.run(&transfer, &limits).number, 5);
        }
    }
}

/// Exponents over 4 in every poll of a transfer of three words, with stops before every
/// access: 7 right after PARAM, whatever the other direction's flag is; but the poll's
/// own flag comes first. After received words the buffer has them, and there is no
/// recovery.
fn exponents<W: Element>(directed: &mut Directed) {
    const OVER: [[u32; 2]; 6] = [[5, 4], [4, 5], [255, 0], [0, 255], [5, 5], [8, 64]];
    let polls: &[(&str, u32)] = match directed.kind {
        Kind::ExchangeSeparate | Kind::Exchange => &[
            ("", TX_ERROR),
            ("ff", TX_ERROR),
            ("s", TX_ERROR),
            ("s ss", TX_ERROR),
            ("s f", RX_ERROR),
            ("s sf w", RX_ERROR),
            ("s sf we", TX_ERROR),
            ("s sss ww", RX_ERROR),
            ("s f www", TX_ERROR),
        ],
        Kind::WriteNoRead => &[
            ("", TX_ERROR),
            ("f", TX_ERROR),
            ("s", TX_ERROR),
            ("s sfs", TX_ERROR),
        ],
        Kind::ReadNoWrite => &[
            ("", TX_ERROR),
            ("f", TX_ERROR),
            ("s", RX_ERROR),
            ("s wew", RX_ERROR),
        ],
    };
    let length = 3 * Transfer::<W>::PER_WORD;
    let transfer = directed.transfer::<W>(BitOrder::Msb, (length, length));
    for ((signs, own), sizes) in polls
        .iter()
        .flat_map(|poll| Sizes::ALL.map(|sizes| (poll, sizes)))
    {
        let before = transfer_script(signs, sizes);
        for exponents in OVER {
            for errors in [0, ERRORS & !own] {
                let script = and_sizes(&before, errors, exponents);
                let run = |limits: &Limits| directed.run(&transfer, limits);
                stops::before_every_access(&script, 7, run);
            }
            for errors in [*own, ERRORS] {
                let script = and_sizes(&before, errors, exponents);
                let left = directed.run(&transfer, &Limits::new(MAX_BUDGET, &script));
                // Before the command the error is the answer; later a recovery begins.
                let early = !signs.contains('s');
                assert_eq!(left.number, if early { 3 } else { 4 });
                let answers = script.len() - usize::from(early);
                assert_eq!(left.answers, answers);
            }
        }
    }
    // Every depth, full and with one place left: the command goes out at the second poll.
    for exponent in 0..=4 {
        let left = directed.run(&transfer, &Limits::new(MAX_BUDGET, &depth_polls(exponent)));
        assert_eq!((left.number, left.accesses), (4, 7));
    }
    // Exponents of 4 go on.
    let script = and_sizes(&transfer_script("s", Sizes::Any), 0, [4, 4]);
    let left = directed.run(&transfer, &Limits::new(MAX_BUDGET, &script));
    assert_eq!((left.number, left.answers), (4, script.len()));
}

/// All of the above, at one width. Every branch must be reached.
fn transfers<W: Element>(test: &'static str) {
    let mut cases = Cases::new(test);
    for kind in Kind::ALL {
        let mut directed = Directed {
            kind,
            cases: &mut cases,
            tally: Tally::new(Branch::all::<W>(kind)),
        };
        stops_everywhere::<W>(&mut directed);
        lengths::<W>(&mut directed);
        frame_sizes::<W>(&mut directed);
        limits::<W>(&mut directed);
        exponents::<W>(&mut directed);
        if kind.sides() == 2 {
            receiving_ahead::<W>(&mut directed);
        }
        directed.tally.demand(&kind, |_| 1);
    }
}

#[test]
#[cfg_attr(not(original), ignore = "the original is missing")]
fn transfers_of_bytes() {
    transfers::<u8>("original: directed transfers of bytes");
}

#[test]
#[cfg_attr(not(original), ignore = "the original is missing")]
fn transfers_of_halves() {
    transfers::<u16>("original: directed transfers of halves");
}

#[test]
#[cfg_attr(not(original), ignore = "the original is missing")]
fn transfers_of_words() {
    transfers::<u32>("original: directed transfers of words");
}
