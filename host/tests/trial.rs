//! Trials of two boards on one bus: what the ends show, and what a refusal leaves.

use lpspi_host::raw::{self, END_STATE, PAIR_STATE};
use lpspi_host::{
    BitOrder, Board, Direction, Element, EndState, Error, Event, Lpspi, LpspiError, Trial, trial,
};
use std::fmt::Debug;

/// Events by the letters of the program `trial`.
fn events(letters: &str) -> Vec<Event> {
    let event = |letter| Event::ALL["gGaActrTR".find(letter).expect("an event")];
    letters.chars().map(event).collect()
}

/// Boards with a buffer to read into and one to send.
fn separate<'a>(read: &'a mut [u8], write: &'a [u8], exponent: usize) -> Board<'a, u8> {
    Board {
        driver: Lpspi::default(),
        in_place: false,
        exponent,
        read,
        write,
    }
}

/// A trial of a gate that sends four bytes and an antenna in place, with turns of both
/// and a clock at times.
fn trial_of(gate: &mut [u8], antenna: &mut [u8], exponent: usize) -> Result<Trial, Error> {
    let round = "ga".repeat(9) + "gc";
    let gate = separate(gate, b"gate", 4);
    let antenna = Board {
        in_place: true,
        ..separate(antenna, b"not sent", exponent)
    };
    trial(gate, antenna, &events(&round.repeat(10)))
}

#[test]
fn both_agree() {
    let (mut gate, mut antenna) = ([0; 7], *b"antenna");
    let left = trial_of(&mut gate, &mut antenna, 2).expect("a pair");
    assert_eq!(gate, *b"antenna");
    assert_eq!(antenna, *b"gate\xFF\xFF\xFF");
    for end in [left.gate, left.antenna] {
        assert_eq!([end.transfer(), end.flush()], [Some(Ok(())); 2]);
        assert!(end.ok_twice());
        assert_eq!([end.transmit_error(), end.receive_error()], [false; 2]);
        assert_eq!([end.to_send(), end.to_read()], [[0; 0]; 2]);
        assert_eq!(end.commands(), 0);
        // CR and TCR.
        assert_eq!((end.registers()[4], end.registers()[24]), (1, 55));
    }
}

/// Without events no call has answered.
#[test]
fn fresh_ends() {
    let (mut gate, mut antenna) = ([1], [2]);
    let end = separate(&mut antenna, b"a", 1);
    let left = trial(separate(&mut gate, b"g", 1), end, &[]).expect("a pair");
    let mut registers = [0; 30];
    registers[4] = 1;
    for end in [left.gate, left.antenna] {
        assert_eq!([end.transfer(), end.flush()], [None; 2]);
        assert!(!end.ok_twice());
        assert_eq!([end.to_send(), end.to_read()], [[0; 0]; 2]);
        assert_eq!(end.registers(), registers);
    }
    assert_eq!((gate, antenna), ([1], [2]));
}

#[test]
fn noise_sets_one_flag() {
    let flags = |end: EndState| [end.transmit_error(), end.receive_error()];
    for (place, letter) in ["t", "r", "T", "R"].into_iter().enumerate() {
        let (mut gate, mut antenna) = ([], []);
        let [gate, antenna] = [&mut gate, &mut antenna].map(|read| separate(read, b"x", 1));
        let left = trial(gate, antenna, &events(letter)).expect("a pair");
        let mut expected = [[false; 2]; 2];
        expected[place / 2][place % 2] = true;
        assert_eq!([flags(left.gate), flags(left.antenna)], expected);
    }
}

/// Trial 2 of crates/trial/stdin: the clock comes before the antenna has sent, and its
/// command stays.
#[test]
fn one_says_so() {
    let (mut gate, mut antenna) = ([0], *b"B");
    let happened = "g".repeat(8) + "aaaaac" + &"a".repeat(30) + &"g".repeat(30);
    let in_place = Board {
        in_place: true,
        ..separate(&mut antenna, b"", 2)
    };
    let left = trial(separate(&mut gate, b"A", 2), in_place, &events(&happened)).expect("a pair");
    assert!(left.gate.ok_twice());
    let end = left.antenna;
    assert_eq!(end.transfer(), Some(Ok(())));
    assert_eq!(
        end.flush(),
        Some(Err(LpspiError::Fifo(Direction::Tx).into()))
    );
    assert!(!end.ok_twice());
    assert_eq!([end.transmit_error(), end.receive_error()], [true, false]);
    assert_eq!((end.commands(), end.to_send()), (1, &[0x42][..]));
    assert_eq!(end.to_read(), []);
    assert_eq!((gate, antenna), ([0], *b"A"));
}

/// After so many accesses, with an exponent: the commands and words queued. A command
/// takes a place, so that an exponent of 0 leaves none for a word.
#[test]
fn a_command_takes_a_place() {
    let queued = |exponent, steps: &str| {
        let (mut gate, mut antenna) = ([0; 80], [0; 80]);
        let [gate, antenna] =
            [&mut gate, &mut antenna].map(|read| separate(read, &[b'1'; 80], exponent));
        let left = trial(gate, antenna, &events(steps)).expect("a pair");
        (left.gate.commands(), left.gate.to_send().len())
    };
    let many = "g".repeat(90);
    assert_eq!(queued(0, &many), (1, 0));
    assert_eq!(queued(1, &many), (1, 1));
    assert_eq!(queued(2, &many), (1, 3));
    assert_eq!(queued(3, &many), (1, 7));
    assert_eq!(queued(4, &many), (1, 15));
    assert_eq!(queued(4, "ggg"), (0, 0));
    assert_eq!(queued(4, "gggg"), (1, 0));
    assert_eq!(queued(4, "gggggggg"), (1, 1));
    // It leaves with the first word, and not before.
    assert_eq!(queued(4, "ggggc"), (1, 0));
    assert_eq!(queued(4, "ggggggggc"), (0, 0));
    assert_eq!(queued(4, "ggggggggggggc"), (0, 1));
}

/// Trial 4 of crates/trial/stdin: a word comes to a full FIFO.
#[test]
fn a_lost_word() {
    let (mut gate, mut antenna) = ([0; 8], [0; 8]);
    let happened = "ggggggggc".repeat(4) + &"a".repeat(40);
    let mut boards = [
        separate(&mut gate, b"abcdefgh", 2),
        separate(&mut antenna, b"12345678", 0),
    ];
    for board in &mut boards {
        board.driver.bit_order = BitOrder::Lsb;
    }
    let [gate, antenna] = boards;
    let end = trial(gate, antenna, &events(&happened))
        .expect("a pair")
        .antenna;
    assert_eq!(
        end.transfer(),
        Some(Err(LpspiError::Fifo(Direction::Tx).into()))
    );
    assert_eq!(
        end.flush(),
        Some(Err(LpspiError::Fifo(Direction::Rx).into()))
    );
    assert_eq!([end.transmit_error(), end.receive_error()], [true; 2]);
    assert_eq!((end.commands(), end.to_send()), (0, &[][..]));
    assert_eq!(end.to_read(), [0x6463_6261]);
}

#[test]
fn boards_that_make_no_pair_are_refused() {
    for (elements, exponent) in [(7, 5), (7, usize::MAX), (8, 4)] {
        let (mut gate, mut antenna) = ([1; 7], vec![2; elements]);
        let left = trial_of(&mut gate, &mut antenna, exponent);
        assert_eq!(left, Err(Error::Unpaired));
        assert_eq!((gate, antenna), ([1; 7], vec![2; elements]));
    }
}

/// What the state holds before a trial. No word of a state is this.
const FOUND: u32 = 0xDEAD_BEEF;

const BOTH_IN_PLACE: u32 = 0b11;

/// A trial in the C form, of a gate with three elements and an antenna with so many,
/// the gate's all the first of two, the antenna's the second.
/// Answers the number and the lent state, of so many words. At 9 the buffers must be as
/// found.
fn left<W: Element + Copy + PartialEq + Debug>(
    [ours, theirs]: [W; 2],
    orders: [BitOrder; 2],
    exponents: [usize; 2],
    elements: usize,
    room: usize,
) -> (u32, Vec<u32>) {
    let [gate_driver, antenna_driver] = orders.map(|bit_order| Lpspi {
        bit_order,
        ..Lpspi::default()
    });
    let (mut gate, mut antenna) = ([ours; 3], vec![theirs; elements]);
    let mut state = vec![FOUND; room];
    let number = raw::trial(
        gate_driver.number(),
        antenna_driver.number(),
        BOTH_IN_PLACE,
        exponents[0],
        exponents[1],
        &mut gate,
        &[],
        &mut antenna,
        &[],
        Event::numbers(&events(&"gac".repeat(20))),
        &mut state,
    );
    if number == 9 {
        assert_eq!((gate, antenna), ([ours; 3], vec![theirs; elements]));
    }
    (number, state)
}

fn states<W: Element + Copy + PartialEq + Debug>(filled: [W; 2]) {
    use BitOrder::{Lsb, Msb};
    let both = PAIR_STATE;
    let (number, whole) = left(filled, [Msb; 2], [0, 4], 3, both + 3);
    assert_eq!(number, 0);
    assert!(!whole[..both].contains(&FOUND));
    assert_eq!(whole[both..], [FOUND; 3]);

    for room in [0, 1, END_STATE, 2 * END_STATE, both - 1, both, both + 3] {
        let given = left(filled, [Msb; 2], [0, 4], 3, room);
        assert_eq!(given, (0, whole[..room].to_vec()));

        let refused = (9, vec![FOUND; room]);
        for exponents in [[5, 4], [4, 5], [usize::MAX, 0]] {
            assert_eq!(left(filled, [Msb; 2], exponents, 3, room), refused);
        }
        for elements in [0, 2, 4] {
            assert_eq!(left(filled, [Lsb; 2], [4; 2], elements, room), refused);
        }
        for orders in [[Msb, Lsb], [Lsb, Msb]] {
            assert_eq!(left(filled, orders, [1; 2], 3, room), refused);
        }
    }
}

/// At 9 the lent state is wholly as found, at 0 only what is past both ends.
#[test]
fn a_refusal_leaves_the_state_as_found() {
    states([0x5A_u8, 0xC3]);
    states([0x5A5A_u16, 0xC3C3]);
    states([0x5A5A_5A5A_u32, 0xC3C3_C3C3]);
}
