//! Trials of the port: lists of events on the bus.

use crate::timing::wanted;
use lpspi_host::{Board, Event, Lpspi, Trial, trial};
use std::hint::black_box;
use std::time::{Duration, Instant};

const BYTES: usize = 512;
const WORDS: usize = BYTES / 4;
const EXPONENT: usize = 4;
const ROUNDS: u32 = 30;

/// Turns of both ends.
const STEPS: [Event; 4] = [
    Event::GateStep,
    Event::AntennaStep,
    Event::GateBusyStep,
    Event::AntennaBusyStep,
];

pub fn time() {
    println!(
        "Trials of {BYTES} bytes each way: ms per list and million events a second, best of {ROUNDS} rounds."
    );
    println!("{:<40} {:>9} {:>9} {:>9}", "", "events", "ms", "rate");
    // Between two clocks both ends poll.
    for events in [1_000_000, 500_000] {
        job(&format!("bus, {events} events"), &list(events));
    }
    job("bus, 512 bytes as fast as it goes", &list(21 * WORDS));
}

/// A list of so many events that keeps both ends going: turns, with clocks at even
/// distances, and a last part for the flushes.
fn list(events: usize) -> Vec<Event> {
    let distance = events / (WORDS + 2);
    let event = |place: usize| match place % distance {
        0 if place > 0 => Event::Clock,
        _ => STEPS[place % 4],
    };
    (0..events).map(event).collect()
}

fn job(name: &str, events: &[Event]) {
    if !wanted(name) {
        return;
    }
    let bytes = |factor: usize| (0..BYTES).map(|i| (i * factor) as u8).collect();
    let writes: [Vec<u8>; 2] = [bytes(37), bytes(59)];
    let mut reads = [vec![0; BYTES], vec![0; BYTES]];

    let mut best = Duration::MAX;
    for _ in 0..ROUNDS {
        let start = Instant::now();
        let left = run(black_box(&mut reads), black_box(&writes), black_box(events));
        best = best.min(start.elapsed());
        let ok_twice = [left.gate, left.antenna].map(|end| end.ok_twice());
        assert_eq!(ok_twice, [true; 2], "{name}: both ends have Ok twice");
    }
    assert_eq!([&reads[1], &reads[0]], [&writes[0], &writes[1]], "{name}");

    let ms = 1e3 * best.as_secs_f64();
    let rate = events.len() as f64 / 1e3 / ms;
    println!("{name:<40} {:>9} {ms:>9.3} {rate:>9.1}", events.len());
}

fn run(reads: &mut [Vec<u8>; 2], writes: &[Vec<u8>; 2], events: &[Event]) -> Trial {
    let [gate, antenna] = reads;
    let (gate, antenna) = (board(gate, &writes[0]), board(antenna, &writes[1]));
    trial(gate, antenna, events).expect("the boards make a pair")
}

fn board<'a>(read: &'a mut [u8], write: &'a [u8]) -> Board<'a, u8> {
    Board {
        driver: Lpspi::default(),
        in_place: false,
        exponent: EXPONENT,
        read,
        write,
    }
}
