//! Times the port against the original: calls in this process, and the programs
//! `buslog` of both; and trials of the port on the bus, which the original has not.
//!
//! Run with `cargo bench`, and with `cargo bench --profile checked` for an original
//! with overflow checks; the port is the same library in both. An argument after
//! `--` is a part of the names of the jobs to time. The programs must be there:
//! `rt run` in crates/buslog, and `cargo build --example original_buslog` in the same profile
//! (`--release`, or `--profile checked`).

mod bus;
mod buslog;
mod runs;
mod scripts;
mod timing;
mod words;

fn main() {
    if !original::AVAILABLE {
        panic!("nothing to time the port against: no {}", original::SOURCE);
    }
    words::time();
    println!();
    runs::time();
    println!();
    buslog::time();
    println!();
    bus::time();
}
