//! `buslog`: the functions, and the programs.

use crate::scripts;
use crate::timing::{Effort, Times, wanted};
use std::env;
use std::hint::black_box;
use std::io::{Read, Write};
use std::path::{Path, PathBuf};
use std::process::{Command, Stdio};

const ROUNDS: u32 = 1_000;
const FUNCTIONS: Effort = Effort {
    rounds: ROUNDS,
    calls: 4,
};
const PROGRAMS: Effort = Effort {
    rounds: ROUNDS,
    calls: 1,
};

/// The scope document's example.
const EXAMPLE: &str = "8 M 20\nA5\n1\n0 404 0 0 404 0 0 404 10000 5A\n";

pub fn time() {
    println!("buslog: us per call, or per process from start to end, best of {ROUNDS} rounds.");
    println!(
        "{:<46} {:>8} {:>9} {:>9} {:>9} {:>7}",
        "", "bytes in", "bytes out", "original", "port", "ratio"
    );
    let jobs = [
        ("the example", EXAMPLE.to_owned()),
        ("256/256 bytes, 4,000 answers", input(8, 256, 4_000)),
        ("512/512 bytes, 8,000 answers", input(8, 512, 8_000)),
        ("64/64 words, 4,000 answers", input(32, 64, 4_000)),
        ("128/128 words, 8,000 answers", input(32, 128, 8_000)),
    ];
    for (name, input) in &jobs {
        let (name, input) = (format!("buslog, {name}"), input.as_bytes());
        let original = || original::buslog(black_box(input));
        let port = || lpspi_host::buslog(black_box(input));
        job(&name, input, FUNCTIONS, original, port);
    }
    let programs = [original_program(), port_program()];
    if let Some(missing) = programs.iter().find(|program| !program.is_file()) {
        println!("programs not timed: no {}", missing.display());
        return;
    }
    for (name, input) in &jobs {
        let (name, input) = (format!("buslog program, {name}"), input.as_bytes());
        let original = || run(&programs[0], input);
        let port = || run(&programs[1], input);
        job(&name, input, PROGRAMS, original, port);
    }
}

/// An exchange of as many elements each way that makes nearly as many accesses as its
/// budget, with as many answers. All numbers have all their digits.
fn input(width: usize, elements: usize, budget: usize) -> String {
    let mut script = scripts::waiting(elements * width / 32, budget);
    script.resize(budget, 0);
    let script: Vec<_> = script.iter().map(|word| format!("{word:08X}")).collect();
    let digits = width / 4;
    let write: Vec<_> = (0..elements)
        .map(|place| format!("{:0digits$X}", (place * 37 + 11) % 0x100))
        .collect();
    let (write, script) = (write.join(" "), script.join(" "));
    format!("{width} M {budget}\n{write}\n{elements}\n{script}\n")
}

fn job(
    name: &str,
    input: &[u8],
    effort: Effort,
    original: impl Fn() -> Vec<u8>,
    port: impl Fn() -> Vec<u8>,
) {
    if !wanted(name) {
        return;
    }
    let listing = original();
    assert!(listing == port(), "{name}: both sides print the same");
    let times = Times::best(
        effort,
        || drop(black_box(original())),
        || drop(black_box(port())),
    );
    println!(
        "{name:<46} {:>8} {:>9} {:>9.1} {:>9.1} {:>7.2}",
        input.len(),
        listing.len(),
        times.original / 1e3,
        times.port / 1e3,
        times.ratio()
    );
}

/// Starts a program, writes its input and reads what it prints. It prints after it has
/// read all.
fn run(program: &Path, input: &[u8]) -> Vec<u8> {
    let mut child = Command::new(program)
        .stdin(Stdio::piped())
        .stdout(Stdio::piped())
        .spawn()
        .expect("it starts");
    let mut stdin = child.stdin.take().expect("piped");
    stdin.write_all(input).expect("it reads its input");
    drop(stdin);
    let mut stdout = child.stdout.take().expect("piped");
    let mut listing = vec![];
    stdout.read_to_end(&mut listing).expect("it prints");
    assert!(child.wait().expect("it ends").success());
    listing
}

/// `cargo build --example original_buslog`, in the benchmark's profile, puts it beside
/// the benchmark.
fn original_program() -> PathBuf {
    let benchmark = env::current_exe().expect("it has a path");
    let profile = benchmark.ancestors().nth(2).expect("it is in `deps`");
    profile.join("examples/original_buslog")
}

/// `rt run` in crates/buslog makes it.
fn port_program() -> PathBuf {
    Path::new(env!("CARGO_MANIFEST_DIR")).join("../crates/buslog/out/buslog")
}
