//! `buslog`: the function for hosts, and the program.

mod common;

use common::buslog::{
    BAD, EXAMPLE_INPUT, LONGEST, Text, documented, example_output, largest, port,
};
use lpspi_host::{buslog, raw};

/// An input of that length whose budget has zeros in front.
fn padded(len: usize) -> String {
    let zeros = "0".repeat(len - EXAMPLE_INPUT.len());
    EXAMPLE_INPUT.replacen("20", &format!("{zeros}20"), 1)
}

/// The number at the start of the last line.
fn number(listing: &[u8]) -> &str {
    let text = str::from_utf8(listing).expect("ASCII");
    let last = text.trim_end().rsplit('\n').next();
    last.expect("a line").split(' ').next().expect("a field")
}

#[test]
fn the_example() {
    assert_eq!(
        buslog(EXAMPLE_INPUT.as_bytes()),
        example_output().as_bytes()
    );
    assert_eq!(buslog(b""), BAD.as_bytes());
}

/// The buffer past the text is as found: `port` compares it.
#[test]
fn the_rest_of_the_buffer_is_kept() {
    let refused = EXAMPLE_INPUT.replacen("20", "8001", 1);
    let (largest, too_long) = (largest(8), padded(LONGEST + 1));
    for input in ["", EXAMPLE_INPUT, &refused, &largest, &too_long] {
        let printed = port(input.as_bytes());
        assert_eq!(printed.0, buslog(input.as_bytes()));
        assert!(printed.0.len() < raw::BUSLOG_OUTPUT);
    }
    assert_eq!(port(refused.as_bytes()).0, b"00\n5 0 0\n");
}

/// The largest exchange just uses up its budget.
#[test]
fn the_largest_inputs() {
    for width in [8, 16, 32] {
        let listing = buslog(largest(width).as_bytes());
        let lines = 8_000 + 128 * 32 / width + 1;
        assert_eq!(listing.split(|byte| *byte == b'\n').count(), lines + 1);
        assert!(listing.ends_with(b"\n0 8000 7871\n"), "width {width}");
    }
    assert_eq!(
        buslog(padded(LONGEST).as_bytes()),
        example_output().as_bytes()
    );
    assert_eq!(buslog(padded(LONGEST + 1).as_bytes()), BAD.as_bytes());
}

/// Inputs, and the number in the last line of their listings.
fn good_inputs() -> Vec<(Vec<u8>, &'static str)> {
    let mut inputs: Vec<_> = [8, 16, 32].map(|width| (largest(width), "0")).into();
    inputs.push((padded(LONGEST), "0"));
    let small = [
        (EXAMPLE_INPUT.trim_end(), "0"),
        ("32 M 20\n\n129\n", "1"),
        ("8 L 20\n\n0\n", "0"),
        ("16 L 9\n1\n1\n0 4 0 0 4 0 1000 0", "4"),
        ("8 M 4294967295\n\n0\n\n", "5"),
    ];
    inputs.extend(small.map(|(input, number)| (input.into(), number)));
    let bytes = |(input, number): (String, _)| (input.into_bytes(), number);
    inputs.into_iter().map(bytes).collect()
}

fn bad_inputs() -> Vec<Vec<u8>> {
    const MEGABYTES: usize = 5_000_000;
    let any = |place: usize| (place * place / 7) as u8;
    vec![
        b"".into(),
        b"\n".into(),
        b"8 M 20\r\nA5\r\n1\r\n0\r\n".into(),
        b"\0".into(),
        // A byte order mark; a line too many; three lines, the last without a newline.
        format!("\u{FEFF}{EXAMPLE_INPUT}").into(),
        format!("{EXAMPLE_INPUT}\n").into(),
        b"8 M 20\nA5\n1".into(),
        padded(LONGEST + 1).into(),
        EXAMPLE_INPUT.repeat(10).into(),
        vec![0; MEGABYTES],
        vec![b'\n'; MEGABYTES],
        padded(MEGABYTES).into(),
        (0..MEGABYTES).map(any).collect(),
    ]
}

#[test]
fn numbers() {
    for (input, expected) in good_inputs() {
        assert_eq!(number(&buslog(&input)), expected);
    }
    for input in bad_inputs() {
        assert_eq!(buslog(&input), BAD.as_bytes());
    }
}

/// docs/BUSLOG.md shows what is printed; the scope document's example is there.
#[test]
fn documented_inputs() {
    let pairs = documented();
    assert_eq!(pairs[0], (EXAMPLE_INPUT.into(), example_output()));
    for (input, listing) in pairs {
        assert_eq!(buslog(input.as_bytes()), listing.as_bytes());
    }
}

/// Runs the program, with a file name as argument, which it does not read.
fn program(input: &[u8], piece: usize) -> Vec<u8> {
    let file = concat!(env!("CARGO_MANIFEST_DIR"), "/../crates/buslog/stdin");
    common::program::program("buslog", &[file], input, piece)
}

/// Whatever is read, the program prints what the function gives.
fn check(input: &[u8]) {
    let printed = program(input, usize::MAX);
    let start = input.iter().take(80).copied().collect();
    assert!(
        printed == buslog(input),
        "{:?}: {:?}",
        Text(start),
        Text(printed)
    );
}

/// Also where the input comes a byte at a time.
#[test]
#[cfg_attr(not(buslog), ignore = "the program is missing")]
fn the_program_on_the_example() {
    for piece in [usize::MAX, 1] {
        let printed = program(EXAMPLE_INPUT.as_bytes(), piece);
        assert_eq!(printed, example_output().as_bytes());
    }
}

#[test]
#[cfg_attr(not(buslog), ignore = "the program is missing")]
fn the_program_on_documented_inputs() {
    for (input, listing) in documented() {
        assert_eq!(program(input.as_bytes(), usize::MAX), listing.as_bytes());
    }
}

#[test]
#[cfg_attr(not(buslog), ignore = "the program is missing")]
fn the_program_on_good_inputs() {
    for (input, _) in good_inputs() {
        check(&input);
    }
}

/// Of megabytes the program stops reading, so that not all can be written.
#[test]
#[cfg_attr(not(buslog), ignore = "the program is missing")]
fn the_program_on_bad_inputs() {
    for input in bad_inputs() {
        check(&input);
    }
}
