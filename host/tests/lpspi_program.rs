//! The program `lpspi`. What the calls leave is compared in `original/port/sample.rs`;
//! here is how it takes lines.

mod common;

use common::Random;
use common::document::shown;
use std::fs;
use std::path::Path;

/// The longest input that is taken.
const LONGEST: usize = 262_144;

/// A call, and what it prints.
const CALL: &str = "new 8\n";
const PRINTED: &str = "00000007\n";

/// The lists of a line.
const LISTS: [&str; 7] = ["driver", "budget", "log", "raw", "read", "write", "script"];

fn program(arguments: &[&str], input: &[u8]) -> Vec<u8> {
    common::program::program("lpspi", arguments, input, usize::MAX)
}

#[track_caller]
fn check(input: &str, expected: &str) {
    let printed = program(&[], input.as_bytes());
    assert_eq!(String::from_utf8_lossy(&printed), expected, "{input}");
}

/// docs/CALLS.md shows what the program prints.
#[test]
#[cfg_attr(not(lpspi), ignore = "the program is missing")]
fn documented_calls() {
    let pairs = shown("CALLS.md", "output");
    assert!(pairs.len() >= 2, "only {} inputs", pairs.len());
    for (input, output) in pairs {
        check(&input, &output);
    }
}

/// The names of the program's calls, from its tables: each is a match over names, or over names
/// without their widths.
fn names() -> Vec<String> {
    let path = Path::new(env!("CARGO_MANIFEST_DIR")).join("../crates/lpspi/src/names.rt");
    let source = fs::read_to_string(path).expect("the tables are there");
    let mut names: Vec<String> = vec![];
    for table in source.split("match ").skip(1) {
        let (over, arms) = table.split_once(" {\n").expect("a match of a string");
        let (arms, _) = arms.split_once("_ =>").unwrap_or_default();
        let arms = arms.lines().map(str::trim_start);
        for name in arms.filter_map(|arm| arm.strip_prefix('"')?.split_once('"')) {
            match (over, name.0) {
                ("stem", "new") => {
                    names.extend(["new_u8s", "new_u16s", "new_u32s"].map(str::to_owned))
                }
                ("stem", stem) => {
                    names.extend(["8", "16", "32"].map(|bits| format!("{stem}_u{bits}")))
                }
                ("name", name) => names.push(name.to_owned()),
                _ => {}
            }
        }
    }
    names
}

/// The calls that the tables of docs/CALLS.md have in their first column; behind a
/// name other widths stand as ends of it.
fn documented(page: &str) -> Vec<String> {
    let mut names: Vec<String> = vec![];
    for row in page.lines().filter(|line| line.starts_with("| `")) {
        let cell = row.split('|').nth(1).expect("a cell");
        for name in cell.split('`').skip(1).step_by(2) {
            let stem = match (name.starts_with('_'), names.last()) {
                (true, Some(last)) => last.rsplit_once("_u").expect("a width").0.to_owned(),
                _ => String::new(),
            };
            names.push(stem + name);
        }
    }
    names
}

/// The calls of docs/CALLS.md are those that there are, and each is in the examples.
#[test]
fn every_call_is_documented() {
    let repository = Path::new(env!("CARGO_MANIFEST_DIR")).join("..");
    let read = |path: &str| fs::read_to_string(repository.join(path)).expect("a file");
    let mut names = names();
    assert!(names.len() >= 50, "only {} names", names.len());
    let examples = read("crates/lpspi/stdin");
    for name in &names {
        let called = |line: &str| line.split(' ').next() == Some(name);
        let count = examples.lines().filter(|line| called(line)).count();
        assert!(count > 0, "{name} is not in the examples");
    }
    names.extend(LISTS.map(str::to_owned));
    names.sort();
    let mut documented = documented(&read("docs/CALLS.md"));
    documented.sort();
    assert_eq!(documented, names);
}

/// A bad line prints its number, and those around it are taken.
#[test]
#[cfg_attr(not(lpspi), ignore = "the program is missing")]
fn bad_lines() {
    let longest = |list: &str, n: usize| format!("{list}{}", " 0".repeat(n));
    let bad = [
        "neW 8".to_owned(),
        "new".into(),
        "new 8 8".into(),
        "new 8 read 0".into(),
        "new 8 driver M 0 0 0 0".into(),
        "new 8 script".into(),
        "new g".into(),
        "new 0x".into(),
        "new 0xG".into(),
        "new -8".into(),
        "new 4294967296".into(),
        "new 0x100000000".into(),
        " new 8".into(),
        "new\t8".into(),
        "new 8\r".into(),
        "\u{FEFF}new 8".into(),
        "304".into(),
        "status 0".into(),
        "status read 0".into(),
        "status write".into(),
        "status budget".into(),
        "status budget 1 2".into(),
        "status budget 1 budget 1".into(),
        "status log 16003".into(),
        "status raw 1".into(),
        "status driver M 0 0 0".into(),
        "status driver M 0 0 0 0 0".into(),
        "status driver 2 0 0 0 0".into(),
        "status driver M 4 0 0 0".into(),
        "status driver M 0 4 0 0".into(),
        "status driver M 0 0 256 0".into(),
        "status driver M 0 0 0 256".into(),
        "status script 0x1".into(),
        "status script 100000000".into(),
        "status script Tx".into(),
        "set_enable 2".into(),
        "set_watermark Tx 256".into(),
        "set_watermark 2 1".into(),
        "set_chip_select_polarity 4 high".into(),
        "set_clock_configs 0 0 0 256".into(),
        "set_clock_hz 1".into(),
        "command 8 M 4 0".into(),
        "with_settings 8 M 0 0 0 0 0 0 2".into(),
        "exchange_u8 read 100".into(),
        "exchange_u16 read 10000".into(),
        "exchange_u8 write 1".into(),
        "exchange_u8 0".into(),
        "write_no_read_u8 read 1".into(),
        "read_no_write_u8 write 1".into(),
        "exchange_separate_u8 write 100".into(),
        "pack_u8 M write 100".into(),
        "unpack_words_u8 M 1 read 100 write 0".into(),
        "pack_words_u16 M 1 read 0 write 10000".into(),
        "longer_u8 read 100".into(),
        longest("exchange_u8 read", 521),
        longest("write_no_read_u8 write", 521),
        longest("status script", 8_001),
        longest("new", 13),
    ];
    for line in bad {
        let input = format!("{CALL}{line}\n{CALL}");
        check(&input, &format!("{PRINTED}bad 2\n{PRINTED}"));
    }
}

/// The longest lists, numbers and names of numbers, and spaces.
#[test]
#[cfg_attr(not(lpspi), ignore = "the program is missing")]
fn good_lines() {
    let driver = "driver M 0 0 0x00 0x00";
    let longest = |list: &str, n: usize| format!("{list}{}\n", " 0".repeat(n));
    check(
        &longest("write_no_read_u8 write", 520),
        &format!("1 0 0 {driver}\n"),
    );
    check(
        &longest("flush budget 0 script", 8_000),
        &format!("4 0 0 {driver}\n"),
    );
    check("new  8 \nnew 0x8", &PRINTED.repeat(2));
    check(
        "clear_status 4294967295 budget 0\nclear_status 0xfFfFfFfF budget 0",
        &format!("4 0 0 {driver}\n").repeat(2),
    );
    // The log's default length is what the budget takes, but no more than there is.
    for (budget, number) in [(8_000, 0), (8_001, 5), (4_294_967_295_u32, 5)] {
        let made = u32::from(number == 0);
        check(
            &format!("clear_status 0x100 budget {budget}"),
            &format!(
                "{}{number} {made} 0 {driver}\n",
                "W 14 00000100\n".repeat(made as usize)
            ),
        );
    }
    check(
        "status log 16002 budget 8001",
        &format!("status 00000000\n5 0 0 {driver}\n"),
    );
}

/// Comments and empty lines are printed, and count.
#[test]
#[cfg_attr(not(lpspi), ignore = "the program is missing")]
fn comments() {
    check("", "");
    check("\n", "\n");
    check("#", "#\n");
    check("#new 8\n\nx", "#new 8\n\nbad 3\n");
    check("# \u{FF}\r\n new 8\n", "# \u{FF}\r\nbad 2\n");
}

/// An input of the longest length is taken whole, one that is longer not at all.
#[test]
#[cfg_attr(not(lpspi), ignore = "the program is missing")]
fn the_longest_input() {
    let filled = |len: usize| format!("#{}\n{CALL}", "x".repeat(len - CALL.len() - 2));
    let input = filled(LONGEST);
    let (comment, _) = input.split_at(LONGEST - CALL.len());
    check(&input, &format!("{comment}{PRINTED}"));
    check(&filled(LONGEST + 1), "bad\n");
    check(&CALL.repeat(1_000_000), "bad\n");
}

/// It reads standard input, whatever its arguments.
#[test]
#[cfg_attr(not(lpspi), ignore = "the program is missing")]
fn arguments_are_not_read() {
    let printed = program(&["../docs/CALLS.md", "-h"], CALL.as_bytes());
    assert_eq!(printed, PRINTED.as_bytes());
}

/// The places of bad lines, by what is printed.
fn bad_places(printed: &[u8]) -> Vec<usize> {
    let printed = String::from_utf8_lossy(printed);
    let bad = printed.lines().filter_map(|line| line.strip_prefix("bad "));
    bad.map(|place| place.parse().expect("a number")).collect()
}

/// Random bytes, and words of the grammar in random order: the bad lines are named in
/// their order, each is bad without the others, and the others are not.
#[test]
#[cfg_attr(not(lpspi), ignore = "the program is missing")]
fn garbage() {
    let mut random = Random::fixed("lpspi: garbage");
    let mut words: Vec<String> = names();
    let numbers = ["M", "L", "Tx", "on", "0", "1", "3", "ff", "0x100", "8000"];
    let others = LISTS
        .into_iter()
        .filter(|list| *list != "raw")
        .chain(numbers);
    words.extend(others.map(str::to_owned));
    let mut text = vec![];
    while text.len() < LONGEST - 400 {
        for _ in 0..1 + random.below(5) {
            text.extend(words[random.below(words.len())].bytes());
            text.push(b' ');
        }
        text.push(b'\n');
    }
    for input in [random.bytes(LONGEST), text] {
        let bad = bad_places(&program(&[], &input));
        let lines: Vec<_> = input.split(|byte| *byte == b'\n').collect();
        let of = |wanted: bool| {
            let place = |place: usize| bad.binary_search(&place).is_ok() == wanted;
            let lines = lines.iter().enumerate().filter(|(i, _)| place(i + 1));
            lines.map(|(_, line)| *line).collect::<Vec<_>>()
        };
        let (good, bad_lines) = (of(false), of(true));
        assert!(bad.len() > 500, "{} bad lines", bad.len());
        assert_eq!(bad_lines.len(), bad.len());
        let alone = bad_places(&program(&[], &bad_lines.join(&b'\n')));
        assert_eq!(alone, (1..=bad.len()).collect::<Vec<_>>());
        assert_eq!(bad_places(&program(&[], &good.join(&b'\n'))), []);
        random.cases.count();
    }
}
