//! The program `buslog` over the original: four lines of text ask for an exchange,
//! and its run is listed. Written from the scope document's text.

use crate::{Driver, Element, Transfer, run, too_deep, until_too_deep};
use std::array;

/// A longer input is bad.
const LONGEST_INPUT: usize = 131_072;
const MOST_ELEMENTS: usize = 512;
const MOST_ANSWERS: usize = 8_000;
/// A run with more is refused with number 5, which the original does not have.
const MOST_ACCESSES: usize = 8_000;

/// What the program prints for its input: the listing, or `bad`.
pub fn buslog(input: &[u8]) -> Vec<u8> {
    listing(input).unwrap_or_else(|| b"bad\n".into())
}

/// What is asked for besides the elements to write.
struct Asked {
    lsb: bool,
    budget: usize,
    read: usize,
    script: Vec<u32>,
}

/// The listing, unless the input is bad.
fn listing(input: &[u8]) -> Option<Vec<u8>> {
    if input.len() > LONGEST_INPUT {
        return None;
    }
    let text = str::from_utf8(input).ok()?;
    let (settings, text) = text.split_once('\n')?;
    let (write, text) = text.split_once('\n')?;
    let (read, text) = text.split_once('\n')?;
    // The newline of the last line may be missing.
    let script = text.strip_suffix('\n').unwrap_or(text);

    let (width, settings) = settings.split_once(' ')?;
    let (order, budget) = settings.split_once(' ')?;
    let asked = Asked {
        lsb: match order {
            "M" => false,
            "L" => true,
            _ => return None,
        },
        budget: decimal(budget)?,
        read: decimal(read).filter(|read| *read <= MOST_ELEMENTS)?,
        script: elements(script, MOST_ANSWERS)?,
    };
    match width {
        "8" => Some(exchange::<u8>(asked, &elements(write, MOST_ELEMENTS)?)),
        "16" => Some(exchange::<u16>(asked, &elements(write, MOST_ELEMENTS)?)),
        "32" => Some(exchange::<u32>(asked, &elements(write, MOST_ELEMENTS)?)),
        _ => None,
    }
}

/// A number of digits alone, below 2^32.
fn decimal(field: &str) -> Option<usize> {
    let digits = field.bytes().all(|byte| byte.is_ascii_digit());
    let number: u32 = field.parse().ok().filter(|_| digits)?;
    Some(number as usize)
}

/// A number of at most two digits for each byte of its type.
fn hexadecimal<W: TryFrom<u32>>(field: &str) -> Option<W> {
    if field.len() > 2 * size_of::<W>() {
        return None;
    }
    let digits = field.chars().map(|digit| digit.to_digit(16));
    let number = digits.reduce(|number, digit| Some(number? << 4 | digit?))??;
    W::try_from(number).ok()
}

/// The elements of a line, with single spaces between them.
fn elements<W: TryFrom<u32>>(line: &str, most: usize) -> Option<Vec<W>> {
    if line.is_empty() {
        return Some(vec![]);
    }
    let elements: Vec<W> = line.split(' ').map(hexadecimal).collect::<Option<_>>()?;
    (elements.len() <= most).then_some(elements)
}

/// Runs the exchange in mode 0 with chip select 0, and lists it.
fn exchange<W>(asked: Asked, write: &[W]) -> Vec<u8>
where
    W: Element + Default + Into<u32>,
{
    let mut read = vec![W::default(); asked.read];
    if asked.budget > MOST_ACCESSES {
        return print(&[], &read, [5, 0, 0]);
    }
    let driver = Driver {
        lsb: asked.lsb,
        ..Driver::default()
    };
    let (number, outcome, log) = until_too_deep(asked.budget, too_deep, |budget| {
        read.fill(W::default());
        let call = W::call(Transfer::ExchangeSeparate {
            read: &mut read,
            write,
        });
        let mut log = vec![0; 2 * budget];
        let outcome = run(call, driver, budget, &asked.script, &mut log);
        (outcome, log)
    });
    let number = number.expect("the original did not panic");
    let (accesses, answers) = (outcome.accesses, outcome.answers);
    let result = [number as usize, accesses, answers];
    print(&log[..2 * accesses], &read, result)
}

/// Lists the accesses, the elements read, and the result: number, accesses and
/// answers used.
fn print<W>(log: &[u32], read: &[W], [number, accesses, answers]: [usize; 3]) -> Vec<u8>
where
    W: Copy + Into<u32>,
{
    let digits = 2 * size_of::<W>();
    let longest = 14 * accesses + (digits + 1) * read.len() + 12;
    let mut out = Vec::with_capacity(longest);
    for access in log.chunks_exact(2) {
        let kind = if access[0] < 0x1000 { b'R' } else { b'W' };
        let [.., high, low] = hex(access[0]);
        let [a, b, c, d, e, f, g, h] = hex(access[1]);
        out.extend([kind, b' ', high, low, b' ', a, b, c, d, e, f, g, h, b'\n']);
    }
    for element in read {
        out.extend(&hex((*element).into())[8 - digits..]);
        out.push(b'\n');
    }
    out.extend(format!("{number} {accesses} {answers}\n").bytes());
    out
}

/// Eight digits, with capitals.
fn hex(number: u32) -> [u8; 8] {
    array::from_fn(|place| b"0123456789ABCDEF"[(number >> (28 - 4 * place)) as usize % 16])
}
