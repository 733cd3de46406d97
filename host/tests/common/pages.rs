//! A page of Markdown, and the words of a text.

use std::collections::BTreeSet;

pub fn is_word(c: char) -> bool {
    c.is_ascii_alphanumeric() || c == '_'
}

/// The identifiers of a text, each with all that stands behind it. A hyphen between letters belongs to
/// the identifier, as in the name of a law.
pub fn identifiers(text: &str) -> Vec<(&str, &str)> {
    let mut found = Vec::new();
    let mut rest = text;
    while let Some(start) = rest.find(is_word) {
        let word = &rest[start..];
        let mut end = 0;
        loop {
            end += word[end..]
                .find(|c| !is_word(c))
                .unwrap_or(word.len() - end);
            let hyphen = word[end..].strip_prefix('-');
            if !hyphen.is_some_and(|tail| tail.starts_with(is_word)) {
                break;
            }
            end += 1;
        }
        if !word.starts_with(|c: char| c.is_ascii_digit()) {
            found.push((&word[..end], &word[end..]));
        }
        rest = &word[end..];
    }
    found
}

/// The lines that are in no fenced block.
fn unfenced(text: &str) -> Vec<&str> {
    let mut fenced = false;
    let mut lines = Vec::new();
    for line in text.lines() {
        if line.starts_with("```") {
            fenced = !fenced;
        } else if !fenced {
            lines.push(line);
        }
    }
    assert!(!fenced, "a block does not end");
    lines
}

fn is_item(line: &str) -> bool {
    let line = line.trim_start();
    let digits = line.trim_start_matches(|c: char| c.is_ascii_digit());
    line.starts_with("- ") || (digits.len() < line.len() && digits.starts_with(". "))
}

/// The paragraphs, list items, table rows and headings of a page, each on one line, without blocks of
/// code.
pub fn paragraphs(text: &str) -> Vec<String> {
    let mut found: Vec<String> = Vec::new();
    // Whether a new one begins here, and whether the last one is a list item.
    let (mut fresh, mut item) = (true, false);
    for line in unfenced(text) {
        let alone = line.starts_with('|') || line.starts_with('#');
        if line.is_empty() {
            fresh = true;
        } else if line.starts_with("    ") && !is_item(line) && fresh && !item {
            // A block of code.
        } else if fresh || alone || is_item(line) {
            item = is_item(line) || (item && line.starts_with(' '));
            fresh = alone;
            found.push(line.trim().to_owned());
        } else {
            let last = found.last_mut().expect("it has begun");
            last.push(' ');
            last.push_str(line.trim());
        }
    }
    found
}

/// The anchors that are made from the headings of a page.
pub fn anchors(text: &str) -> BTreeSet<String> {
    let lines = unfenced(text).into_iter();
    let headings = lines.filter(|line| line.starts_with('#'));
    let anchor = |line: &str| {
        let title = line.trim_start_matches('#').trim().to_lowercase();
        let kept = title.chars();
        let kept = kept.filter(|c| c.is_alphanumeric() || "-_ ".contains(*c));
        kept.map(|c| if c == ' ' { '-' } else { c }).collect()
    };
    headings.map(anchor).collect()
}

/// What stands in code spans, and the text between them.
pub fn spans(paragraph: &str) -> (Vec<&str>, Vec<&str>) {
    let pieces: Vec<_> = paragraph.split('`').collect();
    assert!(pieces.len() % 2 == 1, "a code span has no end: {paragraph}");
    let every_second = |from| pieces.iter().skip(from).step_by(2).copied().collect();
    (every_second(1), every_second(0))
}

/// The targets of the links of a paragraph, and the paragraph without them.
pub fn links(paragraph: &str) -> (Vec<&str>, String) {
    let mut pieces = paragraph.split("](");
    let mut rest = pieces.next().expect("a first piece").to_owned();
    let mut targets = Vec::new();
    for piece in pieces {
        let (target, tail) = piece.split_once(')').expect("a link ends");
        targets.push(target);
        rest.push(']');
        rest.push_str(tail);
    }
    (targets, rest)
}
