//! What the documents name exists.
//!
//! The documents are README.md, CONTRIBUTING.md and docs/*.md. Looked at are
//!
//! - each code span: a file or folder must be there, from the root or by the end of its path
//!   (`words/src/order.rt`); of all else every identifier must occur, as a whole word, in a file of the
//!   repository that is no document, or be the name of such a file;
//! - a law with its module (`WordLaws.unpack_at`), a name with its type (`Field::set`), a definition with
//!   its crate and file (words `Command` (`commanded`)), a function behind its path: they must be there;
//! - files and words in capitals outside of code spans, and the titles of examples of the program lpspi;
//! - each link, with its anchor.
//!
//! Blocks of code are left out; other tests run what BUSLOG, BUS and CALLS show. docs/CHANGES.md,
//! docs/DESIGN-PASS.md, docs/LOOK-BACK.md and docs/PORT.md are history and name what is gone: of them only the
//! links are looked at.

#[path = "common/cited.rs"]
mod cited;
#[path = "common/pages.rs"]
mod pages;
#[path = "common/sources.rs"]
mod sources;

use cited::{Repository, files, outside, read, root};
use pages::{identifiers, links, paragraphs, spans};
use sources::{code, sources};
use std::collections::{BTreeMap, BTreeSet};
use std::fs;

#[test]
fn what_is_named_exists() {
    let repository = Repository::new();
    let (mut names, mut together, mut paths, mut targets, mut titles) = (0, 0, 0, 0, 0);
    let (mut beyond, mut missing) = (BTreeSet::new(), Vec::new());
    for page in &repository.pages {
        let cited = repository.cited(page, &read(page));
        names += cited.names;
        together += cited.together;
        paths += cited.files;
        targets += cited.links;
        titles += cited.titles;
        beyond.extend(cited.outside);
        missing.extend(cited.missing);
    }
    println!(
        "{names} names, {together} in their place, {paths} files, {targets} links, {titles} titles"
    );
    assert!(missing.is_empty(), "\n{}", missing.join("\n"));
    // Fewer would mean that the pages are not read as they are written.
    assert!(names > 2_000 && together > 300 && paths > 200 && targets > 100 && titles > 30);
    let idle: Vec<_> = outside().filter(|name| !beyond.contains(*name)).collect();
    assert!(
        idle.is_empty(),
        "outside of the repository, but no page needs it: {idle:?}"
    );
}

#[test]
fn what_does_not_exist_is_seen() {
    let repository = Repository::new();
    let missing = |text: &str| repository.cited("docs/AUDIT.md", text).missing;
    for sound in [
        "`spread` in `crates/words/src/unpack.rt`; words `Command` (`commanded`)",
        "`WordLaws.unpack_at`, `Field::set`, `with_..`, `_u8`, `longer_*`, lpspi (\"513 bytes\")",
        "[AUDIT](AUDIT.md), [there](DECISIONS.md#the-gate), [README](../README.md)\n\n    `made_up`\n",
        "- `words/src/clock.rt`: `as_raw`\n\n```\n`made_up`\n```\n",
    ] {
        assert_eq!(missing(sound), [""; 0], "{sound}");
    }
    for (made_up, complaint) in [
        ("`no_such_function`", "no name no_such_function"),
        ("in `fn f(a: NoSuchType)`", "no name NoSuchType"),
        ("`no-such-law`", "no name no-such-law"),
        ("`no_such_..`", "no name no_such_"),
        ("`words/src/none.rt`", "no file words/src/none.rt"),
        ("see none.rs.", "no file none.rs"),
        ("docs/NONE.md", "no file docs/NONE.md"),
        ("in NOSUCHPAGE", "no name NOSUCHPAGE"),
        ("`WordLaws.as_raw`", "not in WordLaws: as_raw"),
        ("`Field::word_count`", "not in Field: word_count"),
        ("words `Agreement`", "not in words: Agreement"),
        (
            "words `Command` (`commanded`,\n`halted`)",
            "not in crates/words/specs/Command.antt: halted",
        ),
        ("machine `unpack.rt`", "not in machine: unpack.rt"),
        (
            "| a | `words/src/clock.rt`: `as_raw`, `flush` |",
            "not in words/src/clock.rt: flush",
        ),
        (
            "lpspi (\"no bytes\", \"no such title\")",
            "no example \"no such title\"",
        ),
        ("[a](NONE.md)", "no NONE.md to link to"),
        (
            "[a](AUDIT.md#no-such-part)",
            "no AUDIT.md#no-such-part to link to",
        ),
        ("[a](#no-such-part)", "no #no-such-part to link to"),
    ] {
        assert_eq!(
            missing(made_up),
            [format!("docs/AUDIT.md: {complaint}")],
            "{made_up}"
        );
    }
}

/// PROMISES has every public function, the methods of public traits among them.
#[test]
fn public_functions_are_on_promises() {
    let (mut named, mut beginnings) = (BTreeSet::new(), BTreeSet::new());
    for paragraph in paragraphs(&read("docs/PROMISES.md")) {
        for (word, behind) in spans(&paragraph).0.into_iter().flat_map(identifiers) {
            let open = behind.starts_with("..") || behind.starts_with('*');
            let names = if open { &mut beginnings } else { &mut named };
            names.insert(word.to_owned());
        }
    }
    let (mut seen, mut missing) = (0, Vec::new());
    for file in sources(&root().join("crates")) {
        let text = fs::read_to_string(&file).unwrap();
        let mut of_trait = false;
        for line in code(&text) {
            of_trait = line.starts_with("pub trait ") || (of_trait && !line.starts_with('}'));
            let Some((front, tail)) = line.trim_start().split_once("fn ") else {
                continue;
            };
            if front.starts_with("pub ") || of_trait {
                seen += 1;
                let name = identifiers(tail)[0].0;
                if !named.contains(name) && !beginnings.iter().any(|front| name.starts_with(front))
                {
                    missing.push(format!("{}: {name}", file.display()));
                }
            }
        }
    }
    assert!(seen > 100, "only {seen} public functions were found");
    assert!(
        missing.is_empty(),
        "not on PROMISES:\n{}",
        missing.join("\n")
    );
}

/// PROMISES has every edit, under how it is tried.
#[test]
fn edits_are_on_promises() {
    let page = read("docs/PROMISES.md");
    let all = files("");
    let edits = all.iter().filter_map(|path| path.strip_suffix(".edit"));
    let edits: Vec<_> = edits
        .map(|path| path.split('/').collect::<Vec<_>>())
        .collect();
    for (title, folders) in [
        ("Tried by the gate", ["crates", "must-fail"]),
        ("Tried by hand", ["tools", "edits"]),
    ] {
        let part = page
            .split(&format!("\n### {title}\n"))
            .nth(1)
            .expect("the part is there");
        let part = part.split("\n#").next().expect("a first part");
        let listed = paragraphs(part);
        let listed = listed
            .iter()
            .filter_map(|item| item.strip_prefix("- ")?.split_once("`:"));
        let listed: BTreeSet<_> = listed.map(|(name, _)| name.replace(" `", "/")).collect();
        let there = edits.iter().filter_map(|parts| match parts[..] {
            ["crates", name, "must-fail", edit] => Some((["crates", "must-fail"], name, edit)),
            ["tools", "edits", name, edit] => Some((["tools", "edits"], name, edit)),
            _ => None,
        });
        let there = there.filter(|(found, ..)| *found == folders);
        let there: BTreeSet<_> = there
            .map(|(_, name, edit)| format!("{name}/{edit}"))
            .collect();
        assert!(!there.is_empty());
        assert_eq!(listed, there, "{title}");
    }
}

/// The index of SENTENCES leads from each obligation to just the items that have its ID.
#[test]
fn the_index_of_sentences_is_right() {
    let page = read("docs/SENTENCES.md");
    let parts = page.split_once("\n## Index by obligation\n");
    let (items, index) = parts.expect("the index is there");
    let mut cited: BTreeMap<String, Vec<String>> = BTreeMap::new();
    for item in paragraphs(items) {
        let item = item
            .strip_prefix("- **")
            .and_then(|item| item.rsplit_once("** ("));
        let Some((title, ids)) = item else {
            continue;
        };
        for id in ids.trim_end_matches(')').split(", ") {
            let titles = cited.entry(id.to_owned()).or_default();
            titles.push(title.replace(['"', '\\'], ""));
        }
    }
    assert!(cited.len() > 50, "only {} obligations", cited.len());
    for line in paragraphs(index)
        .iter()
        .filter(|line| line.starts_with("- **"))
    {
        let (id, rest) = line[4..].split_once("**: ").expect("an obligation");
        let (_, rest) = links(rest);
        let beginnings: Vec<_> = rest.split('"').skip(1).step_by(2).collect();
        let titles = cited.remove(id).unwrap_or_default();
        let mut pairs = beginnings.iter().zip(&titles);
        let same = beginnings.len() == titles.len();
        assert!(
            same && pairs.all(|(beginning, title)| title.starts_with(beginning)),
            "{id}: {beginnings:?} {titles:?}"
        );
    }
    assert!(cited.is_empty(), "not in the index: {cited:?}");
}
