//! What the documents cite, held against what the repository has.

use super::pages::{anchors, identifiers, is_word, links, paragraphs, spans};
use std::collections::{BTreeMap, BTreeSet};
use std::fs;
use std::path::{Path, PathBuf};

/// What is cited and stands outside of the repository, and why.
pub const OUTSIDE: &[(&str, &str)] = &[
    (
        "lpspi.rs, and its functions and types that stay out or have another name here",
        "lpspi.rs src/common/lpspi.rs Interrupts array_len clear_fifos enable_dma_receive interrupts \
         next_read next_write provider read_ccr set_interrupts spin_receive spin_transmit tdr with_pins without_pins",
    ),
    (
        "fields of the manual that document 01 does not name",
        "NOSTALL PRESCALE",
    ),
    (
        "the kit: its name, programs and commands, words of its verdict and of its proofs, C functions of its std",
        "LLVM __xpg_strerror_r axioms dac8208d650f15bf libraries-built nat rattle-kit-13f rattle_errno returns-in-Tcr-BYSW \
         statements tidy trusted",
    ),
    (
        "other programs, languages and machines",
        "Cllvm-args EPYC RUSTFLAGS bswap diff disassemble inline-threshold memcpy memset movups \
         perf size_of_val strace uint32_t writeln",
    ),
    ("what is built", "libc_api.a"),
    ("letters that stand for any name", "MODULE Q"),
];

/// How paths begin that lead out of the tree, to the folder beside the repository.
const BESIDE: &str = "../shared";

/// What is built stands in folders of that name.
const BUILT: &str = "/out/";

/// These pages are history, and name what is gone.
const HISTORY: [&str; 4] = [
    "docs/CHANGES.md",
    "docs/DESIGN-PASS.md",
    "docs/LOOK-BACK.md",
    "docs/PORT.md",
];

/// These files name what does not exist.
const NO_SOURCE: [&str; 4] = [
    "host/tests/documents.rs",
    "host/tests/common/cited.rs",
    "tools/respell.py",
    "tools/respelled.tsv",
];

pub fn outside() -> impl Iterator<Item = &'static str> {
    OUTSIDE
        .iter()
        .flat_map(|(_, names)| names.split_whitespace())
}

pub fn root() -> PathBuf {
    Path::new(env!("CARGO_MANIFEST_DIR")).join("..")
}

pub fn read(path: &str) -> String {
    fs::read_to_string(root().join(path)).unwrap_or_else(|error| panic!("{path}: {error}"))
}

/// All files below a folder by their paths from the root, but for what is built and what git keeps.
pub fn files(folder: &str) -> Vec<String> {
    let mut found = Vec::new();
    for entry in fs::read_dir(root().join(folder)).unwrap() {
        let entry = entry.unwrap();
        let name = entry.file_name().into_string().unwrap();
        if ["target", "out", ".git"].contains(&&name[..]) {
            continue;
        }
        let path = format!("{folder}{name}");
        if entry.file_type().unwrap().is_dir() {
            found.extend(files(&format!("{path}/")));
        } else {
            found.push(path);
        }
    }
    found.sort();
    found
}

fn is_file(piece: &str) -> bool {
    let ending = piece.rsplit_once('.').map_or("", |(_, ending)| ending);
    let files = ["md", "rs", "rt", "antt", "py", "sh", "txt", "edit", "a"];
    piece.contains('/') || files.contains(&ending)
}

/// Whether a part of a path fits a pattern, in which `*`, CRATE and NAME stand for anything.
fn fits(part: &str, pattern: &str) -> bool {
    let pattern = pattern.replace("CRATE", "*").replace("NAME", "*");
    match pattern.split_once('*') {
        None => part == pattern,
        Some((front, back)) => {
            let long_enough = part.len() >= front.len() + back.len();
            long_enough && part.starts_with(front) && part.ends_with(back)
        }
    }
}

pub struct Repository {
    /// Files and folders.
    paths: BTreeSet<String>,
    /// The words of each file that is no document.
    words: BTreeMap<String, BTreeSet<String>>,
    /// These words, and the names of files and folders.
    names: BTreeSet<String>,
    /// The files of code that declare a type.
    types: BTreeMap<String, BTreeSet<String>>,
    crates: Vec<String>,
    /// The titles of the examples of the program `lpspi`.
    titles: Vec<String>,
    pub pages: Vec<String>,
}

impl Repository {
    pub fn new() -> Self {
        let lines = |path: &str| read(path).lines().map(str::to_owned).collect::<Vec<_>>();
        let crates = lines("crates.txt").into_iter();
        let crates = crates.filter_map(|line| Some(line.split_once(':')?.0.to_owned()));
        let titles = lines("crates/lpspi/stdin").into_iter();
        let mut new = Self {
            paths: BTreeSet::new(),
            words: BTreeMap::new(),
            names: BTreeSet::new(),
            types: BTreeMap::new(),
            crates: crates.filter(|name| name.chars().all(is_word)).collect(),
            titles: titles.filter(|line| line.starts_with('#')).collect(),
            pages: Vec::new(),
        };
        for path in files("") {
            new.add(path);
        }
        assert!(new.pages.len() > 10 && new.words.len() > 500 && new.crates.len() > 10);
        new
    }

    fn add(&mut self, path: String) {
        for (end, _) in path.match_indices('/') {
            self.paths.insert(path[..end].to_owned());
        }
        for part in path.split('/') {
            let stem = part.split('.').next().expect("a first part");
            self.names.extend([part.to_owned(), stem.to_owned()]);
        }
        self.paths.insert(path.clone());
        if path.ends_with(".md") {
            self.pages.push(path);
            return;
        }
        let text = fs::read_to_string(root().join(&path)).unwrap_or_default();
        if NO_SOURCE.contains(&&path[..]) {
            return;
        }
        let found: Vec<_> = identifiers(&text)
            .into_iter()
            .map(|(word, _)| word)
            .collect();
        if path.ends_with(".rt") || path.ends_with(".rs") {
            for pair in found.windows(2) {
                let capital = pair[1].starts_with(|c: char| c.is_ascii_uppercase());
                if capital && ["enum", "struct", "impl", "trait"].contains(&pair[0]) {
                    let files = self.types.entry(pair[1].to_owned()).or_default();
                    files.insert(path.clone());
                }
            }
        }
        // Of a name with hyphens each part is a word too.
        let parts = found.iter().flat_map(|word| word.split('-'));
        let words: BTreeSet<_> = found
            .iter()
            .copied()
            .chain(parts)
            .map(str::to_owned)
            .collect();
        self.names.extend(words.iter().cloned());
        self.words.insert(path, words);
    }

    /// The paths that end so.
    fn ending(&self, path: &str) -> impl Iterator<Item = &String> {
        let path = path.trim_start_matches("./").trim_end_matches('/');
        let wanted: Vec<_> = path.rsplit('/').map(str::to_owned).collect();
        self.paths.iter().filter(move |found| {
            let parts: Vec<_> = found.rsplit('/').collect();
            let mut pairs = parts.iter().zip(&wanted);
            parts.len() >= wanted.len() && pairs.all(|(part, pattern)| fits(part, pattern))
        })
    }

    fn has(&self, path: &str, word: &str) -> bool {
        self.words
            .get(path)
            .is_some_and(|words| words.contains(word))
    }

    /// What a page cites. The text is that of the page, or one that might be.
    pub fn cited<'a>(&'a self, page: &'a str, text: &str) -> Cited<'a> {
        let mut cited = Cited::new(self, page);
        for paragraph in paragraphs(text) {
            let (targets, paragraph) = links(&paragraph);
            for target in targets {
                cited.link(target, text);
            }
            if !HISTORY.contains(&page) {
                cited.paragraph(&paragraph);
            }
        }
        cited
    }
}

/// What a page was found to cite: how much of each kind, what of it is outside, and what is missing.
pub struct Cited<'a> {
    repository: &'a Repository,
    page: &'a str,
    pub names: usize,
    pub together: usize,
    pub files: usize,
    pub links: usize,
    pub titles: usize,
    pub outside: BTreeSet<String>,
    pub missing: Vec<String>,
}

impl<'a> Cited<'a> {
    fn new(repository: &'a Repository, page: &'a str) -> Self {
        Self {
            repository,
            page,
            names: 0,
            together: 0,
            files: 0,
            links: 0,
            titles: 0,
            outside: BTreeSet::new(),
            missing: Vec::new(),
        }
    }

    fn demand(&mut self, there: bool, complaint: &str) {
        if !there {
            self.missing.push(format!("{}: {complaint}", self.page));
        }
    }

    fn is_outside(&mut self, name: &str) -> bool {
        let is_outside = outside().any(|other| other == name);
        if is_outside {
            self.outside.insert(name.to_owned());
        }
        is_outside
    }

    fn link(&mut self, target: &str, text: &str) {
        if target.starts_with("http") {
            return;
        }
        self.links += 1;
        let (path, anchor) = target.split_once('#').unwrap_or((target, ""));
        let path = match (path.strip_prefix("../"), self.page.split_once('/')) {
            _ if path.is_empty() => self.page.to_owned(),
            (Some(path), Some(_)) => path.to_owned(),
            (_, None) => path.to_owned(),
            (None, Some((folder, _))) => format!("{folder}/{path}"),
        };
        let has_anchor = || match path == self.page {
            true => anchors(text).contains(anchor),
            false => anchors(&read(&path)).contains(anchor),
        };
        let there = self.repository.paths.contains(&path) && (anchor.is_empty() || has_anchor());
        self.demand(there, &format!("no {target} to link to"));
    }

    fn file(&mut self, path: &str) {
        self.files += 1;
        let beside = path.starts_with(BESIDE) || path.contains(BUILT);
        // An edit may be named by crate and name.
        let mut ends = [path.to_owned(), format!("{path}.edit")].into_iter();
        let there = ends.any(|end| self.repository.ending(&end).next().is_some());
        let there = there || beside || self.is_outside(path);
        self.demand(there, &format!("no file {path}"));
    }

    /// `with_..` and `longer_*` stand for names that begin so, `_u8` for those that end so.
    fn name(&mut self, word: &str, behind: &str) {
        self.names += 1;
        let names = &self.repository.names;
        let mut others = names.iter().filter(|name| *name != word);
        let open = ["..", "*", "-.."].iter().any(|end| behind.starts_with(end));
        let there = names.contains(word)
            || (open && others.any(|name| name.starts_with(word)))
            || (word.starts_with('_') && others.any(|name| name.ends_with(word)));
        let there = there || self.is_outside(word);
        self.demand(there, &format!("no name {word}"));
    }

    /// What must occur in one place.
    fn place(&mut self, there: bool, place: &str, word: &str) {
        self.together += 1;
        self.demand(there, &format!("not in {place}: {word}"));
    }

    /// The names of a code span, and what they belong to: `Type::name`, `Laws.law`.
    fn span(&mut self, span: &str) {
        let repository = self.repository;
        for piece in span.split(' ').filter(|piece| piece.contains(is_word)) {
            if is_file(piece) {
                self.file(piece);
                continue;
            }
            for (word, behind) in identifiers(piece) {
                self.name(word, behind);
                let member = behind.strip_prefix("::").map(identifiers);
                let member = member.and_then(|names| names.first().copied());
                let member = member.filter(|(_, behind)| !behind.starts_with(".."));
                if let (Some((member, _)), Some(files)) = (member, repository.types.get(word)) {
                    let there = files.iter().any(|path| repository.has(path, member));
                    self.place(there, word, member);
                }
            }
        }
        let whole = |name: &str| {
            identifiers(name)
                .first()
                .is_some_and(|(word, _)| *word == name)
        };
        if let Some((module, law)) = span.split_once('.').filter(|_| !is_file(span))
            && module.starts_with(|c: char| c.is_ascii_uppercase())
            && whole(module)
            && whole(law)
        {
            let file = format!("{module}.antt");
            let mut files = repository.ending(&file);
            let there = files.any(|path| repository.has(path, law));
            self.place(there, module, law);
        }
    }

    /// A crate and its file before names, as in: words `Command` (`commanded`, `setFlag`); or a path
    /// before names: `words/src/clock.rt`: `as_raw`.
    fn places(&mut self, paragraph: &str) {
        let repository = self.repository;
        let pieces: Vec<_> = paragraph.split('`').collect();
        for at in (1..pieces.len()).step_by(2) {
            // The names that follow in a row.
            let row = |open: &str| {
                let joined =
                    |next: &usize| pieces[*next] == if *next == at + 1 { open } else { ", " };
                let row = (at + 1..pieces.len() - 1).step_by(2).take_while(joined);
                let names: Vec<_> = row.flat_map(|next| identifiers(pieces[next + 1])).collect();
                names
                    .into_iter()
                    .filter(|(_, behind)| !behind.starts_with(".."))
            };
            let span = pieces[at];
            let before = pieces[at - 1].strip_suffix(' ').unwrap_or("");
            let name = before.rsplit(|c| !is_word(c)).next().unwrap_or("");
            let of_crate = repository.crates.iter().any(|other| other == name);
            let stem = span.strip_suffix(".antt").unwrap_or(span);
            let capital = stem.starts_with(|c: char| c.is_ascii_uppercase());
            if of_crate && capital && stem.chars().all(is_word) {
                // A file of definitions or laws, or a type.
                let folder = format!("crates/{name}/");
                let mut of_it = repository
                    .paths
                    .iter()
                    .filter(|path| path.starts_with(&folder));
                let file = format!("/{stem}.antt");
                let there = of_it.any(|path| path.ends_with(&file) || repository.has(path, stem));
                self.place(there, name, stem);
                let file = format!("{folder}specs{file}");
                for (word, _) in row(" (").filter(|_| repository.paths.contains(&file)) {
                    self.place(repository.has(&file, word), &file, word);
                }
            }
            if span.ends_with(".rt") {
                let file = format!("crates/{name}/src/{span}");
                if of_crate {
                    self.place(repository.paths.contains(&file), name, span);
                }
                for (word, _) in row(": ") {
                    let there = repository
                        .ending(span)
                        .any(|path| repository.has(path, word));
                    self.place(there, span, word);
                }
            }
        }
    }

    /// The titles behind the program's name: lpspi "a", "b" or lpspi ("a", "b").
    fn examples(&mut self, plain: &str) {
        for place in plain.split("lpspi ").skip(1) {
            let mut rest = place.strip_prefix('(').unwrap_or(place);
            while let Some((title, tail)) =
                rest.strip_prefix('"').and_then(|rest| rest.split_once('"'))
            {
                self.titles += 1;
                let title = title.trim_end_matches(" ..");
                let there = self
                    .repository
                    .titles
                    .iter()
                    .any(|line| line.contains(title));
                self.demand(there, &format!("no example \"{title}\""));
                rest = tail.trim_start_matches([',', ' ', '.']);
            }
        }
    }

    fn paragraph(&mut self, paragraph: &str) {
        let (inside, between) = spans(paragraph);
        for span in inside {
            self.span(span);
        }
        self.places(paragraph);
        self.examples(&between.concat());
        for piece in between.iter().flat_map(|text| text.split(' ')) {
            let piece = piece.trim_matches(|c| !is_word(c)).trim_end_matches("'s");
            let capitals = piece.chars().all(|c| c.is_ascii_uppercase() || c == '_');
            if piece.contains('.') && is_file(piece) {
                self.file(piece);
            } else if piece.len() > 3 && capitals {
                self.name(piece, "");
            }
        }
    }
}
