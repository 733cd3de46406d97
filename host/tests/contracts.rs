//! Every public function of every library has a contract, and demands nothing of its caller. A public trait's methods are public functions.
//!
//! The prover checks what a contract says; that there is one, and that no public one has a `requires`, is read off the sources here.

#[path = "common/sources.rs"]
mod sources;

use sources::{code, sources};
use std::fs;
use std::path::Path;

/// Whether a line has the brace of a function's body: one that no clause opens. So many braces of clauses are open before the line,
/// and then behind it.
fn opens_body(line: &str, open: &mut usize) -> bool {
    let mut head = String::new();
    for c in line.chars() {
        match c {
            '{' if *open == 0 && !begins_clause(&head) => return true,
            '{' => *open += 1,
            '}' => *open -= 1,
            _ if *open == 0 => head.push(c),
            _ => head.clear(),
        }
    }
    false
}

/// Whether a clause begins so, as `requires {` and `ensures low {` do before the brace.
fn begins_clause(head: &str) -> bool {
    let first = head
        .split(|c: char| !c.is_alphanumeric())
        .find(|word| !word.is_empty());
    first.is_some_and(|word| ["requires", "ensures", "ghost"].contains(&word))
}

/// The signature and contract of each public function: what stands before its body, of a method of a public trait up to its end.
fn public_functions(text: &str) -> Vec<String> {
    let lines = code(text);
    let mut of_trait = false;
    let mut functions = Vec::new();
    for (i, line) in lines.iter().enumerate() {
        of_trait = line.starts_with("pub trait ") || (of_trait && !line.starts_with('}'));
        let public = line.trim_start().starts_with("pub ") || of_trait;
        if public && format!(" {line}").contains(" fn ") {
            let mut open = 0;
            let ends = |line: &str| of_trait && line.ends_with(';');
            let end = (i..lines.len())
                .find(|&j| opens_body(lines[j], &mut open) || ends(lines[j]))
                .expect("a body");
            let last = end + usize::from(ends(lines[end]));
            functions.push(lines[i..last].join("\n"));
        }
    }
    functions
}

#[test]
fn public_functions_have_contracts() {
    let crates = Path::new(env!("CARGO_MANIFEST_DIR")).join("../crates");
    let mut without = Vec::new();
    let mut seen = 0;
    for entry in fs::read_dir(&crates).unwrap() {
        let source = entry.unwrap().path().join("src");
        if !source.join("lib.rt").exists() {
            continue;
        }
        let before = seen;
        for file in sources(&source) {
            for function in public_functions(&fs::read_to_string(&file).unwrap()) {
                seen += 1;
                assert!(
                    function.contains("ensures"),
                    "{}: no contract: {function}",
                    file.display()
                );
                assert!(
                    !function.contains("requires"),
                    "{}: a demand on the caller: {function}",
                    file.display()
                );
            }
        }
        if seen == before {
            without.push(source);
        }
    }
    assert!(seen > 100, "only {seen} public functions were found");
    // The bus as definitions, what a transfer costs, and the proved examples have no function.
    without.sort();
    let named = ["agreement", "bill", "cases"].map(|name| crates.join(name).join("src"));
    assert_eq!(without, named);
}

#[test]
fn a_missing_contract_is_seen() {
    let found = public_functions(
        "pub fn f(a: u8) -> u8\n{\n    a\n}\n\nfn g() {\n}\n\npub extern \"C\" fn h(a: u8)\n    requires { a ≡ 0 }\n{\n}\n",
    );
    assert_eq!(
        found,
        [
            "pub fn f(a: u8) -> u8",
            "pub extern \"C\" fn h(a: u8)\n    requires { a ≡ 0 }"
        ]
    );
}

#[test]
fn a_method_of_a_public_trait_is_seen() {
    let methods = [
        "    fn f() -> u8\n        ensures { result ≡ 1 };",
        "    fn g(a: u8) -> u8;",
    ];
    let text = |head: &str| format!("{head} T: Copy {{\n{}\n}}\n", methods.join("\n\n"));
    assert_eq!(public_functions(&text("pub trait")), methods);
    assert_eq!(public_functions(&text("trait")), [""; 0]);
}

/// A clause may end a line with a brace of its own.
#[test]
fn a_contract_ends_at_the_body() {
    let contract = "    pub fn f(self) -> Self\n        requires low { self.0 ≤ 1 }\n        ensures { result ≡ word (record {\n          a = 1;\n        }) self.0 }";
    assert_eq!(
        public_functions(&format!("{contract}\n    {{\n        self\n    }}\n")),
        [contract]
    );
}
