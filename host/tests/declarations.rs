//! The host declares each C function as `crates/c_api` has it.

#[path = "common/sources.rs"]
mod sources;

use sources::{code, sources};
use std::collections::BTreeMap;
use std::fs;
use std::path::Path;

/// The parameters and the result of each function.
type Signatures = BTreeMap<String, String>;

/// Without white space, and without the comma behind the last parameter.
fn plain(text: &str) -> String {
    let text: String = text.split_whitespace().collect();
    text.replace(",)", ")")
}

/// What the crate exports.
fn exported(text: &str) -> Signatures {
    let functions = text.split("pub extern \"C\" fn ").skip(1);
    let signatures = functions.map(|function| {
        let end = function.find("ensures").expect("a contract");
        let (name, rest) = function[..end].split_once('(').expect("parameters");
        (name.into(), plain(rest))
    });
    signatures.collect()
}

/// What `raw` declares: a function, or one for each element `W`.
fn declared(text: &str) -> Signatures {
    let mut signatures = Signatures::new();
    for declaration in text.split("\n    fn ").skip(1) {
        let (_, rest) = declaration.split_once(" = ").expect("a C function");
        let (declaration, _) = rest.split_once(";\n").expect("an end");
        let (names, rest) = declaration.split_once('(').expect("parameters");
        let signature = plain(rest).replace("BUSLOG_OUTPUT", "OUTPUT");
        for name in names.trim_matches(['[', ']']).split(',') {
            let (name, element) = name.split_once(" of ").unwrap_or((name, "W"));
            let signature = signature.replace("[W]", &format!("[{}]", element.trim()));
            signatures.insert(name.trim().into(), signature);
        }
    }
    signatures
}

#[test]
fn each_function_as_it_is_exported() {
    let host = Path::new(env!("CARGO_MANIFEST_DIR"));
    let files = sources(&host.join("../crates/c_api/src"));
    let texts = files.iter().map(|file| {
        let text = fs::read_to_string(file).unwrap();
        code(&text).join("\n")
    });
    let exported = exported(&texts.collect::<Vec<_>>().join("\n"));
    assert!(exported.len() >= 18, "only {} functions", exported.len());
    let raw = fs::read_to_string(host.join("src/raw.rs")).unwrap();
    assert_eq!(declared(&raw), exported);
}

#[test]
fn a_difference_is_seen() {
    let exported =
        exported("pub extern \"C\" fn lpspi_f(a: &[u16], n: &mut u32) -> u32\n    ensures {}");
    let of = |parameters: &str| {
        declared(&format!(
            "\n    fn f = [lpspi_f of u16](\n        {parameters},\n    ) -> u32;\n"
        ))
    };
    assert_eq!(of("a: &[W], n: &mut u32"), exported);
    assert_ne!(of("a: &mut [W], n: &mut u32"), exported);
    assert_ne!(of("n: &mut u32, a: &[W]"), exported);
}
