//! Finds the original and hands it to the compiler twice: with the FIFOs' true depths
//! in place of its two capacities (`lpspi`, which document 02, No. 5 makes the
//! reference), and as it was published (`published`). Both have some lines more.
//!
//! The source is the file that `LPSPI_ORIGINAL` names (a relative path starts at
//! this package), otherwise the one in `../shared` beside the repository. The lines
//! declare child modules: only there can the private functions be called. They also
//! give the doc comment that ends the published file an item to belong to.
//!
//! Without the source the crate is built with no driver, but not where `CI` is
//! `true`. A source with another sum than the pinned one is refused, unless
//! `LPSPI_ORIGINAL_CHANGED` is `1`; that does not count where `CI` is `true`.

#[path = "build/depths.rs"]
mod depths;
#[path = "build/pinned.rs"]
mod pinned;
#[path = "build/place.rs"]
mod place;

use std::io::ErrorKind;
use std::path::{Path, PathBuf};
use std::{env, fs, io};

/// Where it is `1`, a changed source is built.
const CHANGED: &str = "LPSPI_ORIGINAL_CHANGED";

fn main() {
    println!("cargo::rustc-check-cfg=cfg(original)");

    let package = PathBuf::from(env::var_os("CARGO_MANIFEST_DIR").expect("set by cargo"));
    let source = place::source(&package);
    println!("cargo::rustc-env=LPSPI_SOURCE={}", source.display());

    let out = PathBuf::from(env::var_os("OUT_DIR").expect("set by cargo"));
    match read(&source) {
        Ok(Some(text)) => match depths::with_depths(&text) {
            Ok(deep) => {
                write_modules(text, deep, &package.join("src"), &out).expect("OUT_DIR is writable");
                println!("cargo::rustc-cfg=original");
            }
            Err(message) => println!("cargo::error={message}"),
        },
        Ok(None) => {}
        Err(message) => println!("cargo::error={message}"),
    }
}

/// The text of the source, or none where it is missing and need not be there.
fn read(source: &Path) -> Result<Option<String>, String> {
    println!("cargo::rerun-if-env-changed={CHANGED}");
    let ci = place::ci();
    let text = match fs::read_to_string(source) {
        Err(error) if error.kind() == ErrorKind::NotFound && !ci => return Ok(None),
        Err(error) => {
            let (path, variable) = (source.display(), place::VARIABLE);
            return Err(format!(
                "the original, {path}: {error}; set {variable} to the path of lpspi.rs"
            ));
        }
        Ok(text) => text,
    };
    if ci || env::var(CHANGED).as_deref() != Ok("1") {
        pinned::check(source, text.as_bytes())?;
    }
    Ok(Some(text))
}

/// Writes both, and `modules.rs` to include: an included file may not begin with inner
/// doc comments, as the original does, but a module's file may.
fn write_modules(published: String, deep: String, src: &Path, out: &Path) -> io::Result<()> {
    let modules: [(&str, String, &[&str]); 2] = [
        ("lpspi", deep, &["calls", "run", "words"]),
        ("published", published, &["calls", "run"]),
    ];
    let mut included = String::new();
    for (module, mut text, children) in modules {
        for child in children {
            let path = src.join(child).with_extension("rs");
            text += &format!("#[path = {path:?}] pub(crate) mod {child};\n");
        }
        fs::write(out.join(module).with_extension("rs"), text)?;
        included += &format!("#[allow(dead_code)]\nmod {module};\n");
    }
    fs::write(out.join("modules.rs"), included)
}
