//! Where the original is, and whether it must be there. The build scripts of this
//! package and of the host go by it.

use std::env;
use std::path::{Path, PathBuf};

/// Names the source, if set.
pub const VARIABLE: &str = "LPSPI_ORIGINAL";

/// In the folder beside the repository.
const BESIDE_REPOSITORY: &str = "../../../shared/docs/src/src/common/lpspi.rs";

/// The path of the source. A relative one starts at the folder of this package.
pub fn source(package: &Path) -> PathBuf {
    println!("cargo::rerun-if-env-changed={VARIABLE}");
    let path = package.join(env::var_os(VARIABLE).unwrap_or(BESIDE_REPOSITORY.into()));
    println!("cargo::rerun-if-changed={}", path.display());
    path
}

/// Whether `CI` is `true`: then nothing that a test needs may be missing.
pub fn ci() -> bool {
    println!("cargo::rerun-if-env-changed=CI");
    env::var("CI").is_ok_and(|ci| ci == "true")
}
