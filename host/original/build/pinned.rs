//! Which file the original is.

pub mod sha256;

use std::path::Path;

/// The SHA-256 of `src/common/lpspi.rs` of imxrt-hal at revision ce8248d5f7.
pub const SUM: &str = "e8b29ee312ae7e23195a20956530f7c7311ed19305bfc91786085cdf4d04c8d9";

/// Says what is wrong where a text is not that of the original.
pub fn check(path: &Path, text: &[u8]) -> Result<(), String> {
    let found = sha256::hex(text);
    if found == SUM {
        return Ok(());
    }
    let path = path.display();
    Err(format!(
        "{path} is not the original lpspi.rs: expected SHA-256 {SUM}, found {found}"
    ))
}
