//! imxrt-hal's lpspi.rs over a script and a log in place of its registers. Of its text
//! two expressions are replaced, the capacities of `fifo_status` by the FIFOs' depths
//! (document 02, No. 5), and nothing else.
//!
//! [`run`] makes one call of the driver. A read takes the next answer of the
//! script; the log has two words for each access: the register's offset, plus
//! 0x1000 for a write, and the value. [`until_too_deep`] ends a run with 7, which the
//! original does not have. Commands, clocks and packing can also be had
//! by themselves. [`buslog`] makes a run from text and lists it. In [`bus`] two
//! drivers exchange words. [`run_published`] makes a call of lpspi.rs as it was
//! published.
//!
//! The source is not part of the repository: see `build.rs`. What it uses has
//! stand-ins: `hal`, `ral` and `iomuxc` here, other crates in `stand-ins`.
#![warn(missing_docs)]

pub mod bus;
mod buslog;
mod call;
mod exponent;

#[cfg(original)]
mod hal;
#[cfg(original)]
mod iomuxc;
#[cfg(not(original))]
#[allow(missing_docs)]
mod missing;
#[cfg(original)]
mod ral;
#[cfg(original)]
mod registers;

// The original: `mod lpspi`, and `mod published`.
#[cfg(original)]
include!(concat!(env!("OUT_DIR"), "/modules.rs"));

#[cfg(original)]
use hal::{AnyInstance, into_any, spin_on};

pub use buslog::buslog;
pub use call::{
    Call, ClockConfigs, Command, Direction, Driver, Element, Failure, FifoStatus, Outcome,
    Transfer, Value,
};
pub use exponent::{too_deep, until_too_deep};
#[cfg(original)]
pub use lpspi::run::run;
#[cfg(original)]
pub use lpspi::words::{
    clock_word, command_word, pack_word, pack_words, unpack_word, unpack_words,
};
#[cfg(not(original))]
pub use missing::{
    clock_word, command_word, pack_word, pack_words, run, run_published, unpack_word, unpack_words,
};
#[cfg(original)]
pub use published::run::run as run_published;

/// The path of the source.
pub const SOURCE: &str = env!("LPSPI_SOURCE");

/// Whether the source was there. If not, the functions panic.
pub const AVAILABLE: bool = cfg!(original);
