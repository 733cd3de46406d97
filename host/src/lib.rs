//! Rust wrappers over the proved LPSPI core: commands, clocks, byte packing, runs,
//! `buslog` and trials of two boards on one bus. What `lpspi.rs` names has its name here.
//!
//! The core is the static library `libc_api.a`; see `build.rs`.
//!
//! A run is a call of the driver over a script of answers, with budget and log.
//! A read takes the next answer of the script. The log has two words for each
//! access: the register's offset, plus 0x1000 for a write, and the value. It
//! must have room for the whole budget; places past the accesses made are kept.

#[macro_use]
mod ffi;

mod calls;
mod clock;
mod disabled;
mod driver;
mod error;
mod pack;
pub mod raw;
mod settings;
mod status;
mod transaction;
mod transfers;
mod trial;
mod values;

pub use calls::{
    clear_fifo, clear_status, enqueue_data, enqueue_transaction, init, recover_from_error,
    set_enable, soft_reset,
};
pub use clock::ClockConfigs;
pub use disabled::{
    set_chip_select_polarity, set_clock_configs, set_clock_hz, set_peripheral_enable,
    set_sample_point,
};
pub use driver::{CcrCache, Lpspi, Run};
pub use error::{Direction, Error, LpspiError};
pub use pack::{pack_u8, pack_words_u8, unpack_u8, unpack_words_u8};
pub use raw::Event;
pub use settings::{
    BitOrder, MODE_0, MODE_1, MODE_2, MODE_3, Mode, Pcs, PcsPolarity, Phase, Polarity, SamplePoint,
};
pub use status::Status;
pub use transaction::Transaction;
pub use transfers::{Element, exchange, exchange_separate, flush, read_no_write, write_no_read};
pub use trial::{Board, EndState, Trial, trial};
pub use values::{
    FifoStatus, fifo_status, is_enabled, read_data, set_watermark, status, watermark,
};

/// What the program `buslog` prints for its input: the listing of an exchange, or
/// `bad`. See docs/BUSLOG.md.
pub fn buslog(input: &[u8]) -> Vec<u8> {
    let mut out = vec![0; raw::BUSLOG_OUTPUT];
    let room = out.first_chunk_mut().expect("it is as long");
    let len = raw::buslog(input, room);
    out.truncate(len);
    out
}
