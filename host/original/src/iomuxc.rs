//! Stands in for imxrt-iomuxc: pins, which the original configures and does not keep.

/// Constants as types.
pub mod consts {
    /// A module's number.
    pub struct Const<const N: u8>;
}

/// Pins of the LPSPI.
pub mod lpspi {
    /// Serial data out.
    pub enum Sdo {}
    /// Serial data in.
    pub enum Sdi {}
    /// Serial clock.
    pub enum Sck {}

    /// A pin that can carry a signal of a module.
    pub trait Pin {
        type Module;
        type Signal;
    }

    /// Configures a pin.
    pub fn prepare<P: Pin>(_: &mut P) {}
}
