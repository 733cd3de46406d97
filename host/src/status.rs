//! The status flags.

use std::ops::{BitAnd, BitOr};

/// Flags of the register SR.
#[derive(Debug, Clone, Copy, PartialEq, Eq, Default)]
pub struct Status(u32);

impl Status {
    /// Module busy.
    pub const BUSY: Self = Self(1 << 24);
    /// Data match. This and the next five are cleared by writing 1.
    pub const DATA_MATCH: Self = Self(1 << 13);
    /// Receive error: the receive FIFO overflowed.
    pub const RECEIVE_ERROR: Self = Self(1 << 12);
    /// Transmit error: the transmit FIFO ran empty.
    pub const TRANSMIT_ERROR: Self = Self(1 << 11);
    /// Transfer complete.
    pub const TRANSFER_COMPLETE: Self = Self(1 << 10);
    /// Frame complete.
    pub const FRAME_COMPLETE: Self = Self(1 << 9);
    /// Word complete.
    pub const WORD_COMPLETE: Self = Self(1 << 8);
    /// Receive data: more words in the receive FIFO than the watermark.
    pub const RECEIVE_DATA: Self = Self(1 << 1);
    /// Transmit data: no more words in the transmit FIFO than the watermark.
    pub const TRANSMIT_DATA: Self = Self(1 << 0);

    /// No flag.
    #[inline]
    pub const fn empty() -> Self {
        Self(0)
    }

    /// All flags.
    #[inline]
    pub const fn all() -> Self {
        Self::BUSY
            .union(Self::DATA_MATCH)
            .union(Self::RECEIVE_ERROR)
            .union(Self::TRANSMIT_ERROR)
            .union(Self::TRANSFER_COMPLETE)
            .union(Self::FRAME_COMPLETE)
            .union(Self::WORD_COMPLETE)
            .union(Self::RECEIVE_DATA)
            .union(Self::TRANSMIT_DATA)
    }

    /// The flags of a word, without the bits that have no name.
    #[inline]
    pub const fn from_bits_truncate(bits: u32) -> Self {
        Self(bits & Self::all().0)
    }

    /// The flags of a word, with the bits that have no name.
    #[inline]
    pub const fn from_bits_retain(bits: u32) -> Self {
        Self(bits)
    }

    /// The word of the flags.
    #[inline]
    pub const fn bits(self) -> u32 {
        self.0
    }

    /// Whether all flags of the other are set.
    #[inline]
    pub const fn contains(self, other: Self) -> bool {
        self.0 & other.0 == other.0
    }

    /// Whether a flag of the other is set.
    #[inline]
    pub const fn intersects(self, other: Self) -> bool {
        self.0 & other.0 != 0
    }

    /// The flags of either.
    #[inline]
    pub const fn union(self, other: Self) -> Self {
        Self(self.0 | other.0)
    }
}

impl BitOr for Status {
    type Output = Self;

    fn bitor(self, other: Self) -> Self {
        self.union(other)
    }
}

impl BitAnd for Status {
    type Output = Self;

    fn bitand(self, other: Self) -> Self {
        Self(self.0 & other.0)
    }
}
