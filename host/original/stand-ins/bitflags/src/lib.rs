//! Stands in for bitflags 2: what lpspi.rs uses of it.
#![no_std]

/// Declares a struct of named flags.
#[macro_export]
macro_rules! bitflags {
    (
        $(#[$attribute:meta])*
        pub struct $Flags:ident : $Bits:ty {
            $(
                $(#[$flag_attribute:meta])*
                const $FLAG:ident = $value:expr;
            )*
        }
    ) => {
        $(#[$attribute])*
        pub struct $Flags($Bits);

        impl $Flags {
            $(
                $(#[$flag_attribute])*
                pub const $FLAG: Self = Self($value);
            )*

            /// The bits of all flags that are set.
            pub const fn bits(&self) -> $Bits {
                self.0
            }

            /// Keeps bits that no flag names.
            pub const fn from_bits_retain(bits: $Bits) -> Self {
                Self(bits)
            }

            /// Drops bits that no flag names.
            pub const fn from_bits_truncate(bits: $Bits) -> Self {
                Self(bits & (0 $(| $value)*))
            }

            /// Whether a flag is set in both.
            pub const fn intersects(&self, other: Self) -> bool {
                self.0 & other.0 != 0
            }
        }

        impl ::core::ops::BitAnd for $Flags {
            type Output = Self;

            fn bitand(self, other: Self) -> Self {
                Self(self.0 & other.0)
            }
        }

        impl ::core::ops::BitOr for $Flags {
            type Output = Self;

            fn bitor(self, other: Self) -> Self {
                Self(self.0 | other.0)
            }
        }
    };
}
