//! Stands in for imxrt-ral: instances, the access macros, and the registers and
//! fields of the LPSPI.

use std::marker::PhantomData;
use std::ops::Deref;

/// A peripheral's instance.
pub struct Instance<T: 'static, const N: u8>(&'static T);

impl<T, const N: u8> Instance<T, N> {
    pub fn new(registers: &'static T) -> Self {
        Self(registers)
    }

    /// The same registers, as an instance of another number.
    pub fn renumbered<const M: u8>(&self) -> Instance<T, M> {
        Instance(self.0)
    }
}

impl<T, const N: u8> Deref for Instance<T, N> {
    type Target = T;

    fn deref(&self) -> &T {
        self.0
    }
}

/// A register that is only read.
#[derive(Default)]
pub struct RORegister<T>(PhantomData<T>);

/// A register that is only written.
#[derive(Default)]
pub struct WORegister<T>(PhantomData<T>);

/// Reads a register: all of it, some fields, or a field that is then compared.
macro_rules! read_reg {
    ($peripheral:path, $instance:expr, $register:ident) => {{
        use $peripheral::*;
        (*$instance).read($register::ADDRESS)
    }};
    ($peripheral:path, $instance:expr, $register:ident, $($field:ident),+) => {{
        use $peripheral::*;
        let value = (*$instance).read($register::ADDRESS);
        ($((value & $register::$field::mask) >> $register::$field::offset),+)
    }};
    ($peripheral:path, $instance:expr, $register:ident, $field:ident $($comparison:tt)+) => {{
        use $peripheral::*;
        #[allow(unused_imports)]
        use $register::$field::RW::*;
        $crate::ral::read_reg!($peripheral, $instance, $register, $field) $($comparison)+
    }};
}

/// Writes a register: the named fields with zeros elsewhere, or all of it.
macro_rules! write_reg {
    ($peripheral:path, $instance:expr, $register:ident, $($field:ident: $value:expr),+ $(,)?) => {{
        use $peripheral::*;
        let value = $($crate::ral::placed!($register, $field, $value))|+;
        (*$instance).write($register::ADDRESS, value)
    }};
    ($peripheral:path, $instance:expr, $register:ident, $value:expr) => {{
        use $peripheral::*;
        (*$instance).write($register::ADDRESS, $value)
    }};
}

/// Reads a register, then writes it with the named fields changed.
macro_rules! modify_reg {
    ($peripheral:path, $instance:expr, $register:ident, $($field:ident: $value:expr),+ $(,)?) => {{
        use $peripheral::*;
        let found = (*$instance).read($register::ADDRESS);
        let changed = $($register::$field::mask)|+;
        let value = $($crate::ral::placed!($register, $field, $value))|+;
        (*$instance).write($register::ADDRESS, found & !changed | value)
    }};
}

/// A field's value, a number or a name, at its place in the register.
macro_rules! placed {
    ($register:ident, $field:ident, $value:expr) => {{
        #[allow(unused_imports)]
        use $register::$field::RW::*;
        ($value << $register::$field::offset) & $register::$field::mask
    }};
}

pub(crate) use {modify_reg, placed, read_reg, write_reg};

/// Low-power serial peripheral interface.
#[allow(dead_code, non_snake_case, non_upper_case_globals)]
pub mod lpspi {
    /// An instance with its number.
    pub type Instance<const N: u8> = super::Instance<RegisterBlock, N>;

    /// The registers.
    pub type RegisterBlock = crate::registers::Registers<'static>;

    /// Each register at its byte offset, with its fields and the names of their values.
    macro_rules! registers {
        ($(
            $register:ident at $address:literal {
                $($field:ident [$high:literal .. $low:literal] $(= $zero:ident, $one:ident)?;)*
            }
        )*) => {$(
            pub mod $register {
                pub const ADDRESS: u32 = $address;
                $(
                    pub mod $field {
                        pub const offset: u32 = $low;
                        pub const mask: u32 = u32::MAX >> (31 - $high + $low) << $low;
                        pub mod RW {
                            $(
                                pub const $zero: u32 = 0;
                                pub const $one: u32 = 1;
                            )?
                        }
                    }
                )*
            }
        )*};
    }

    registers! {
        PARAM at 0x04 {
            RXFIFO[15..8];
            TXFIFO[7..0];
        }
        CR at 0x10 {
            RRF[9..9] = RRF_0, RRF_1;
            RTF[8..8] = RTF_0, RTF_1;
            RST[1..1] = RST_0, RST_1;
            MEN[0..0] = MEN_0, MEN_1;
        }
        SR at 0x14 {}
        IER at 0x18 {}
        DER at 0x1C {
            RDDE[1..1] = RDDE_0, RDDE_1;
            TDDE[0..0] = TDDE_0, TDDE_1;
        }
        CFGR0 at 0x20 {}
        CFGR1 at 0x24 {
            PCSPOL[11..8];
            SAMPLE[1..1] = SAMPLE_0, SAMPLE_1;
            MASTER[0..0] = MASTER_0, MASTER_1;
        }
        DMR0 at 0x30 {}
        DMR1 at 0x34 {}
        CCR at 0x40 {
            SCKPCS[31..24];
            PCSSCK[23..16];
            DBT[15..8];
            SCKDIV[7..0];
        }
        FCR at 0x58 {
            RXWATER[19..16];
            TXWATER[3..0];
        }
        FSR at 0x5C {
            RXCOUNT[20..16];
            TXCOUNT[4..0];
        }
        TCR at 0x60 {
            CPOL[31..31] = CPOL_0, CPOL_1;
            CPHA[30..30] = CPHA_0, CPHA_1;
            PCS[25..24];
            LSBF[23..23] = LSBF_0, LSBF_1;
            BYSW[22..22] = BYSW_0, BYSW_1;
            CONT[21..21] = CONT_0, CONT_1;
            CONTC[20..20] = CONTC_0, CONTC_1;
            RXMSK[19..19] = RXMSK_0, RXMSK_1;
            TXMSK[18..18] = TXMSK_0, TXMSK_1;
        }
        TDR at 0x64 {}
        RSR at 0x70 {
            RXEMPTY[1..1] = RXEMPTY_0, RXEMPTY_1;
        }
        RDR at 0x74 {}
    }
}
