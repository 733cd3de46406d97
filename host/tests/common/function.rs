//! Calls of the port by their C functions.

use super::run::{Left, Limits, found};
use lpspi_host::raw::{self, Disabled, Get, Reset, Set};

/// A call that is neither a transfer nor a flush, by its C function.
#[derive(Debug, Clone, Copy, PartialEq, Eq)]
pub enum Function {
    Reset(Reset),
    Set(Set),
    Disabled(Disabled),
    Get(Get),
}

impl Function {
    pub const ALL: [Self; 19] = [
        Self::Reset(Reset::SoftReset),
        Self::Reset(Reset::RecoverFromError),
        Self::Reset(Reset::Init),
        Self::Set(Set::ClearStatus),
        Self::Set(Set::SetEnable),
        Self::Set(Set::ClearFifo),
        Self::Set(Set::EnqueueData),
        Self::Set(Set::EnqueueTransaction),
        Self::Disabled(Disabled::SetClockHz),
        Self::Disabled(Disabled::SetClockConfigs),
        Self::Disabled(Disabled::SetSamplePoint),
        Self::Disabled(Disabled::SetPeripheralEnable),
        Self::Disabled(Disabled::SetChipSelectPolarity),
        Self::Get(Get::Watermark),
        Self::Get(Get::SetWatermark),
        Self::Get(Get::Status),
        Self::Get(Get::IsEnabled),
        Self::Get(Get::FifoStatus),
        Self::Get(Get::ReadData),
    ];

    /// The call's number.
    pub fn kind(self) -> u32 {
        match self {
            Self::Reset(kind) => kind as u32,
            Self::Set(kind) => kind as u32,
            Self::Disabled(kind) => kind as u32,
            Self::Get(kind) => kind as u32,
        }
    }

    /// How many calls the C function has.
    pub fn kinds(self) -> u32 {
        match self {
            Self::Reset(_) => 3,
            Self::Set(_) | Self::Disabled(_) => 5,
            Self::Get(_) => 6,
        }
    }

    /// What the call leaves, of a driver word.
    pub fn port(self, parameters: [u32; 2], driver: u32, limits: &Limits) -> Left<u8> {
        self.port_of_kind(self.kind(), parameters, driver, limits)
    }

    /// What the call of any number of this C function leaves.
    pub fn port_of_kind(
        self,
        kind: u32,
        [a, b]: [u32; 2],
        mut driver: u32,
        limits: &Limits,
    ) -> Left<u8> {
        let (budget, script, mut log) = (limits.budget, &limits.script[..], found(limits.log_len));
        // What is given is given over these.
        let (mut accesses, mut answers) = (7, 7);
        let mut value = match self {
            Self::Get(_) => 7,
            _ => 0,
        };
        let (d, l, m, n) = (&mut driver, &mut log[..], &mut accesses, &mut answers);
        let number = match self {
            Self::Reset(_) => raw::reset(kind, d, budget, script, l, m, n),
            Self::Set(_) => raw::set(kind, a, d, budget, script, l, m, n),
            Self::Disabled(_) => raw::disabled(kind, a, b, d, budget, script, l, m, n),
            Self::Get(_) => raw::get(kind, a, b, d, budget, script, l, m, n, &mut value),
        };
        Left {
            number,
            driver,
            accesses,
            answers,
            value,
            buffer: vec![],
            log,
        }
    }
}
