//! Makes the calls. A child module of lpspi.rs, whose private items it sees.

use super::{
    AnyInstance, BitOrder, CcrCache, ClockConfigs, Direction, Lpspi, LpspiError, MODE_0, MODE_1,
    MODE_2, MODE_3, Mode, Pcs, PcsPolarity, Phase, Polarity, SamplePoint, Status, Transaction,
    Word,
};
use crate::call::{self, Call, Driver, Failure, FifoStatus, Transfer, Value};

/// A driver of the given value.
pub(crate) fn with_value(lpspi: AnyInstance, value: Driver) -> Lpspi {
    Lpspi {
        lpspi,
        bit_order: bit_order(value.lsb),
        mode: mode(value.mode),
        ccr_cache: CcrCache {
            dbt: value.dbt,
            sckdiv: value.sckdiv,
        },
        pcs: chip_select(value.pcs),
    }
}

/// The driver's value.
pub(crate) fn value(spi: &Lpspi) -> Driver {
    let cpol = u8::from(spi.mode.polarity == Polarity::IdleHigh);
    let cpha = u8::from(spi.mode.phase == Phase::CaptureOnSecondTransition);
    Driver {
        lsb: spi.bit_order == BitOrder::Lsb,
        mode: 2 * cpol + cpha,
        pcs: spi.pcs as u8,
        dbt: spi.ccr_cache.dbt,
        sckdiv: spi.ccr_cache.sckdiv,
    }
}

/// Makes a call.
pub(crate) fn call(spi: &mut Lpspi, call: Call) -> Result<Value, Failure> {
    match call {
        Call::U8(buffers) => transfer(spi, buffers)?,
        Call::U16(buffers) => transfer(spi, buffers)?,
        Call::U32(buffers) => transfer(spi, buffers)?,
        Call::Flush => spi.flush()?,
        Call::SoftReset => spi.soft_reset(),
        Call::RecoverFromError => spi.recover_from_error(),
        Call::Init => *spi = Lpspi::init(spi.lpspi.renumbered::<1>()),
        Call::ClearStatus(flags) => spi.clear_status(Status::from_bits_retain(flags)),
        Call::SetEnable(enable) => spi.set_enable(enable),
        Call::ClearFifo(direction) => spi.clear_fifo(side(direction)),
        Call::EnqueueData(word) => spi.enqueue_data(word),
        Call::EnqueueTransaction { frame_size } => {
            let transaction = transaction(spi, frame_size)?;
            spi.enqueue_transaction(transaction);
        }
        Call::SetClockHz {
            source_hz,
            clock_hz,
        } => spi.disabled(|spi| spi.set_clock_hz(source_hz, clock_hz)),
        Call::SetClockConfigs(configs) => {
            spi.disabled(|spi| spi.set_clock_configs(clock_configs(configs)))
        }
        Call::SetSamplePoint { delayed } => {
            spi.disabled(|spi| spi.set_sample_point(sample_point(delayed)))
        }
        Call::SetPeripheralEnable(enable) => spi.disabled(|spi| spi.set_peripheral_enable(enable)),
        Call::SetChipSelectPolarity { pcs, active_high } => spi
            .disabled(|spi| spi.set_chip_select_polarity(chip_select(pcs), polarity(active_high))),
        Call::NoSetting => spi.disabled(|_| ()),
        Call::SetSamplePointAndPeripheral { delayed, enable } => spi.disabled(|spi| {
            spi.set_sample_point(sample_point(delayed));
            spi.set_peripheral_enable(enable);
        }),
        Call::Watermark(direction) => return Ok(Value::Level(spi.watermark(side(direction)))),
        Call::SetWatermark(direction, level) => {
            return Ok(Value::Level(spi.set_watermark(side(direction), level)));
        }
        Call::Status => return Ok(Value::Status(spi.status().bits())),
        Call::IsEnabled => return Ok(Value::Enabled(spi.is_enabled())),
        Call::FifoStatus => return Ok(Value::FifoStatus(fifo_status(spi))),
        Call::ReadData => return Ok(Value::Data(spi.read_data())),
    }
    Ok(Value::Unit)
}

fn transfer<W: Word>(spi: &mut Lpspi, buffers: Transfer<W>) -> Result<(), LpspiError> {
    match buffers {
        Transfer::ExchangeSeparate { read, write } => spi.exchange_separate(read, write),
        Transfer::Exchange(data) => spi.exchange(data),
        Transfer::WriteNoRead(data) => spi.write_no_read(data),
        Transfer::ReadNoWrite(data) => spi.read_no_write(data),
    }
}

/// Made as `bus_transaction` makes the one of a buffer.
fn transaction(spi: &Lpspi, frame_size: u32) -> Result<Transaction, LpspiError> {
    let frame_size = u16::try_from(frame_size).map_err(|_| LpspiError::FrameSize)?;
    let mut transaction = Transaction::new(frame_size)?;
    transaction.set_bit_order(spi.bit_order());
    transaction.set_mode(spi.mode);
    transaction.set_pcs(spi.pcs);
    Ok(transaction)
}

fn fifo_status(spi: &Lpspi) -> FifoStatus {
    let status = spi.fifo_status();
    FifoStatus {
        rxcount: status.rxcount,
        txcount: status.txcount,
        rxcap: status.rxcap,
        txcap: status.txcap,
    }
}

fn side(direction: call::Direction) -> Direction {
    match direction {
        call::Direction::Tx => Direction::Tx,
        call::Direction::Rx => Direction::Rx,
    }
}

pub(super) fn bit_order(lsb: bool) -> BitOrder {
    if lsb { BitOrder::Lsb } else { BitOrder::Msb }
}

pub(super) fn mode(number: u8) -> Mode {
    match number % 4 {
        0 => MODE_0,
        1 => MODE_1,
        2 => MODE_2,
        _ => MODE_3,
    }
}

pub(super) fn chip_select(number: u8) -> Pcs {
    match number % 4 {
        0 => Pcs::Pcs0,
        1 => Pcs::Pcs1,
        2 => Pcs::Pcs2,
        _ => Pcs::Pcs3,
    }
}

fn polarity(active_high: bool) -> PcsPolarity {
    if active_high {
        PcsPolarity::ActiveHigh
    } else {
        PcsPolarity::ActiveLow
    }
}

fn sample_point(delayed: bool) -> SamplePoint {
    if delayed {
        SamplePoint::DelayedEdge
    } else {
        SamplePoint::Edge
    }
}

fn clock_configs(configs: call::ClockConfigs) -> ClockConfigs {
    ClockConfigs {
        sckpcs: configs.sckpcs,
        pcssck: configs.pcssck,
        dbt: configs.dbt,
        sckdiv: configs.sckdiv,
    }
}

impl From<LpspiError> for Failure {
    fn from(error: LpspiError) -> Self {
        match error {
            LpspiError::FrameSize => Self::FrameSize,
            LpspiError::Fifo(Direction::Tx) => Self::Fifo(call::Direction::Tx),
            LpspiError::Fifo(Direction::Rx) => Self::Fifo(call::Direction::Rx),
        }
    }
}
