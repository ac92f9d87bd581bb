//! The two-wire bus: slave addresses, the address counter, cells behind it.

use crate::registers::Registers;
use crate::{Device, Refusal, RAM_LEN};

pub(crate) const WRITE_ADDRESS: u8 = 0xBA;
pub(crate) const READ_ADDRESS: u8 = 0xBB;
pub(crate) const COUNTER_MASK: u16 = 0x3FFF;
/// High address bits that count; the counter has 14 bits.
pub(crate) const HIGH_MASK: u8 = (COUNTER_MASK >> 8) as u8;
/// The registers fill the address space from here to its end.
pub(crate) const FIRST_REGISTER: u16 = COUNTER_MASK - Registers::COUNT as u16 + 1;

/// One event on the bus.
#[derive(Clone, Copy, PartialEq, Eq, Debug)]
pub enum Event {
    /// Start condition.
    Start,
    /// The host sends a byte.
    Byte(u8),
    /// The host reads a byte.
    Fetch,
    /// Stop condition.
    Stop,
}

impl Event {
    /// The event that a logger's two bytes tell: `kind` 0 start, 1 host
    /// `byte`, 2 fetch, 3 stop. No other kind tells one.
    #[must_use]
    #[inline]
    pub const fn of_kind(kind: u8, byte: u8) -> Option<Event> {
        match kind {
            0 => Some(Event::Start),
            1 => Some(Event::Byte(byte)),
            2 => Some(Event::Fetch),
            3 => Some(Event::Stop),
            _ => None,
        }
    }
}

/// What the bus expects next.
#[derive(Clone, Copy, PartialEq, Eq, Debug)]
pub(crate) enum Bus {
    Idle,
    /// After a start: the slave address.
    SlaveAddress,
    HighAddress,
    /// `high` waits here, so that a cut-off address leaves the counter alone.
    LowAddress {
        high: u8,
    },
    Writing,
    Reading,
    /// Addressed to another slave, until start or stop.
    Deaf,
}

impl Bus {
    /// Why a host byte or a fetch is not acknowledged in this state. An
    /// unknown slave address is refused by the state that it leads to.
    pub(crate) const fn not_acknowledged(self) -> Refusal {
        match self {
            Bus::Idle => Refusal::Idle,
            Bus::Deaf => Refusal::NotAddressed,
            Bus::Reading => Refusal::Reading,
            Bus::SlaveAddress | Bus::HighAddress | Bus::LowAddress { .. } | Bus::Writing => Refusal::Writing,
        }
    }
}

impl Device {
    /// Takes one bus event and answers its byte: what a fetch read, 0 with
    /// any other acknowledged event. Every event needs the RAM lent.
    #[inline]
    pub fn bus(&mut self, ram: &mut [u8], event: Event) -> Result<u8, Refusal> {
        let ram: &mut [u8; RAM_LEN] = ram.try_into().map_err(|_| Refusal::RamLength)?;
        match event {
            Event::Start => self.bus = Bus::SlaveAddress,
            Event::Stop => self.bus = Bus::Idle,
            Event::Byte(byte) => self.host_byte(ram, byte)?,
            Event::Fetch if self.bus == Bus::Reading => {
                let byte = self.load(ram);
                self.advance_counter();
                return Ok(byte);
            }
            Event::Fetch => return Err(self.bus.not_acknowledged()),
        }
        Ok(0)
    }

    #[inline]
    fn host_byte(&mut self, ram: &mut [u8; RAM_LEN], byte: u8) -> Result<(), Refusal> {
        match self.bus {
            Bus::Writing => {
                self.store(ram, byte);
                self.advance_counter();
            }
            Bus::SlaveAddress => match byte {
                WRITE_ADDRESS => self.bus = Bus::HighAddress,
                READ_ADDRESS => self.bus = Bus::Reading,
                _ => {
                    self.bus = Bus::Deaf;
                    return Err(self.bus.not_acknowledged());
                }
            },
            Bus::HighAddress => self.bus = Bus::LowAddress { high: byte },
            Bus::LowAddress { high } => {
                self.counter = u16::from_be_bytes([high & HIGH_MASK, byte]);
                self.bus = Bus::Writing;
            }
            Bus::Idle | Bus::Reading | Bus::Deaf => return Err(self.bus.not_acknowledged()),
        }
        Ok(())
    }

    #[inline]
    fn advance_counter(&mut self) {
        self.counter = (self.counter + 1) & COUNTER_MASK;
    }

    #[inline]
    fn load(&self, ram: &[u8; RAM_LEN]) -> u8 {
        match ram.get(usize::from(self.counter)) {
            Some(&cell) => cell,
            None if self.counter >= FIRST_REGISTER => self.registers.load(self.counter),
            None => 0,
        }
    }

    #[inline]
    fn store(&mut self, ram: &mut [u8; RAM_LEN], byte: u8) {
        match ram.get_mut(usize::from(self.counter)) {
            Some(cell) => *cell = byte,
            None if self.counter >= FIRST_REGISTER => self.registers.store(self.counter, byte),
            None => {}
        }
    }
}
