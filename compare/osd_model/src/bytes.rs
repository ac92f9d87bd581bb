//! The device as 32 bytes, and bus events straight on them.
//!
//! | Bytes | Content |
//! |---|---|
//! | 0 | bus: 0 idle, 1 deaf, 2 slave address next, 3 high address byte next, 4 low address byte next, 5 writing, 6 reading |
//! | 1 | high address byte held in bus state 4, else 0 |
//! | 2–3 | address counter |
//! | 4–19 | registers |
//! | 20 | next frame number |
//! | 21 | frame number |
//! | 22–23 | lines left |
//! | 24–25 | address of the next descriptor |
//! | 26 | strip on screen: bit 0 characters, bit 1 zoom, bit 2 enabled; bit 3: no more descriptors are read, as all were passed over |
//! | 27 | spacing lines left, or height |
//! | 28–29 | address of the first code |
//! | 30–31 | lines of the character strip already drawn |
//!
//! Numbers of two bytes have their low byte first.

use crate::bus::{Bus, COUNTER_MASK, FIRST_REGISTER, HIGH_MASK, READ_ADDRESS, WRITE_ADDRESS};
use crate::frame::{Characters, Frame, Strip};
use crate::registers::Registers;
use crate::{Device, Event, Refusal, FRAME_NUMBERS, MAX_LINES, RAM_LEN, RAM_WORDS};

/// Bytes of a device record.
pub const DEVICE_LEN: usize = 32;
/// The interface's own refusal, as an answer: a record or a chunk of a wrong
/// length, or a kind that there is not.
pub const NOT_TAKEN: u32 = 255 << 16;

const IDLE: u8 = 0;
const DEAF: u8 = 1;
const SLAVE_ADDRESS: u8 = 2;
const HIGH_ADDRESS: u8 = 3;
const LOW_ADDRESS: u8 = 4;
pub(crate) const WRITING: u8 = 5;
pub(crate) const READING: u8 = 6;

const REGISTERS: usize = 4;

const CHARACTERS: u8 = 1;
const ZOOM: u8 = 2;
const ENABLED: u8 = 4;
const EXHAUSTED: u8 = 8;

impl Device {
    /// This device in the module's byte layout.
    #[must_use]
    pub fn to_bytes(&self) -> [u8; DEVICE_LEN] {
        let mut bytes = [0; DEVICE_LEN];
        let mut put = |at: usize, number: u16| {
            bytes[at..at + 2].copy_from_slice(&number.to_le_bytes());
        };
        put(2, self.counter);
        put(22, self.frame.left);
        put(24, self.frame.descriptor);
        if let Strip::Characters(strip) = self.frame.strip {
            put(28, 2 * strip.row);
            put(30, u16::from(strip.drawn));
        }
        (bytes[0], bytes[1]) = bus_to_bytes(self.bus);
        bytes[REGISTERS..REGISTERS + Registers::COUNT].copy_from_slice(&self.registers.bytes());
        bytes[20] = self.next_frame;
        bytes[21] = self.frame.number;
        (bytes[26], bytes[27]) = match self.frame.strip {
            Strip::Spacing(left) => (0, left),
            Strip::Characters(strip) => {
                let zoom = ZOOM * u8::from(strip.zoom);
                let enabled = ENABLED * u8::from(strip.enabled);
                (CHARACTERS | zoom | enabled, strip.height)
            }
        };
        bytes[26] |= EXHAUSTED * u8::from(self.frame.exhausted);
        bytes
    }

    /// The device in these bytes. Any bytes give some sound device: numbers
    /// are cut to their range, but the next descriptor's address stays.
    #[must_use]
    pub fn from_bytes(bytes: &[u8; DEVICE_LEN]) -> Device {
        let number = |at: usize| u16::from_le_bytes([bytes[at], bytes[at + 1]]);
        let word = |at: usize| number(at) / 2 % RAM_WORDS as u16;
        Device {
            bus: bus_from_bytes(bytes[0], bytes[1]),
            counter: number(2) & COUNTER_MASK,
            registers: Registers::of_record(bytes),
            next_frame: bytes[20] % FRAME_NUMBERS,
            frame: Frame {
                number: bytes[21] % FRAME_NUMBERS,
                left: number(22).min(MAX_LINES as u16),
                descriptor: number(24),
                strip: strip_from_bytes(bytes[26], bytes[27], word(28), number(30)),
                exhausted: bytes[26] & EXHAUSTED != 0,
            },
        }
    }
}

impl Registers {
    /// The registers of a device record.
    #[inline]
    pub(crate) fn of_record(bytes: &[u8; DEVICE_LEN]) -> Registers {
        let mut registers = [0; Registers::COUNT];
        registers.copy_from_slice(&bytes[REGISTERS..REGISTERS + Registers::COUNT]);
        Registers::masked(registers)
    }
}

fn bus_to_bytes(bus: Bus) -> (u8, u8) {
    match bus {
        Bus::Idle => (IDLE, 0),
        Bus::SlaveAddress => (SLAVE_ADDRESS, 0),
        Bus::HighAddress => (HIGH_ADDRESS, 0),
        Bus::LowAddress { high } => (LOW_ADDRESS, high),
        Bus::Writing => (WRITING, 0),
        Bus::Reading => (READING, 0),
        Bus::Deaf => (DEAF, 0),
    }
}

fn bus_from_bytes(state: u8, held: u8) -> Bus {
    match state {
        SLAVE_ADDRESS => Bus::SlaveAddress,
        HIGH_ADDRESS => Bus::HighAddress,
        LOW_ADDRESS => Bus::LowAddress { high: held },
        WRITING => Bus::Writing,
        READING => Bus::Reading,
        DEAF => Bus::Deaf,
        _ => Bus::Idle,
    }
}

fn strip_from_bytes(flags: u8, lines: u8, row: u16, drawn: u16) -> Strip {
    if flags & CHARACTERS == 0 {
        return Strip::Spacing(lines);
    }
    Strip::Characters(Characters {
        row,
        height: (lines & 0x3F).max(1),
        zoom: flags & ZOOM != 0,
        enabled: flags & ENABLED != 0,
        drawn: drawn.min(u16::from(u8::MAX)) as u8,
    })
}

/// Takes a bus event on a device record in place: `kind` 0 start, 1 host
/// `byte`, 2 fetch, 3 stop. Answers the refusal's number times 65,536 plus
/// the bus byte. Any other kind is no event, and answers [`NOT_TAKEN`], before
/// all other refusals.
///
/// Of any record, an acknowledged event writes the bus bytes anew, the counter
/// where it is set or goes up, and a register that is stored, in its own byte.
/// An unknown slave address writes the bus state alone; no other refused event
/// writes anything.
// In place at every caller: a jump to it costs a tenth of an event.
#[inline(always)]
pub fn bus_bytes(device: &mut [u8; DEVICE_LEN], ram: &mut [u8], kind: u8, byte: u8) -> u32 {
    let Some(event) = Event::of_kind(kind, byte) else {
        return NOT_TAKEN;
    };
    let Ok(ram) = <&mut [u8; RAM_LEN]>::try_from(ram) else {
        return refused(Refusal::RamLength);
    };
    match (event, device[0]) {
        (Event::Byte(byte), WRITING) => {
            let counter = take_counter(device);
            store(device, ram, counter, byte);
            0
        }
        (Event::Fetch, READING) => {
            let counter = take_counter(device);
            u32::from(load(device, ram, counter))
        }
        (Event::Start, _) => expect(device, SLAVE_ADDRESS, 0),
        (Event::Stop, _) => expect(device, IDLE, 0),
        (Event::Byte(byte), SLAVE_ADDRESS) => match byte {
            WRITE_ADDRESS => expect(device, HIGH_ADDRESS, 0),
            READ_ADDRESS => expect(device, READING, 0),
            _ => {
                device[0] = DEAF;
                not_acknowledged(device)
            }
        },
        (Event::Byte(byte), HIGH_ADDRESS) => expect(device, LOW_ADDRESS, byte),
        (Event::Byte(byte), LOW_ADDRESS) => {
            [device[2], device[3]] = [byte, device[1] & HIGH_MASK];
            expect(device, WRITING, 0)
        }
        (Event::Byte(_) | Event::Fetch, _) => not_acknowledged(device),
    }
}

/// Sets the bus state; an acknowledged event's answer.
#[inline]
fn expect(device: &mut [u8; DEVICE_LEN], state: u8, held: u8) -> u32 {
    [device[0], device[1]] = [state, held];
    0
}

/// The answer to a host byte or a fetch that has no place in the bus state.
#[inline]
fn not_acknowledged(device: &[u8; DEVICE_LEN]) -> u32 {
    refused(bus_from_bytes(device[0], device[1]).not_acknowledged())
}

/// The counter, which goes up behind it, as a store or a fetch takes it.
#[inline]
fn take_counter(device: &mut [u8; DEVICE_LEN]) -> u16 {
    let counter = counter(device);
    leave_counter(device, next(counter));
    counter
}

#[inline]
pub(crate) fn counter(device: &[u8; DEVICE_LEN]) -> u16 {
    u16::from_le_bytes([device[2], device[3]]) & COUNTER_MASK
}

/// What a store or a fetch leaves: the counter, and no high address byte held.
#[inline]
pub(crate) fn leave_counter(device: &mut [u8; DEVICE_LEN], counter: u16) {
    device[1] = 0;
    [device[2], device[3]] = counter.to_le_bytes();
}

/// The address behind this one.
#[inline]
pub(crate) fn next(counter: u16) -> u16 {
    (counter + 1) & COUNTER_MASK
}

/// Stores a byte at an address of RAM or of a register; elsewhere it is dropped.
#[inline]
pub(crate) fn store(device: &mut [u8; DEVICE_LEN], ram: &mut [u8; RAM_LEN], counter: u16, byte: u8) {
    if let Some(cell) = ram.get_mut(usize::from(counter)) {
        *cell = byte;
    } else if counter >= FIRST_REGISTER {
        let number = usize::from(counter) % Registers::COUNT;
        device[REGISTERS + number] = byte & Registers::KEPT[number];
    }
}

/// The byte at an address. A register is read as it stands: unused bits are 0
/// in every record that calls leave, but a made-up one may have them set.
#[inline]
pub(crate) fn load(device: &[u8; DEVICE_LEN], ram: &[u8; RAM_LEN], counter: u16) -> u8 {
    if let Some(&cell) = ram.get(usize::from(counter)) {
        cell
    } else if counter >= FIRST_REGISTER {
        let number = usize::from(counter) % Registers::COUNT;
        device[REGISTERS + number]
    } else {
        0
    }
}

pub(crate) const fn refused(refusal: Refusal) -> u32 {
    (refusal.number() as u32) << 16 | refusal.bus_byte() as u32
}
