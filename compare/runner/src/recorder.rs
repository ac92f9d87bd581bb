//! Writes down calls with what the independent implementation answers and leaves in each buffer, so that another program can make
//! the same calls on the library of another machine and compare (ports/run/replay.c, ports/run/replay.mjs).
//!
//! A trace has, with all numbers low byte first:
//!
//! | Bytes | Content |
//! |---|---|
//! | `osd trace 2\n` | |
//! | 1 | number of functions; then each one's name, a zero, its arguments and a zero |
//! | 1 | number of slots; then the most bytes that each one holds, in 4 bytes |
//! | | records, the first byte of which says which they are |
//!
//! An argument is `w`, a buffer that the function may write; `r`, one that it may not; `b`, a byte; `n`, a number of 4 bytes.
//!
//! | Record | Content |
//! |---|---|
//! | 0 | the end: the number of calls, 4 bytes |
//! | 1 | a session: its seed, 8 bytes |
//! | 2 | bytes are lent in a slot: slot, length (4 bytes), the bytes |
//! | 3 | random bytes are lent in a slot: slot, length (4 bytes), the state that they follow from (8 bytes) |
//! | 4 | a call: function; its arguments, a buffer by its slot; the answer (4 bytes); the bytes that it changes |
//! | 5 | a call on a made-up record: function; its arguments. Nobody says what it answers, or leaves where it may write |
//! | 6 | the lender changes bytes of slots, between calls: the bytes that change |
//!
//! Bus events and chunks on a made-up record are calls as others (4), as long as no other call has been made on it. So are lines, cell
//! questions and frame starts on one whose numbers are in their range.
//!
//! Changed bytes are a list of: slot, first place (2 bytes), number (2 bytes), the bytes; its end is a slot of 255. Font files alone are
//! changed by their lender, who damages them.

use crate::lent::Lent as Buffer;
use crate::library::{Library, Place};
use crate::model;
use crate::random::Random;
use crate::sessions::packed;
use osd_model::{font_file, pixel_bytes, Device, Feed, DEVICE_LEN, FEED_LEN, NOT_TAKEN};
use std::io::{Result, Write};
use Argument::{Byte, Lent, Number};

const FUNCTIONS: [(&str, &str); 13] = [
    ("osd_device_len", ""),
    ("osd_fresh", "w"),
    ("osd_reset", "w"),
    ("osd_bus", "wwbb"),
    ("osd_frame_start", "wn"),
    ("osd_draw", "wrrw"),
    ("osd_cell", "rrn"),
    ("osd_feed_len", ""),
    ("osd_feed_fresh", "w"),
    ("osd_feed", "wwwrw"),
    ("osd_pixel", "rrrnnnn"),
    ("osd_font_write", "rw"),
    ("osd_font_read", "rw"),
];

/// What a buffer is for. Each use has its slots, so that a second buffer does not displace the first.
#[derive(Clone, Copy, PartialEq)]
enum Use {
    Device,
    Ram,
    Font,
    Line,
    Feed,
    Chunk,
    Output,
    FontFile,
}

const SLOTS: [usize; 13] = [64, 64, 2048, 2048, 9216, 9216, 2048, 32, 32, 256, 256, 10_240, 10_240];

/// Bytes before those of each run of changed bytes.
const RUN_HEAD: usize = 5;

impl Use {
    fn slots(self) -> std::ops::Range<usize> {
        match self {
            Use::Device => 0..2,
            Use::Ram => 2..4,
            Use::Font => 4..6,
            Use::Line => 6..7,
            Use::Feed => 7..9,
            Use::Chunk => 9..10,
            Use::Output => 10..11,
            Use::FontFile => 11..13,
        }
    }
}

/// What a slot holds: a buffer's number, and its bytes as they stand.
#[derive(Default)]
struct Slot {
    number: u64,
    content: Vec<u8>,
    last_used: u64,
    /// To lend it again takes all its bytes, since they are not random, or no longer.
    is_dear: bool,
}

pub struct Recorder<W> {
    to: W,
    slots: [Slot; SLOTS.len()],
    uses: u64,
    calls: u32,
    made_up: bool,
}

/// An argument of a call; a buffer is its slot.
enum Argument {
    Lent(u8),
    Byte(u8),
    Number(u32),
}

impl<W: Write> Recorder<W> {
    pub fn new(mut to: W) -> Result<Recorder<W>> {
        to.write_all(b"osd trace 2\n")?;
        to.write_all(&[FUNCTIONS.len() as u8])?;
        for (name, arguments) in FUNCTIONS {
            write!(to, "{name}\0{arguments}\0")?;
        }
        to.write_all(&[SLOTS.len() as u8])?;
        for room in SLOTS {
            to.write_all(&(room as u32).to_le_bytes())?;
        }
        let mut recorder = Recorder { to, slots: Default::default(), uses: 0, calls: 0, made_up: false };
        recorder.call("osd_device_len", []);
        recorder.answered(DEVICE_LEN as u32, []);
        recorder.call("osd_feed_len", []);
        recorder.answered(FEED_LEN as u32, []);
        Ok(recorder)
    }

    /// Ends the trace, and answers how many calls it has.
    pub fn end(mut self) -> Result<u32> {
        self.put(&[0]);
        self.put(&self.calls.to_le_bytes());
        self.to.flush()?;
        Ok(self.calls)
    }

    fn put(&mut self, bytes: &[u8]) {
        self.to.write_all(bytes).expect("the trace can be written");
    }

    /// The slot of this buffer: the one that holds it, or else the one that was unused for longest, if possible of those that are not dear,
    /// which is filled with it.
    fn lend(&mut self, buffer: &Buffer, used_as: Use) -> u8 {
        self.uses += 1;
        let held = used_as.slots().find(|&slot| self.slots[slot].number == buffer.number());
        let keep = |slot: &Slot| (slot.is_dear, slot.last_used);
        let slot = held.or(used_as.slots().min_by_key(|&slot| keep(&self.slots[slot]))).unwrap();
        self.slots[slot].last_used = self.uses;
        if held.is_none() {
            self.fill(slot, buffer);
        } else if used_as == Use::FontFile && self.slots[slot].content != buffer.get() {
            self.put(&[6]);
            self.changes(slot as u8, buffer);
            self.put(&[255]);
        }
        assert_eq!(self.slots[slot].content, buffer.get());
        slot as u8
    }

    fn fill(&mut self, slot: usize, buffer: &Buffer) {
        let content = buffer.get();
        assert!(content.len() <= SLOTS[slot]);
        let state = buffer.filled_from().state();
        let mut as_filled = vec![0; content.len()];
        Random::new(state).fill(&mut as_filled);
        let is_random = as_filled == content;
        self.put(&[if is_random { 3 } else { 2 }, slot as u8]);
        self.put(&(content.len() as u32).to_le_bytes());
        if is_random {
            self.put(&state.to_le_bytes());
        } else {
            self.put(content);
        }
        self.slots[slot].number = buffer.number();
        self.slots[slot].content = content.to_vec();
        self.slots[slot].is_dear = !is_random;
    }

    fn call<const N: usize>(&mut self, function: &str, arguments: [Argument; N]) {
        let number = FUNCTIONS.iter().position(|(name, _)| *name == function).unwrap();
        assert_eq!(FUNCTIONS[number].1.len(), N);
        self.put(&[if self.made_up { 5 } else { 4 }, number as u8]);
        for argument in arguments {
            match argument {
                Lent(byte) | Byte(byte) => self.put(&[byte]),
                Number(number) => self.put(&number.to_le_bytes()),
            }
        }
        self.calls += 1;
    }

    /// Behind a call: its answer, and what has changed in the buffers that it may write.
    fn answered<const N: usize>(&mut self, answer: u32, written: [(u8, &Buffer); N]) -> u32 {
        self.put(&answer.to_le_bytes());
        for (slot, buffer) in written {
            self.changes(slot, buffer);
        }
        self.put(&[255]);
        answer
    }

    /// What has changed in a buffer since its slot was written down, in runs that are worth a head of their own.
    fn changes(&mut self, slot: u8, buffer: &Buffer) {
        let now = buffer.get();
        let before = std::mem::replace(&mut self.slots[usize::from(slot)].content, now.to_vec());
        let places: Vec<usize> = (0..now.len()).filter(|&place| before[place] != now[place]).collect();
        self.slots[usize::from(slot)].is_dear |= !places.is_empty();
        for run in places.chunk_by(|first, second| second - first <= RUN_HEAD) {
            let changed = &now[run[0]..=run[run.len() - 1]];
            self.put(&[slot]);
            self.put(&(run[0] as u16).to_le_bytes());
            self.put(&(changed.len() as u16).to_le_bytes());
            self.put(changed);
        }
    }
}

/// A call of the independent implementation on a record, where it is one. What is refused leaves it as it is.
fn on_record(device: &mut Buffer, call: impl FnOnce(&mut Device) -> u32) -> u32 {
    let Ok(record) = <&mut [u8; DEVICE_LEN]>::try_from(device.get_mut()) else {
        return NOT_TAKEN;
    };
    let mut model = Device::from_bytes(record);
    let answer = call(&mut model);
    if answer >> 16 == 0 {
        *record = model.to_bytes();
    }
    answer
}

/// The independent implementation, written down.
impl<W: Write> Library for Recorder<W> {
    fn fresh(&mut self, device: &mut Buffer) -> u32 {
        let slot = self.lend(device, Use::Device);
        self.call("osd_fresh", [Lent(slot)]);
        let answer = on_record(device, |model| {
            *model = Device::fresh();
            0
        });
        self.answered(answer, [(slot, device)])
    }

    fn reset(&mut self, device: &mut Buffer) -> u32 {
        let slot = self.lend(device, Use::Device);
        self.call("osd_reset", [Lent(slot)]);
        let answer = on_record(device, |model| {
            model.reset();
            0
        });
        self.answered(answer, [(slot, device)])
    }

    fn bus(&mut self, device: &mut Buffer, ram: &mut Buffer, kind: u8, byte: u8) -> u32 {
        let (slot, ram_slot) = (self.lend(device, Use::Device), self.lend(ram, Use::Ram));
        self.call("osd_bus", [Lent(slot), Lent(ram_slot), Byte(kind), Byte(byte)]);
        if self.made_up {
            return 0;
        }
        let answer = model::bus(device.get_mut(), ram.get_mut(), kind, byte);
        self.answered(answer, [(slot, device), (ram_slot, ram)])
    }

    fn frame_start(&mut self, device: &mut Buffer, lines: u32) -> u32 {
        let slot = self.lend(device, Use::Device);
        self.call("osd_frame_start", [Lent(slot), Number(lines)]);
        if self.made_up {
            return 0;
        }
        let answer = on_record(device, |model| packed(model.frame_start(lines).map(|()| 0)));
        self.answered(answer, [(slot, device)])
    }

    fn draw(&mut self, device: &mut Buffer, ram: &Buffer, font: &Buffer, line: &mut Buffer) -> u32 {
        let (slot, line_slot) = (self.lend(device, Use::Device), self.lend(line, Use::Line));
        let (ram_slot, font_slot) = (self.lend(ram, Use::Ram), self.lend(font, Use::Font));
        self.call("osd_draw", [Lent(slot), Lent(ram_slot), Lent(font_slot), Lent(line_slot)]);
        if self.made_up {
            return 0;
        }
        let answer = on_record(device, |model| packed(model.draw(ram.get(), font.get(), line.get_mut())));
        self.answered(answer, [(slot, device), (line_slot, line)])
    }

    fn cell(&mut self, device: &Buffer, ram: &Buffer, cell: u32) -> u32 {
        let (slot, ram_slot) = (self.lend(device, Use::Device), self.lend(ram, Use::Ram));
        self.call("osd_cell", [Lent(slot), Lent(ram_slot), Number(cell)]);
        if self.made_up {
            return 0;
        }
        let answer = match <&[u8; DEVICE_LEN]>::try_from(device.get()) {
            Ok(record) => packed(Device::from_bytes(record).cell(ram.get(), cell).map(u32::from)),
            Err(_) => NOT_TAKEN,
        };
        self.answered(answer, [])
    }

    fn pixel(&mut self, device: &Buffer, ram: &Buffer, font: &Buffer, Place { lines, frame, x, y }: Place) -> u32 {
        let (slot, ram_slot, font_slot) = (self.lend(device, Use::Device), self.lend(ram, Use::Ram), self.lend(font, Use::Font));
        let [lent, ram_lent, font_lent] = [slot, ram_slot, font_slot].map(Lent);
        self.call("osd_pixel", [lent, ram_lent, font_lent, Number(lines), Number(frame), Number(x), Number(y)]);
        if self.made_up {
            return 0;
        }
        let answer = match device.get().try_into() {
            Ok(record) => pixel_bytes(record, ram.get(), font.get(), lines, frame, x, y),
            Err(_) => NOT_TAKEN,
        };
        self.answered(answer, [])
    }

    fn feed_fresh(&mut self, feed: &mut Buffer) -> u32 {
        let slot = self.lend(feed, Use::Feed);
        self.call("osd_feed_fresh", [Lent(slot)]);
        let answer = match <&mut [u8; FEED_LEN]>::try_from(feed.get_mut()) {
            Ok(record) => {
                *record = Feed::fresh().to_bytes();
                0
            }
            Err(_) => NOT_TAKEN,
        };
        self.answered(answer, [(slot, feed)])
    }

    fn feed(&mut self, device: &mut Buffer, feed: &mut Buffer, ram: &mut Buffer, chunk: &Buffer, out: &mut Buffer) -> u32 {
        let (slot, feed_slot, ram_slot) = (self.lend(device, Use::Device), self.lend(feed, Use::Feed), self.lend(ram, Use::Ram));
        let (chunk_slot, out_slot) = (self.lend(chunk, Use::Chunk), self.lend(out, Use::Output));
        self.call("osd_feed", [slot, feed_slot, ram_slot, chunk_slot, out_slot].map(Lent));
        if self.made_up {
            return 0;
        }
        let answer = model::feed(device.get_mut(), feed.get_mut(), ram.get_mut(), chunk.get(), out.get_mut());
        self.answered(answer, [(slot, device), (feed_slot, feed), (ram_slot, ram), (out_slot, out)])
    }

    fn font_write(&mut self, font: &Buffer, file: &mut Buffer) -> u32 {
        let (font_slot, file_slot) = (self.lend(font, Use::Font), self.lend(file, Use::FontFile));
        self.call("osd_font_write", [Lent(font_slot), Lent(file_slot)]);
        if self.made_up {
            return 0;
        }
        let answer = font_file::write_bytes(font.get(), file.get_mut());
        self.answered(answer, [(file_slot, file)])
    }

    fn font_read(&mut self, file: &Buffer, font: &mut Buffer) -> u32 {
        let (file_slot, font_slot) = (self.lend(file, Use::FontFile), self.lend(font, Use::Font));
        self.call("osd_font_read", [Lent(file_slot), Lent(font_slot)]);
        if self.made_up {
            return 0;
        }
        let answer = font_file::read_bytes(file.get(), font.get_mut());
        self.answered(answer, [(font_slot, font)])
    }

    fn session(&mut self, seed: u64, made_up: bool) {
        self.put(&[1]);
        self.put(&seed.to_le_bytes());
        self.made_up = made_up;
    }

    fn compares(&self) -> bool {
        !self.made_up
    }
}
