//! Random sessions: calls on a library and on the independent implementation, compared call by call.
//!
//! Every answer, every byte of every buffer (the device's record too) and every byte around the buffers is compared after every call.

mod corrupted;
mod font_files;
mod pixels;
mod zero_spacings;

pub use corrupted::{corrupted, Corrupted};

use crate::font_files::FILE;
use crate::lent::Lent;
use crate::library::Library;
use crate::pages::{random_page, FONT, RAM};
use crate::random::Random;
use crate::traffic;
use crate::zero_spacings::ZeroSpacings;
use osd_model::{Device, Event, Fed, Feed, Refusal, DEVICE_LEN, FEED_LEN, NOT_TAKEN};
use std::process::exit;

const CALLS: u32 = 520;
pub const DEFAULT_SEED: u64 = 9425;
pub const DEFAULT_SESSIONS: u64 = 600;

/// refusal × 65,536 + value, as the header says.
pub fn packed(answer: Result<u32, Refusal>) -> u32 {
    match answer {
        Ok(value) => value,
        Err(refusal) => u32::from(refusal.number()) << 16 | u32::from(refusal.bus_byte()),
    }
}

/// The same of a chunk.
fn packed_fed(fed: Fed) -> u32 {
    fed.refusal.map_or(0, |refusal| u32::from(refusal.number()) << 16) | fed.written as u32
}

/// Lengths of a buffer other than the right one.
const fn other_lens(right: usize) -> [usize; 5] {
    [0, 1, right - 1, right + 1, 2 * right]
}

struct Session<'a, L> {
    library: &'a mut L,
    random: Random,
    seed: u64,
    call: u32,
    model: Device,
    model_ram: Vec<u8>,
    model_font: Vec<u8>,
    model_file: Vec<u8>,
    model_feed: [u8; FEED_LEN],
    /// Bytes of a capture that were not fed yet.
    arrived: Vec<u8>,
    device: Lent,
    feed: Lent,
    ram: Lent,
    font: Lent,
    file: Lent,
    counts: [u64; 256],
    zero_spacings: ZeroSpacings,
}

impl<L: Library> Session<'_, L> {
    fn new(library: &mut L, seed: u64) -> Session<'_, L> {
        library.session(seed, false);
        let mut random = Random::new(seed);
        let mut page = vec![0; RAM];
        if !random.one_in(8) {
            random_page(&mut random, &mut page);
        }
        let mut device = Lent::new(&mut random, 32);
        assert_eq!(library.fresh(&mut device), 0);
        let mut feed = Lent::new(&mut random, FEED_LEN);
        assert_eq!(library.feed_fresh(&mut feed), 0);
        let ram = Lent::copy_of(&mut random, &page);
        let font = Lent::new(&mut random, FONT);
        let file = Lent::new(&mut random, FILE);
        Session {
            library,
            random,
            seed,
            call: 0,
            model: Device::fresh(),
            model_ram: page,
            model_font: font.get().to_vec(),
            model_file: file.get().to_vec(),
            model_feed: Feed::fresh().to_bytes(),
            arrived: vec![],
            device,
            feed,
            ram,
            font,
            file,
            counts: [0; 256],
            zero_spacings: ZeroSpacings::default(),
        }
    }

    fn differs(&self, what: &str, ours: impl std::fmt::Debug, model: impl std::fmt::Debug) -> ! {
        println!("seed {} call {}: {what}: library {ours:?}, model {model:?}", self.seed, self.call);
        exit(1);
    }

    fn same<T: PartialEq + std::fmt::Debug>(&self, what: &str, ours: T, model: T) {
        if ours != model {
            self.differs(what, ours, model);
        }
    }

    /// After every call: the answer, the records, the RAM, the font, the font file and what lies around them.
    fn check(&mut self, what: &str, ours: u32, model: u32) {
        self.same(what, ours, model);
        self.same("record", self.device.get(), &self.model.to_bytes()[..]);
        self.same("feed record", self.feed.get(), &self.model_feed[..]);
        self.same("RAM", self.ram.get(), &self.model_ram[..]);
        self.same("font", self.font.get(), &self.model_font[..]);
        self.same("font file", self.file.get(), &self.model_file[..]);
        let held = [&self.device, &self.feed, &self.ram, &self.font, &self.file].iter().all(|lent| lent.guards_hold());
        self.same("bytes around the buffers", held, true);
        self.counts[(ours >> 16) as usize] += 1;
        self.call += 1;
    }

    fn event(&mut self, kind: u8, byte: u8) {
        let event = Event::of_kind(kind, byte).expect("a kind");
        let model = packed(self.model.bus(&mut self.model_ram, event).map(u32::from));
        let ours = self.library.bus(&mut self.device, &mut self.ram, kind, byte);
        self.check("bus event", ours, model);
    }

    fn transfer(&mut self) {
        for (kind, byte) in traffic::transfer(&mut self.random) {
            self.event(kind, byte);
        }
    }

    /// Registers from 3FF0 on, over the bus.
    fn settings(&mut self, values: &[u8]) {
        for (kind, byte) in [(0, 0), (1, 0xBA), (1, 0x3F), (1, 0xF0)] {
            self.event(kind, byte);
        }
        for &byte in values {
            self.event(1, byte);
        }
        self.event(3, 0);
    }

    /// Settings that show something: mostly with the display on, and a CH of every size.
    fn display(&mut self) {
        let p = self.random.below(8) as u8;
        self.display_page(p);
    }

    fn display_page(&mut self, p: u8) {
        let ld = if self.random.one_in(3) { 63 } else { self.random.byte() };
        let dd = if self.random.one_in(4) { self.random.byte() } else { self.random.below(40) as u8 };
        let ch = self.random.byte();
        let ch = self.random.pick(&[0, 1, 9, 12, 18, 18, 36, 37, 63, ch]);
        let control = self.random.byte() & 0x78 | if self.random.one_in(8) { 0 } else { 0x80 };
        self.settings(&[ld, dd, ch, control | p]);
    }

    fn any_event(&mut self) {
        let (kind, byte) = traffic::any_event(&mut self.random);
        self.event(kind, byte);
    }

    /// Each sort of event in each state of the bus: with a kind and with a RAM that are refused before it, and then heard or not; and
    /// the same once more as a capture.
    fn each_state(&mut self) {
        let unknown = traffic::unknown_slave(self.seed);
        let mut other_ram = self.ram_of_another_length();
        let before = other_ram.get().to_vec();
        let mut events = vec![];
        for state in traffic::to_each_state(&mut self.random, unknown) {
            for (kind, byte) in traffic::each_event(&mut self.random, unknown) {
                for &(kind, byte) in &state {
                    self.event(kind, byte);
                }
                let bad = traffic::bad_kind(&mut self.random);
                let answer = self.library.bus(&mut self.device, &mut other_ram, bad, byte);
                self.check("kind above 3", answer, NOT_TAKEN);
                let answer = self.library.bus(&mut self.device, &mut other_ram, kind, byte);
                self.check("bus event, RAM length", answer, 1 << 16);
                self.event(kind, byte);
                events.extend(&state);
                events.push((kind, byte));
            }
        }
        self.same("refused: RAM", other_ram.get(), &before[..]);
        self.same("bytes around the RAM", other_ram.guards_hold(), true);
        self.feed_anew();
        self.arrived = traffic::bytes(&events);
        while !self.arrived.is_empty() {
            self.feed();
        }
    }

    fn frame_start(&mut self) {
        let lines = match self.random.below(6) {
            0 => self.random.pick(&[0, 1, 2048, 2049, 65_536, 65_537, u32::MAX]),
            1 => self.random.next() as u32,
            _ => 1 + self.random.below(300) as u32,
        };
        self.start(lines);
    }

    fn start(&mut self, lines: u32) {
        let model = packed(self.model.frame_start(lines).map(|()| 0));
        let ours = self.library.frame_start(&mut self.device, lines);
        self.check("frame start", ours, model);
    }

    /// A buffer length that is right, off by one, or any.
    fn length(&mut self, right: usize) -> usize {
        match self.random.below(12) {
            0 => right - 1,
            1 => right + 1,
            2 => self.random.below(2 * right as u64) as usize,
            3 => 0,
            _ => right,
        }
    }

    fn draw(&mut self) {
        let width = self.model.width();
        let room = if self.random.one_in(2) { 0 } else { self.random.below(40) as usize };
        let len = self.length(width) + room;
        let mut line = Lent::new(&mut self.random, len);
        let mut model_line = line.get().to_vec();
        let wrong_ram = self.random.one_in(20).then(|| self.length(RAM));
        let wrong_font = self.random.one_in(20).then(|| self.length(FONT));
        let other_ram = wrong_ram.map(|len| Lent::new(&mut self.random, len));
        let other_font = wrong_font.map(|len| Lent::new(&mut self.random, len));
        let ram = other_ram.as_ref().unwrap_or(&self.ram).get().to_vec();
        let font = other_font.as_ref().unwrap_or(&self.font);
        let model = packed(self.model.draw(&ram, font.get(), &mut model_line));
        let lent_ram = other_ram.as_ref().unwrap_or(&self.ram);
        let before = self.device.get().to_vec();
        let ours = self.library.draw(&mut self.device, lent_ram, font, &mut line);
        self.same("line", line.get(), &model_line[..]);
        self.same("bytes around the line", line.guards_hold(), true);
        self.check("draw", ours, model);
        self.drawn(&before, ours);
    }

    /// A draw was answered.
    fn drawn(&mut self, before: &[u8], answer: u32) {
        if answer >> 16 == 0 {
            self.zero_spacings.line(before, self.device.get(), answer);
        }
    }

    fn question(&mut self) {
        let cell = match self.random.below(8) {
            0 => self.random.pick(&[1023, 1024, 1025, 65_535, 65_536, 65_537, u32::MAX]),
            _ => self.random.below(RAM as u64) as u32,
        };
        self.ask(cell);
    }

    fn ask(&mut self, cell: u32) {
        let model = packed(self.model.cell(&self.model_ram, cell).map(u32::from));
        let ours = self.library.cell(&self.device, &self.ram, cell);
        self.check("cell question", ours, model);
        self.zero_spacings.question(self.device.get());
    }

    /// The top of tall letters, whose slice would round to 0: a frame of one to three lines, and before each draw a question about one
    /// of the first four cells of every user character.
    fn tall_letters(&mut self) {
        let (ch, control) = (37 + self.random.below(27) as u8, self.random.byte() | 0x80);
        self.settings(&[63, 4, ch, control]);
        let lines = 1 + self.random.below(3) as u32;
        self.start(lines);
        for _ in 0..lines {
            for number in 0..26 {
                let cell = 38 * number + self.random.below(4) as u32;
                self.ask(cell);
            }
            self.draw();
        }
    }

    /// A chunk of what has arrived of a capture, mostly with the room that it needs.
    fn feed(&mut self) {
        let before = Feed::from_bytes(&self.model_feed);
        let held = usize::from(matches!(before, Feed::Half(_)));
        if self.arrived.is_empty() {
            self.arrived = (0..held).map(|_| self.random.byte()).collect();
            self.arrived.extend(traffic::capture(&mut self.random));
        }
        let most = self.random.pick(&[1, 2, 3, 8, 24, 64]);
        let len = self.arrived.len().min(self.random.below(most + 1) as usize);
        let chunk = Lent::copy_of(&mut self.random, &self.arrived[..len]);
        let chunk_before = chunk.get().to_vec();
        let room = self.room((held + len) / 2 * 2);
        let mut out = Lent::new(&mut self.random, room);
        let mut model_out = out.get().to_vec();
        let mut other_ram = self.random.one_in(16).then(|| self.ram_of_another_length());
        let other_before = other_ram.as_ref().map(|ram| ram.get().to_vec());

        let mut feed = before;
        let mut no_ram = vec![];
        let model_ram = if other_ram.is_some() { &mut no_ram } else { &mut self.model_ram };
        let model = self.model.feed(&mut feed, model_ram, chunk.get(), &mut model_out);
        if model.refusal.is_none() || feed != before {
            self.model_feed = feed.to_bytes();
            self.arrived.drain(..len);
        }
        let ram = other_ram.as_mut().unwrap_or(&mut self.ram);
        let ours = self.library.feed(&mut self.device, &mut self.feed, ram, &chunk, &mut out);
        self.same("output", out.get(), &model_out[..]);
        self.same("chunk", chunk.get(), &chunk_before[..]);
        self.same("refused: RAM", other_ram.as_ref().map(|ram| ram.get()), other_before.as_deref());
        let held = [&chunk, &out].into_iter().chain(&other_ram).all(|lent| lent.guards_hold());
        self.same("bytes around chunk, output or RAM", held, true);
        self.check("chunk", ours, packed_fed(model));
    }

    /// Room for the output: enough, too little, or more.
    fn room(&mut self, needed: usize) -> usize {
        match self.random.below(10) {
            0 => needed.saturating_sub(1),
            1 => self.random.below(needed as u64 + 1) as usize,
            2 => needed + 1,
            3 => needed + self.random.below(40) as usize,
            _ => needed,
        }
    }

    fn wrong_length(&mut self, right: usize) -> usize {
        self.random.pick(&other_lens(right))
    }

    fn ram_of_another_length(&mut self) -> Lent {
        let len = self.wrong_length(RAM);
        Lent::new(&mut self.random, len)
    }

    /// A feed made anew, in mid-capture too; or any two bytes in its place.
    fn other_feed(&mut self) {
        if self.random.one_in(3) {
            let (state, byte) = (self.random.byte(), self.random.byte());
            let bytes = [self.random.pick(&[0, 0, 1, 1, 2, 3, state]), self.random.pick(&[0, 1, 2, 3, 4, byte])];
            self.feed = Lent::copy_of(&mut self.random, &bytes);
            self.model_feed = bytes;
        } else {
            self.feed_anew();
        }
        // The rest of the capture stays now and then: its bytes may be taken for the wrong halves of events.
        if !self.random.one_in(4) {
            self.arrived.clear();
        }
    }

    fn feed_anew(&mut self) {
        let ours = self.library.feed_fresh(&mut self.feed);
        self.model_feed = Feed::fresh().to_bytes();
        self.check("feed made anew", ours, 0);
    }

    /// Calls that the interface itself refuses, or for the RAM's length: nothing changes.
    fn refused(&mut self) {
        let len = self.wrong_length(DEVICE_LEN);
        let mut other = Lent::new(&mut self.random, len);
        let before = other.get().to_vec();
        let kind = self.random.byte();
        let byte = self.random.byte();
        let ram_len = self.length(RAM);
        let mut ram = Lent::new(&mut self.random, ram_len);
        let ram_before = ram.get().to_vec();
        let mut line = Lent::new(&mut self.random, 768);
        let line_before = line.get().to_vec();
        let feed_len = self.random.pick(&[0, 1, 3, 4, 32]);
        let mut other_feed = Lent::new(&mut self.random, feed_len);
        let feed_before = other_feed.get().to_vec();
        let (chunk_len, room) = (self.random.below(24) as usize, self.random.below(24) as usize);
        let chunk = Lent::new(&mut self.random, chunk_len);
        let mut out = Lent::new(&mut self.random, room);
        let out_before = out.get().to_vec();
        let number = self.random.next() as u32;
        for answer in [
            self.library.fresh(&mut other),
            self.library.reset(&mut other),
            self.library.bus(&mut other, &mut ram, kind, byte),
            self.library.frame_start(&mut other, number),
            self.library.draw(&mut other, &ram, &self.font, &mut line),
            self.library.cell(&other, &ram, number),
            self.library.feed_fresh(&mut other_feed),
            self.library.feed(&mut other, &mut self.feed, &mut ram, &chunk, &mut out),
            self.library.feed(&mut self.device, &mut other_feed, &mut ram, &chunk, &mut out),
            self.library.feed(&mut other, &mut other_feed, &mut ram, &chunk, &mut out),
        ] {
            self.check("record of another length", answer, NOT_TAKEN);
        }
        let kind = traffic::bad_kind(&mut self.random);
        let answer = self.library.bus(&mut self.device, &mut ram, kind, byte);
        self.check("kind above 3", answer, NOT_TAKEN);
        if ram_len != RAM {
            let kind = self.random.below(4) as u8;
            let answer = self.library.bus(&mut self.device, &mut ram, kind, byte);
            self.check("bus event, RAM length", answer, 1 << 16);
            let answer = self.library.cell(&self.device, &ram, number);
            self.check("cell question, RAM length", answer, 1 << 16);
        }
        self.same("refused: record", other.get(), &before[..]);
        self.same("refused: RAM", ram.get(), &ram_before[..]);
        self.same("refused: line", line.get(), &line_before[..]);
        self.same("refused: feed record", other_feed.get(), &feed_before[..]);
        self.same("refused: output", out.get(), &out_before[..]);
        let held = [&other, &ram, &line, &other_feed, &chunk, &out].iter().all(|lent| lent.guards_hold());
        self.same("bytes around the buffers", held, true);
    }

    fn reset(&mut self) {
        self.model.reset();
        let ours = self.library.reset(&mut self.device);
        self.check("reset", ours, 0);
    }

    fn run(&mut self) {
        self.display();
        self.frame_start();
        while self.call < CALLS {
            match self.random.below(32) {
                0..=3 => self.transfer(),
                4 if self.random.one_in(4) => self.display(),
                4 => self.transfer(),
                5 => self.any_event(),
                6 => self.frame_start(),
                7..=15 => self.draw(),
                16..=17 => self.question(),
                18 => self.refused(),
                20..=26 => self.feed(),
                27 if self.model_feed[0] > 1 || self.random.one_in(3) => self.other_feed(),
                27 => self.feed(),
                28..=30 => self.pixel(),
                31 => self.font_file(),
                _ if self.random.one_in(10) => self.reset(),
                _ => self.any_event(),
            }
        }
        for cell in 0..RAM as u32 {
            self.ask(cell);
        }
        self.tall_letters();
        self.refused_pixels();
        self.font_files();
        self.still_frame();
        self.seams();
        self.plain_rest();
        self.zero_spacings();
        self.still_zero_frame();
        self.each_state();
    }
}

/// What a session met: how often each refusal, and what of zero spacings.
pub struct Played {
    pub refusals: [u64; 256],
    pub zero_spacings: ZeroSpacings,
}

/// Plays a seed's session. Ends the program at the first difference.
pub fn play<L: Library>(library: &mut L, seed: u64) -> Played {
    let mut session = Session::new(library, seed);
    session.run();
    Played { refusals: session.counts, zero_spacings: session.zero_spacings }
}
