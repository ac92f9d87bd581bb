//! Captures on the proved library: however one is cut, the joined outputs, the feed, the device record and the RAM are those of one feed of
//! the whole, and those of one bus event after the other.

use crate::lent::Lent;
use crate::library::{Library, Linked, CHUNK_MAX};
use crate::linked;
use crate::pages::RAM;
use crate::random::Random;
use crate::traffic;
use osd_model::{feed_bytes, Device, DEVICE_LEN, FEED_LEN, NOT_TAKEN};
use std::process::exit;

const RANDOM_CUTS: usize = 200;

/// The records and the RAM, before or behind a capture, and what it wrote.
#[derive(Clone, PartialEq)]
struct State {
    device: [u8; DEVICE_LEN],
    feed: [u8; FEED_LEN],
    ram: Vec<u8>,
    out: Vec<u8>,
}

fn require(holds: bool, otherwise: &str) {
    if !holds {
        println!("{otherwise}");
        exit(1);
    }
}

impl State {
    fn fresh() -> State {
        let mut state = State { device: [0; DEVICE_LEN], feed: [255; FEED_LEN], ram: vec![0; RAM], out: vec![] };
        assert_eq!(linked::fresh(&mut state.device), 0);
        assert_eq!(linked::feed_fresh(&mut state.feed), 0);
        state
    }

    fn held(&self) -> usize {
        usize::from(self.feed[0] == 1)
    }

    /// Feeds the chunks one after the other, each with just the room that it needs.
    fn fed(&self, random: &mut Random, chunks: &[&[u8]]) -> State {
        let mut device = Lent::copy_of(random, &self.device);
        let mut feed = Lent::copy_of(random, &self.feed);
        let mut ram = Lent::copy_of(random, &self.ram);
        let mut joined = vec![];
        let mut held = true;
        for chunk in chunks {
            let is_half = usize::from(feed.get()[0] == 1);
            let mut out = Lent::new(random, (is_half + chunk.len()) / 2 * 2);
            let chunk = Lent::copy_of(random, chunk);
            let answer = Linked.feed(&mut device, &mut feed, &mut ram, &chunk, &mut out);
            let written = (answer & 0xFFFF) as usize;
            let expected = if feed.get()[0] > 1 { 9 } else { 0 };
            require(answer >> 16 == expected && written <= out.get().len(), &format!("a chunk answers {answer}"));
            joined.extend_from_slice(&out.get()[..written]);
            held = held && out.guards_hold() && chunk.guards_hold();
        }
        held = held && device.guards_hold() && feed.guards_hold() && ram.guards_hold();
        require(held, "a chunk changed bytes around the buffers");
        State {
            device: device.get().try_into().unwrap(),
            feed: feed.get().try_into().unwrap(),
            ram: ram.get().to_vec(),
            out: joined,
        }
    }

    /// The same by one call of the bus for each event.
    fn by_events(&self, capture: &[u8]) -> State {
        let mut state = self.clone();
        if self.feed[0] > 1 {
            return state;
        }
        let arrived = [&self.feed[2 - self.held()..], capture].concat();
        let events = arrived.chunks_exact(2);
        state.feed = events.remainder().first().map_or([0, 0], |&half| [1, half]);
        for event in events {
            if event[0] > 3 {
                state.feed = [2, 0];
                break;
            }
            let answer = linked::bus(&mut state.device, &mut state.ram, event[0], event[1]);
            state.out.extend([u8::from(answer >> 16 == 0), answer as u8]);
        }
        state
    }

    /// The same by the model.
    fn by_model(&self, capture: &[u8]) -> State {
        let mut state = self.clone();
        state.out = vec![0; capture.len() + 1];
        let answer = feed_bytes(&mut state.device, &mut state.feed, &mut state.ram, capture, &mut state.out);
        state.out.truncate((answer & 0xFFFF) as usize);
        state
    }

    /// Compares a capture fed whole with every cut of it. Answers how many times it was fed.
    fn compare(&self, name: &str, random: &mut Random, capture: &[u8]) -> usize {
        let whole = self.fed(random, &[capture]);
        require(whole == self.by_events(capture), &format!("{name}: the whole is not as its bus events"));
        require(whole == self.by_model(capture), &format!("{name}: the whole is not as the model's"));
        for place in 0..=capture.len() {
            let (first, second) = capture.split_at(place);
            let cut = self.fed(random, &[first, &[], second]);
            require(cut == whole, &format!("{name}: cut at {place} it is not as the whole"));
        }
        let bytes: Vec<&[u8]> = capture.chunks(1).collect();
        require(self.fed(random, &bytes) == whole, &format!("{name}: in single bytes it is not as the whole"));
        for _ in 0..RANDOM_CUTS {
            let chunks = random_cut(random, capture);
            let lens: Vec<usize> = chunks.iter().map(|chunk| chunk.len()).collect();
            require(self.fed(random, &chunks) == whole, &format!("{name}: in chunks of {lens:?} it is not as the whole"));
        }
        capture.len() + RANDOM_CUTS + 3
    }
}

/// Chunks of any length up to some most, empty ones among them.
fn random_cut<'a>(random: &mut Random, capture: &'a [u8]) -> Vec<&'a [u8]> {
    let most = 1 + random.below(capture.len() as u64);
    let (mut chunks, mut rest) = (vec![], capture);
    while !rest.is_empty() {
        let (chunk, behind) = rest.split_at(rest.len().min(random.below(most + 1) as usize));
        chunks.push(chunk);
        rest = behind;
    }
    chunks
}

/// A capture on a fresh device with RAM all zero. Answers how many times it was fed.
pub fn sample(capture: &[u8]) -> usize {
    State::fresh().compare("sample capture", &mut Random::new(0), capture)
}

/// A random capture on made-up records and RAM, which may end in half an event. Answers how many times it was fed.
pub fn made_up(seed: u64) -> usize {
    let mut random = Random::new(seed << 32);
    let mut start = State { device: [0; DEVICE_LEN], feed: [0; FEED_LEN], ram: vec![0; RAM], out: vec![] };
    random.fill(&mut start.device);
    random.fill(&mut start.ram);
    start.device[0] %= 8;
    if random.one_in(2) {
        start.device = Device::from_bytes(&start.device).to_bytes();
    }
    start.feed = [random.pick(&[0, 0, 0, 1, 1, 1, 2, 255]), random.byte() % 5];
    let capture = traffic::capture(&mut random);
    let end = capture.len() - random.below(2) as usize;
    start.compare(&format!("seed {seed}"), &mut random, &capture[start.held()..end])
}

/// The longest chunk, and longer ones, which are refused before all else.
pub fn longest() {
    let mut random = Random::new(0);
    let mut capture = traffic::bytes(&[(0, 0), (1, 0xBA), (1, 0), (1, 0)]);
    while capture.len() < 2 * CHUNK_MAX + 4 {
        capture.extend([1, random.byte()]);
    }
    for feed in [[0, 0], [1, 0]] {
        let start = State { feed, ..State::fresh() };
        let chunk = &capture[start.held()..][..CHUNK_MAX];
        let whole = start.fed(&mut random, &[chunk]);
        require(whole == start.by_events(chunk), "the longest chunk is not as its bus events");
        require(whole.out.len() == CHUNK_MAX, "the longest chunk does not write as many bytes");
    }
    for len in [CHUNK_MAX + 1, CHUNK_MAX + 2, 2 * CHUNK_MAX + 4] {
        for (feed, ram_len) in [([0, 7], RAM), ([1, 0], RAM), ([2, 0], RAM), ([3, 0], 0)] {
            let before = State { feed, ram: vec![7; ram_len], out: vec![9; len + 2], ..State::fresh() };
            let mut left = before.clone();
            let answer = linked::feed(&mut left.device, &mut left.feed, &mut left.ram, &capture[..len], &mut left.out);
            require(
                answer == NOT_TAKEN && left == before,
                &format!("a chunk of {len} bytes answers {answer}, or changes something"),
            );
        }
    }
}
