//! Bus captures, fed in chunks: a logger's two bytes an event, and two bytes
//! out for each event that is complete. A capture may be cut anywhere.
//!
//! A feed has two bytes:
//!
//! | Bytes | Content |
//! |---|---|
//! | 0 | 0 open, 1 half an event is held; any other: shut (written as 2) |
//! | 1 | the half that is held in state 1, else 0 |

use crate::bytes::{bus_bytes, counter, leave_counter, load, next, refused, store, READING, WRITING};
use crate::{Device, Event, Refusal, DEVICE_LEN, RAM_LEN};

type Record = [u8; DEVICE_LEN];

/// Bytes of a feed record.
pub const FEED_LEN: usize = 2;

const OPEN: u8 = 0;
const HALF: u8 = 1;
const SHUT: u8 = 2;

const BYTE: u8 = 1;
const FETCH: u8 = 2;
const LAST_KIND: u8 = 3;

/// What a chunk leaves for the next one.
#[derive(Clone, Copy, PartialEq, Eq, Debug)]
pub enum Feed {
    /// The next byte is a kind.
    Open,
    /// A kind has arrived, its byte has not: no event yet, whatever it is.
    Half(u8),
    /// After a bad kind, until it is made anew.
    Shut,
}

/// What came of a chunk.
#[derive(Clone, Copy, PartialEq, Eq, Debug)]
pub struct Fed {
    /// Output bytes that this chunk wrote, with a refusal too.
    pub written: usize,
    /// Why not all of the chunk was taken.
    pub refusal: Option<Refusal>,
}

impl Fed {
    const fn nothing(refusal: Refusal) -> Fed {
        Fed { written: 0, refusal: Some(refusal) }
    }
}

impl Default for Feed {
    fn default() -> Self {
        Self::fresh()
    }
}

impl Feed {
    /// A feed before its first chunk.
    #[must_use]
    pub const fn fresh() -> Feed {
        Feed::Open
    }

    /// This feed in the module's byte layout.
    #[must_use]
    pub const fn to_bytes(self) -> [u8; FEED_LEN] {
        match self {
            Feed::Open => [OPEN, 0],
            Feed::Half(kind) => [HALF, kind],
            Feed::Shut => [SHUT, 0],
        }
    }

    /// The feed in these bytes; any bytes give one.
    #[must_use]
    pub const fn from_bytes(bytes: &[u8; FEED_LEN]) -> Feed {
        match *bytes {
            [OPEN, _] => Feed::Open,
            [HALF, kind] => Feed::Half(kind),
            _ => Feed::Shut,
        }
    }
}

impl Device {
    /// Takes a chunk of a capture, byte by byte: each event that it completes
    /// goes to the bus, and writes 1 or 0 for acknowledged and its byte.
    ///
    /// The output needs room for all of them before the first is taken. A bad
    /// kind shuts the feed when its event is complete; what was before it
    /// stands, the rest of the chunk is dropped.
    pub fn feed(&mut self, feed: &mut Feed, ram: &mut [u8], chunk: &[u8], out: &mut [u8]) -> Fed {
        if ram.len() != RAM_LEN {
            return Fed::nothing(Refusal::RamLength);
        }
        let held = match feed {
            Feed::Open => 0,
            Feed::Half(_) => 1,
            Feed::Shut => return Fed::nothing(Refusal::FeedShut),
        };
        if out.len() < (held + chunk.len()) / 2 * 2 {
            return Fed::nothing(Refusal::OutputRoom);
        }
        let mut written = 0;
        for &byte in chunk {
            let Feed::Half(kind) = *feed else {
                *feed = Feed::Half(byte);
                continue;
            };
            let Some(event) = Event::of_kind(kind, byte) else {
                *feed = Feed::Shut;
                return Fed { written, refusal: Some(Refusal::FeedShut) };
            };
            let answer = match self.bus(ram, event) {
                Ok(byte) => [1, byte],
                Err(refusal) => [0, refusal.bus_byte()],
            };
            out[written..written + 2].copy_from_slice(&answer);
            written += 2;
            *feed = Feed::Open;
        }
        Fed { written, refusal: None }
    }
}

/// Takes a chunk on a device record and a feed record in place. Answers the
/// refusal's number times 65,536 plus the output bytes written; so that these
/// fit, the chunk may have 65,534 bytes at most.
///
/// The device record is left as [`bus_bytes`] leaves it, event by event.
#[inline]
pub fn feed_bytes(device: &mut Record, feed: &mut [u8; FEED_LEN], ram: &mut [u8], chunk: &[u8], out: &mut [u8]) -> u32 {
    let Ok(ram) = <&mut [u8; RAM_LEN]>::try_from(ram) else {
        return refused(Refusal::RamLength);
    };
    let mut left = Feed::from_bytes(feed);
    let held = match left {
        Feed::Open => 0,
        Feed::Half(_) => 1,
        Feed::Shut => return refused(Refusal::FeedShut),
    };
    let (answers, _) = out.as_chunks_mut();
    let Some(answers) = answers.get_mut(..(held + chunk.len()) / 2) else {
        return refused(Refusal::OutputRoom);
    };

    let (mut taken, mut rest) = (0, chunk);
    if let (Feed::Half(kind), [byte, behind @ ..]) = (left, chunk) {
        taken = play(device, ram, &[[kind, *byte]], answers);
        (left, rest) = (Feed::Open, behind);
    }
    // Nothing is played behind a held half that was no kind.
    if taken == held {
        let (events, half) = rest.as_chunks();
        taken += play(device, ram, events, &mut answers[taken..]);
        if let &[kind] = half {
            left = Feed::Half(kind);
        }
    }
    if taken < answers.len() {
        *feed = Feed::Shut.to_bytes();
        return refused(Refusal::FeedShut) + 2 * taken as u32;
    }
    *feed = left.to_bytes();
    2 * taken as u32
}

/// Plays events up to a bad kind, and answers how many. Data bytes and fetches
/// go in runs, with the counter out of the record.
#[inline]
fn play(device: &mut Record, ram: &mut [u8; RAM_LEN], events: &[[u8; 2]], answers: &mut [[u8; 2]]) -> usize {
    let mut played = 0;
    while let [[kind, byte], ..] = events[played..] {
        let (events, answers) = (&events[played..], &mut answers[played..]);
        played += match (kind, device[0]) {
            (BYTE, WRITING) => run(device, events, answers, |device, counter, byte| {
                store(device, ram, counter, byte);
                0
            }),
            (FETCH, READING) => run(device, events, answers, |device, counter, _| load(device, ram, counter)),
            (0..=LAST_KIND, _) => {
                let answer = bus_bytes(device, ram, kind, byte);
                answers[0] = [u8::from(answer >> 16 == 0), answer as u8];
                1
            }
            _ => break,
        };
    }
    played
}

/// Plays the first event and those behind it that are of its kind, and answers
/// how many. `access` gives the byte of the event at an address.
#[inline]
fn run(
    device: &mut Record,
    events: &[[u8; 2]],
    answers: &mut [[u8; 2]],
    mut access: impl FnMut(&mut Record, u16, u8) -> u8,
) -> usize {
    let mut at = counter(device);
    let mut played = 0;
    for (&[kind, byte], answer) in events.iter().zip(answers) {
        if kind != events[0][0] {
            break;
        }
        *answer = [1, access(device, at, byte)];
        at = next(at);
        played += 1;
    }
    leave_counter(device, at);
    played
}
