//! A host's traffic on the bus, and captures of it: two bytes an event, as a logger stores them.

use crate::pages::RAM;
use crate::random::Random;

/// Kind and byte of an event.
pub type Logged = (u8, u8);

/// An address on the bus, mostly of a register or of RAM.
pub fn address(random: &mut Random) -> u64 {
    match random.below(4) {
        0 => 0x3FF0 + random.below(16),
        1 => random.below(0x4000),
        _ => random.below(RAM as u64 + 4),
    }
}

/// A store or a read of some bytes, as a host makes it.
pub fn transfer(random: &mut Random) -> Vec<Logged> {
    let address = address(random);
    // The two highest bits of an address do not count, nor does the byte of a start or stop.
    let spare = random.byte();
    let mut events = vec![(0, 0), (1, 0xBA), (1, (address >> 8) as u8 | spare & 0xC0), (1, address as u8)];
    if random.one_in(2) {
        events.extend([(0, spare), (1, 0xBB)]);
    }
    for _ in 0..random.below(6) {
        events.push((1 + u8::from(random.one_in(3)), random.byte()));
    }
    events.push((3, spare));
    events
}

/// Any event, a slave address more often than other bytes.
pub fn any_event(random: &mut Random) -> Logged {
    let kind = random.below(4) as u8;
    (kind, if random.one_in(2) { random.pick(&[0xBA, 0xBB]) } else { random.byte() })
}

/// A kind that there is not.
pub fn bad_kind(random: &mut Random) -> u8 {
    4 + random.below(252) as u8
}

/// A byte that is no slave address of the device. Any 254 numbers in a row give all of them.
pub fn unknown_slave(number: u64) -> u8 {
    0xBC_u8.wrapping_add((number % 254) as u8)
}

/// What leads to each state of the bus from any other: idle, deaf, slave address next, high byte next, low byte next, writing, reading.
pub fn to_each_state(random: &mut Random, unknown: u8) -> [Vec<Logged>; 7] {
    let address = address(random);
    let (high, low) = ((address >> 8) as u8, address as u8);
    [
        vec![(3, 0)],
        vec![(0, 0), (1, unknown)],
        vec![(0, 0)],
        vec![(0, 0), (1, 0xBA)],
        vec![(0, 0), (1, 0xBA), (1, high)],
        vec![(0, 0), (1, 0xBA), (1, high), (1, low)],
        vec![(0, 0), (1, 0xBB)],
    ]
}

/// An event of each sort, with both slave addresses and another byte.
pub fn each_event(random: &mut Random, other: u8) -> [Logged; 6] {
    let spare = random.byte();
    [(0, spare), (1, 0xBA), (1, 0xBB), (1, other), (2, spare), (3, spare)]
}

/// One to three transfers in a logger's bytes; now and then with an event that has no place there, or with a bad kind.
pub fn capture(random: &mut Random) -> Vec<u8> {
    let mut events = vec![];
    for _ in 0..1 + random.below(3) {
        events.extend(transfer(random));
        if random.one_in(4) {
            events.push(any_event(random));
        }
    }
    if random.one_in(8) {
        let bad = random.below(events.len() as u64) as usize;
        events[bad].0 = if random.one_in(2) { 4 } else { bad_kind(random) };
    }
    bytes(&events)
}

/// A logger's two bytes an event.
pub fn bytes(events: &[Logged]) -> Vec<u8> {
    events.iter().flat_map(|&(kind, byte)| [kind, byte]).collect()
}
