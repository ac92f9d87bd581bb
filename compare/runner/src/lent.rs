//! Lent buffers, each between guards.

use crate::random::Random;
use std::sync::atomic::{AtomicU64, Ordering};

/// Bytes before and behind each lent buffer that no call may touch.
const GUARD: usize = 24;

/// A lent buffer between guards.
pub struct Lent {
    bytes: Vec<u8>,
    guard: u8,
    number: u64,
    filled_from: Random,
}

static LENT: AtomicU64 = AtomicU64::new(1);

impl Lent {
    pub fn new(random: &mut Random, len: usize) -> Lent {
        let guard = random.byte();
        let mut bytes = vec![guard; len + 2 * GUARD];
        let filled_from = random.clone();
        random.fill(&mut bytes[GUARD..GUARD + len]);
        Lent { bytes, guard, number: LENT.fetch_add(1, Ordering::Relaxed), filled_from }
    }

    pub fn copy_of(random: &mut Random, content: &[u8]) -> Lent {
        let mut lent = Lent::new(random, content.len());
        lent.get_mut().copy_from_slice(content);
        lent
    }

    pub fn get(&self) -> &[u8] {
        &self.bytes[GUARD..self.bytes.len() - GUARD]
    }

    pub fn get_mut(&mut self) -> &mut [u8] {
        let end = self.bytes.len() - GUARD;
        &mut self.bytes[GUARD..end]
    }

    pub fn guards_hold(&self) -> bool {
        let end = self.bytes.len() - GUARD;
        self.bytes[..GUARD].iter().chain(&self.bytes[end..]).all(|&byte| byte == self.guard)
    }

    /// Its number: no other buffer has it.
    pub fn number(&self) -> u64 {
        self.number
    }

    /// Where the random numbers stood when it was filled.
    pub fn filled_from(&self) -> &Random {
        &self.filled_from
    }
}
