//! The independent implementation's bus events and chunks, lent buffers of any length as include/osd.h has them.

use crate::library::CHUNK_MAX;
use osd_model::{bus_bytes, feed_bytes, NOT_TAKEN};

pub fn bus(device: &mut [u8], ram: &mut [u8], kind: u8, byte: u8) -> u32 {
    match device.try_into() {
        Ok(record) => bus_bytes(record, ram, kind, byte),
        Err(_) => NOT_TAKEN,
    }
}

pub fn feed(device: &mut [u8], feed: &mut [u8], ram: &mut [u8], chunk: &[u8], out: &mut [u8]) -> u32 {
    match (device.try_into(), feed.try_into()) {
        (Ok(record), Ok(feed)) if chunk.len() <= CHUNK_MAX => feed_bytes(record, feed, ram, chunk, out),
        _ => NOT_TAKEN,
    }
}
