//! The proved library, as include/osd.h declares it.

use crate::library::Place;

mod c {
    extern "C" {
        pub fn osd_device_len() -> u32;
        pub fn osd_fresh(device: *mut u8, device_len: usize) -> u32;
        pub fn osd_reset(device: *mut u8, device_len: usize) -> u32;
        pub fn osd_bus(device: *mut u8, device_len: usize, ram: *mut u8, ram_len: usize, kind: u8, byte: u8) -> u32;
        pub fn osd_frame_start(device: *mut u8, device_len: usize, lines: u32) -> u32;
        pub fn osd_draw(
            device: *mut u8,
            device_len: usize,
            ram: *const u8,
            ram_len: usize,
            font: *const u8,
            font_len: usize,
            line: *mut u8,
            line_len: usize,
        ) -> u32;
        pub fn osd_cell(device: *const u8, device_len: usize, ram: *const u8, ram_len: usize, cell: u32) -> u32;
        pub fn osd_pixel(
            device: *const u8,
            device_len: usize,
            ram: *const u8,
            ram_len: usize,
            font: *const u8,
            font_len: usize,
            lines: u32,
            frame: u32,
            x: u32,
            y: u32,
        ) -> u32;
        pub fn osd_feed_len() -> u32;
        pub fn osd_feed_fresh(feed: *mut u8, feed_len: usize) -> u32;
        pub fn osd_feed(
            device: *mut u8,
            device_len: usize,
            feed: *mut u8,
            feed_len: usize,
            ram: *mut u8,
            ram_len: usize,
            chunk: *const u8,
            chunk_len: usize,
            out: *mut u8,
            out_len: usize,
        ) -> u32;
        pub fn osd_font_write(font: *const u8, font_len: usize, file: *mut u8, file_len: usize) -> u32;
        pub fn osd_font_read(file: *const u8, file_len: usize, font: *mut u8, font_len: usize) -> u32;
    }
}

/// NULL where there is no byte, as the header allows.
fn pointer(bytes: &[u8]) -> *const u8 {
    if bytes.is_empty() {
        return core::ptr::null();
    }
    bytes.as_ptr()
}

fn pointer_mut(bytes: &mut [u8]) -> *mut u8 {
    if bytes.is_empty() {
        return core::ptr::null_mut();
    }
    bytes.as_mut_ptr()
}

pub fn device_len() -> u32 {
    unsafe { c::osd_device_len() }
}

pub fn fresh(device: &mut [u8]) -> u32 {
    unsafe { c::osd_fresh(pointer_mut(device), device.len()) }
}

pub fn reset(device: &mut [u8]) -> u32 {
    unsafe { c::osd_reset(pointer_mut(device), device.len()) }
}

#[inline]
pub fn bus(device: &mut [u8], ram: &mut [u8], kind: u8, byte: u8) -> u32 {
    unsafe { c::osd_bus(pointer_mut(device), device.len(), pointer_mut(ram), ram.len(), kind, byte) }
}

pub fn frame_start(device: &mut [u8], lines: u32) -> u32 {
    unsafe { c::osd_frame_start(pointer_mut(device), device.len(), lines) }
}

#[inline]
pub fn draw(device: &mut [u8], ram: &[u8], font: &[u8], line: &mut [u8]) -> u32 {
    unsafe {
        c::osd_draw(
            pointer_mut(device),
            device.len(),
            pointer(ram),
            ram.len(),
            pointer(font),
            font.len(),
            pointer_mut(line),
            line.len(),
        )
    }
}

#[inline]
pub fn cell(device: &[u8], ram: &[u8], cell: u32) -> u32 {
    unsafe { c::osd_cell(pointer(device), device.len(), pointer(ram), ram.len(), cell) }
}

#[inline]
pub fn pixel(device: &[u8], ram: &[u8], font: &[u8], Place { lines, frame, x, y }: Place) -> u32 {
    let (device_len, ram_len, font_len) = (device.len(), ram.len(), font.len());
    unsafe { c::osd_pixel(pointer(device), device_len, pointer(ram), ram_len, pointer(font), font_len, lines, frame, x, y) }
}

pub fn feed_len() -> u32 {
    unsafe { c::osd_feed_len() }
}

pub fn feed_fresh(feed: &mut [u8]) -> u32 {
    unsafe { c::osd_feed_fresh(pointer_mut(feed), feed.len()) }
}

#[inline]
pub fn feed(device: &mut [u8], feed: &mut [u8], ram: &mut [u8], chunk: &[u8], out: &mut [u8]) -> u32 {
    unsafe {
        c::osd_feed(
            pointer_mut(device),
            device.len(),
            pointer_mut(feed),
            feed.len(),
            pointer_mut(ram),
            ram.len(),
            pointer(chunk),
            chunk.len(),
            pointer_mut(out),
            out.len(),
        )
    }
}

#[inline]
pub fn font_write(font: &[u8], file: &mut [u8]) -> u32 {
    unsafe { c::osd_font_write(pointer(font), font.len(), pointer_mut(file), file.len()) }
}

#[inline]
pub fn font_read(file: &[u8], font: &mut [u8]) -> u32 {
    unsafe { c::osd_font_read(pointer(file), file.len(), pointer_mut(font), font.len()) }
}
