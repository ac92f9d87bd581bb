//! The sixteen registers and the settings they hold.

/// Register bytes with their unused bits always 0.
#[derive(Clone, Copy, PartialEq, Eq, Debug)]
pub(crate) struct Registers([u8; Registers::COUNT]);

impl Registers {
    pub(crate) const COUNT: usize = 16;

    /// Bits that each register keeps.
    pub(crate) const KEPT: [u8; Self::COUNT] = [
        0xFF, 0xFF, 0x3F, 0xF7, 0xF7, 0x77, 0xFF, 0x0F, // display
        0xFF, 0xFF, 0xFF, 0xFF, 0xFF, 0xFF, 0xFF, 0xFF, // PWM
    ];

    pub(crate) const RESET: Registers = Registers([
        0x3F, 0x08, 0x12, 0x00, 0x22, 0x33, 0x28, 0x0A, // display
        0, 0, 0, 0, 0, 0, 0, 0, // PWM
    ]);

    /// Registers from any bytes, unused bits dropped.
    pub(crate) fn masked(mut bytes: [u8; Self::COUNT]) -> Registers {
        for (byte, kept) in bytes.iter_mut().zip(Self::KEPT) {
            *byte &= kept;
        }
        Registers(bytes)
    }

    pub(crate) fn bytes(&self) -> [u8; Self::COUNT] {
        self.0
    }

    #[inline]
    pub(crate) fn load(&self, number: u16) -> u8 {
        self.0[usize::from(number) % Self::COUNT]
    }

    #[inline]
    pub(crate) fn store(&mut self, number: u16, byte: u8) {
        let number = usize::from(number) % Self::COUNT;
        self.0[number] = byte & Self::KEPT[number];
    }

    /// Pixels of a line, W.
    #[inline]
    pub(crate) fn width(&self) -> usize {
        12 * (usize::from(self.0[0] & 0x3F) + 1)
    }

    /// Pixel at which characters start; it may lie beyond the line.
    #[inline]
    pub(crate) fn text_start(&self) -> usize {
        3 * (usize::from(self.0[1].max(4)) + 8)
    }

    /// Codes that a line has room for, a last one cut short included.
    #[inline]
    pub(crate) fn codes_per_line(&self) -> u16 {
        let room = self.width().saturating_sub(self.text_start());
        room.div_ceil(12) as u16
    }

    /// Lines of an unzoomed character strip, 1 to 63.
    #[inline]
    pub(crate) fn height(&self) -> u8 {
        self.0[2].max(1)
    }

    #[inline]
    pub(crate) fn display_on(&self) -> bool {
        self.0[3] & 0x80 != 0
    }

    /// A pixel that shows neither character nor background: black, and
    /// transparent unless FBK says otherwise.
    #[inline]
    pub(crate) fn plain_pixel(&self) -> u8 {
        (self.0[3] & 0x40) >> 3
    }

    /// Are flashing characters hidden in the frame of this number?
    #[inline]
    pub(crate) fn flash_hidden(&self, frame_number: u8) -> bool {
        const SHOWN_BELOW: [u8; 4] = [64, 32, 16, 48];
        frame_number >= SHOWN_BELOW[usize::from(self.0[3] >> 4 & 3)]
    }

    /// Cell of a frame's first descriptor.
    #[inline]
    pub(crate) fn first_descriptor(&self) -> u16 {
        u16::from(self.0[3] & 7) * 64
    }
}
