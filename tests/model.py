"""A second implementation of document 01 and of the requests that have landed, for the stored outputs of the test programs.

It was written from their words alone, as a device that is told what to do step by step, and shares nothing with the Rattle code or
with the definitions in specs/. The pixel of request K5 is read from the words once more, apart from the device's lines. The scripts
beside it make a program's stdin and stdout from it.
"""
import copy
import math
from fractions import Fraction

RESET = [0x3F, 0x08, 0x12, 0x00, 0x22, 0x33, 0x28, 0x0A] + [0] * 8
KEPT = [0xFF, 0xFF, 0x3F, 0xF7, 0xF7, 0x77, 0xFF, 0x0F] + [0xFF] * 8
ACKNOWLEDGED = (0, 0)
# not acknowledged, as request K6 has it
IDLE = (5, 255)
NOT_ADDRESSED = (12, 255)
READING = (13, 255)
WRITING = (14, 255)
SHOWN_BELOW = {1: 32, 2: 16, 3: 48}
LOGGED = {0: 'start', 1: 'byte', 2: 'fetch', 3: 'stop'}


class Device:
    def __init__(self):
        self.reset()

    def reset(self):
        self.registers = list(RESET)
        self.mode, self.counter, self.high = 'idle', 0, 0
        self.left, self.next_number = 0, 0

    # ---- bus: (refusal, byte)

    def event(self, ram, kind, x=0):
        if len(ram) != 1024:
            return (1, 0)
        if kind == 'start':
            self.mode = 'slave'
            return ACKNOWLEDGED
        if kind == 'stop':
            self.mode = 'idle'
            return ACKNOWLEDGED
        if self.mode == 'idle':
            return IDLE
        if self.mode == 'deaf':
            return NOT_ADDRESSED
        if kind == 'byte':
            return self.host_byte(ram, x)
        if self.mode != 'read':
            return WRITING
        return (0, self.load(ram, self.step()))

    def host_byte(self, ram, x):
        if self.mode == 'read':
            return READING
        if self.mode == 'slave':
            self.mode = {0xBA: 'high', 0xBB: 'read'}.get(x, 'deaf')
            return NOT_ADDRESSED if self.mode == 'deaf' else ACKNOWLEDGED
        if self.mode == 'high':
            self.high, self.mode = x, 'low'
        elif self.mode == 'low':
            self.counter, self.mode = (self.high & 63) << 8 | x, 'write'
        else:
            self.store(ram, self.step(), x)
        return ACKNOWLEDGED

    def step(self):
        at = self.counter
        self.counter = 0 if at == 0x3FFF else at + 1
        return at

    def store(self, ram, a, x):
        if a <= 0x3FF:
            ram[a] = x
        elif a >= 0x3FF0:
            self.registers[a - 0x3FF0] = x & KEPT[a - 0x3FF0]

    def load(self, ram, a):
        if a <= 0x3FF:
            return ram[a]
        return self.registers[a - 0x3FF0] if a >= 0x3FF0 else 0

    # ---- frame start: the refusal

    def start(self, lines):
        if not 1 <= lines <= 2048:
            return 6
        self.left = lines
        self.number, self.next_number = self.next_number, (self.next_number + 1) % 64
        self.descriptor = (self.registers[3] & 7) << 6
        self.kind, self.line_of_strip, self.strip_lines = None, 0, 0
        return 0

    # ---- draw: (refusal, read count), and the line in buf

    def draw(self, ram, font, buf):
        width = 12 * ((self.registers[0] & 63) + 1)
        if len(ram) != 1024:
            return (1, 0)
        if len(font) != 4608:
            return (2, 0)
        if self.left == 0:
            return (4, 0)
        if len(buf) < width:
            return (3, 0)
        reads = []
        line = self.scan_line(ram, font, width, reads)
        buf[:width] = line
        return (0, len(reads))

    def scan_line(self, ram, font, width, reads):
        """The next line's pixels; each cell that it reads goes into `reads`, with what it is read as."""
        def read(a, role):
            reads.append((a, role))
            return ram[a]

        if self.kind != 'rest' and self.line_of_strip == self.strip_lines:
            self.next_strip(read)
        self.line_of_strip += 1
        self.left -= 1

        control = self.registers[3]
        if not control & 0x80:
            return [0] * width
        plain = 8 if control & 0x40 else 0
        line = [plain] * width
        if self.kind != 'characters' or not self.shown:
            return line
        n = -(-self.line_of_strip // 2) if self.zoom else self.line_of_strip
        s = max(1, math.floor(Fraction(18 * n, self.height) + Fraction(1, 2)))      # 1 to 18: request K2 takes 0 as 1
        mode = control >> 4 & 3
        x, a = 3 * (max(self.registers[1], 4) + 8), self.codes
        before = 0      # request K7: 1 where the character just to the left drew foreground in its last column; the first has none
        while x < width:
            low, high = read(a, 'code'), read(a + 1, 'code')
            a = (a + 2) % 1024
            if high == 0xFF:
                break
            number = high & 127
            first = second = 0
            if high & 0x80 and number <= 25:
                c = 38 * number + 2 * s
                first, second = read(c, 'slice'), read(c + 1, 'slice')
            elif not high & 0x80:
                at = 36 * number + 2 * (s - 1)
                first, second = font[at], font[at + 1]
            row = [second >> i & 1 for i in (3, 2, 1, 0)] + [first >> i & 1 for i in range(7, -1, -1)]
            if low & 0x80 and mode and not self.number < SHOWN_BELOW[mode]:
                row = [0] * 12
            for i in range(min(12, width - x)):
                if row[i]:
                    line[x + i] = 8 | low >> 4 & 7
                elif not low & 8:
                    line[x + i] = 8 | low & 7
                elif low & 2 and (row[i - 1] if i > 0 else before):
                    line[x + i] = 8
            before = row[11]
            x += 12
        return line

    def next_strip(self, read):
        """Reads descriptors up to that of the line's strip. By request K9 a spacing of 0 lines is passed over; behind 512 of them in a
        row stands the plain rest of the frame, which reads no more."""
        self.line_of_strip = 0
        for _ in range(512):
            low, high = read(self.descriptor, 'descriptor'), read(self.descriptor | 1, 'descriptor')
            self.descriptor = (self.descriptor + 2) & 1023
            if high & 0x80:
                self.kind, self.shown, self.zoom = 'characters', high >> 6 & 1, high >> 5 & 1
                self.codes = ((high & 3) << 8 | low) & 0x3FE
                self.height = self.registers[2] & 63 or 1
                self.strip_lines = self.height << self.zoom
                return
            if low > 0:
                self.kind, self.strip_lines = 'spacing', low
                return
        self.kind = 'rest'

    # ---- cell question: (refusal, 1 or 0)

    def lines_left(self, ram):
        """What each of the frame's remaining lines reads, with RAM and registers as they stand."""
        ahead, lines = copy.deepcopy(self), []
        width = 12 * ((self.registers[0] & 63) + 1)
        while ahead.left:
            reads = []
            ahead.scan_line(ram, [0] * 4608, width, reads)
            lines.append(reads)
        return lines

    def cells_left(self, ram):
        return {cell for reads in self.lines_left(ram) for cell, _ in reads}

    def ask(self, ram, cell):
        if len(ram) != 1024:
            return (1, 0)
        if cell >= 1024:
            return (8, 0)
        return (0, int(cell in self.cells_left(ram)))

    # ---- request K10, which remaining lines read a cell: (refusal, value, first line, last line). Lines count from 0 for the next one;
    # the value is 2 where any of them reads it as descriptor, 1 where they read it as code or user slice alone, 0 where none does

    def spans_left(self, ram):
        """Value, first and last line of each cell that they read."""
        spans = {}
        for i, reads in enumerate(self.lines_left(ram)):
            for cell, role in reads:
                value, first, _ = spans.get(cell, (1, i, i))
                spans[cell] = (2 if role == 'descriptor' else value, first, i)
        return spans

    def touched(self, ram, cell):
        if len(ram) != 1024:
            return (1, 0, 0, 0)
        if cell >= 1024:
            return (8, 0, 0, 0)
        return (0, *self.spans_left(ram).get(cell, (0, 0, 0)))


def pixel(registers, ram, font, lines, frame, x, y):
    """Request K5: the pixel at column x of line y, from these alone, read off the page and not drawn: (refusal, value)."""
    width = 12 * (registers[0] % 64 + 1)
    if len(ram) != 1024:
        return (1, 0)
    if len(font) != 4608:
        return (2, 0)
    if lines == 0 or lines > 2048:
        return (6, 0)
    if x >= width or y >= lines:
        return (11, 0)
    if registers[3] < 0x80:
        return (0, 0)
    plain = 8 * (registers[3] // 64 % 2)
    from_first = x - 3 * (max(registers[1], 4) + 8)
    if from_first < 0:
        return (0, plain)

    # the RAM stays put, so that 512 descriptors in a row are all it has: by request K9, spacings of 0 lines alone leave all plain
    if all(ram[a] == 0 and ram[a + 1] < 0x80 for a in range(0, 1024, 2)):
        return (0, plain)

    # the strip, and in `end` its last line, counted from 1; a spacing has as many lines as it says, and with 0 of them none
    ch = max(registers[2] % 64, 1)
    at, end = 64 * (registers[3] % 8), 0
    while True:
        low, high = ram[at], ram[at + 1]
        if high < 0x80:
            height = low
        else:
            height = 2 * ch if high & 0x20 else ch
        end += height
        if y < end:
            break
        at = (at + 2) % 1024
    if high < 0x80 or not high & 0x40:
        return (0, plain)

    # the slice, from the strip's line j
    j = y + 1 - (end - height)
    n = (j + 1) // 2 if high & 0x20 else j
    s = max((36 * n + ch) // (2 * ch), 1)

    # the codes up to the one in whose twelve columns x falls: all of them are read
    codes = (high % 4 * 256 + low) // 2 * 2
    row = [(codes + 2 * i) % 1024 for i in range(from_first // 12 + 1)]
    if any(ram[a + 1] == 0xFF for a in row):
        return (0, plain)

    def foreground(c):
        """1 where column c, counted from the first character's leftmost, is drawn as foreground."""
        place, column = divmod(c, 12)
        look, set_and_number = ram[row[place]], ram[row[place] + 1]
        user, number = divmod(set_and_number, 128)
        # its slice: PX11 to PX0 as one number
        if not user:
            a = 36 * number + 2 * (s - 1)
            bits = font[a + 1] % 16 * 256 + font[a]
        elif number <= 25:
            a = 38 * number + 2 * s
            bits = ram[a + 1] % 16 * 256 + ram[a]
        else:
            bits = 0
        shown_below = (64, 32, 16, 48)[registers[3] // 16 % 4]
        if look & 0x80 and frame % 64 >= shown_below:
            bits = 0
        return bits >> (11 - column) & 1

    look = ram[row[-1]]
    if foreground(from_first):
        return (0, 8 + look // 16 % 8)
    if not look & 8:
        return (0, 8 + look % 8)
    # the shadow of the pixel to the left: in the same character or, by request K7, in the one before; the first has none before it
    if look & 2 and from_first > 0 and foreground(from_first - 1):
        return (0, 8)
    return (0, plain)


class Feed:
    """Request K1: a logger's capture, two bytes an event, as it arrives."""

    def __init__(self):
        self.half, self.shut = [], False        # the byte that has arrived of an unfinished event, or none

    # ---- a chunk: (refusal, bytes of output), and the output in out

    def chunk(self, device, ram, data, out):
        if len(ram) != 1024:
            return (1, 0)
        if self.shut:
            return (9, 0)
        arrived = self.half + list(data)
        end = len(arrived) // 2 * 2
        if len(out) < end:
            return (10, 0)
        self.half = arrived[end:]
        for i in range(0, end, 2):
            kind, x = arrived[i:i + 2]
            if kind not in LOGGED:
                self.half, self.shut = [], True
                return (9, i)
            refusal, byte = device.event(ram, LOGGED[kind], x)
            out[i:i + 2] = [int(refusal == 0), byte]
        return (0, end)
