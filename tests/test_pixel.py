#!/usr/bin/env python3
"""Makes stdin and stdout of crates/test_pixel: pages, each pixel of which is drawn and asked for, and single questions.

The input, numbers of more than one byte with their low byte first:

    1 byte              how many pages follow, at most 12
    5,652 bytes each    a page: 1,024 of RAM, 16 registers as they are stored, 4,608 of font, 2 of line count, 1 of frame number, 1
                        of way: 0 prints the asked pixels of each line
    18 bytes each       a question about the last page, at most 400 of them: RAM lent (0 all of it, 1 nothing, 2 a byte less, 3 a
                        byte more), font lent (likewise), then lines, frame number, x and y, each of 4 bytes

tests/model.py reads the rules twice, in its device that draws and in its pixel function. They must agree.
"""
import model
import script

PRINTED, NOT_PRINTED = 0, 1
OSD, FBK = 0x80, 0x40
FONT, RAM = script.noise(4608, 9), script.noise(1024, 5)
FONT[36 * 1:36 * 3] = [0b00000001, 0b0000] * 18 + [0b00000001, 0b1000] * 18     # 1 has its last column only, 2 its first and last
pages, questions, out = [], [], []


def mixed(total, values):
    return script.mixed(total, values, 16777619)


def page(ram, font, ld, dd, ch, control, lines, frame=0, way=NOT_PRINTED, black=()):
    """A page goes into the input and to the model at once. `black` says by hand in how many lines a column is black. Gives back
    what the questions need of it."""
    registers = [ld, dd, ch, control] + [0xFF] * 12
    pages.append(bytes([*ram, *registers, *font, lines & 255, lines >> 8, frame, way]))
    device = model.Device()
    device.registers = [x & k for x, k in zip(registers, model.KEPT)]
    device.next_number = frame
    refusal = device.start(lines)
    assert refusal == 0 and device.number == frame
    width, drawn, asked, differ, answered = 12 * ((ld & 63) + 1), 0, 0, 0, []
    for y in range(lines):
        line = [0] * width
        refusal, _ = device.draw(ram, font, line)
        assert refusal == 0
        answers = [model.pixel(device.registers, ram, font, lines, frame, x, y) for x in range(width)]
        assert all(refusal == 0 for refusal, _ in answers)
        pixels = [value for _, value in answers]
        drawn, asked = mixed(drawn, line), mixed(asked, pixels)
        differ += sum(a != b for a, b in zip(line, pixels))
        answered.append(pixels)
        if way == PRINTED:
            out.append(''.join('%X' % x for x in pixels) + '\n')
    assert differ == 0, (len(pages), differ)
    for x, n in black:
        assert sum(pixels[x] == 8 for pixels in answered) == n, (len(pages), x)
    out.append('lines %d width %d drawn %08x asked %08x differ %d\n' % (lines, width, drawn, asked, differ))
    return device.registers, list(ram), list(font)


def flashing(mode):
    return mode << 4


def spacing(lines, unused=0):
    return [lines, unused]


def characters(address, shown=1, zoom=0, unused=0):
    return [address & 255, 0x80 | shown << 6 | zoom << 5 | unused << 2 | address >> 8]


def font_code(number, look):
    return [look, number]


def user_code(number, look):
    return [look, 0x80 | number]


def ram_with(base, parts):
    """A copy of the cells with bytes put in at addresses, after cell 1023 at cell 0."""
    ram = list(base)
    for a, data in parts.items():
        for i, x in enumerate(data):
            ram[(a + i) % 1024] = x
    return ram


def rows(base, first, n, spacings=0):
    """A copy of the cells in which n descriptors of noise are rows, every fourth of them not shown; with `spacings`, one in so many
    is a spacing of up to 3 instead."""
    ram = list(base)
    for i in range(n):
        a = first + 2 * i
        if spacings and i % spacings == 1:
            ram[a], ram[a + 1] = ram[a] & 3, ram[a + 1] & 0x7F
        else:
            ram[a + 1] = ram[a + 1] & 0x3F | (0x80 if i % 4 == 3 else 0xC0)
    return ram


def slices(first, rows):
    """The bytes of these slices, each of twelve bits, by where they lie; slice 1 lies at `first`."""
    return {first + 2 * (s - 1): [bits & 255, bits >> 8] for s, bits in rows.items()}


def font_with(parts):
    """A copy of FONT with bytes put in at addresses."""
    font = list(FONT)
    for a, data in parts.items():
        font[a:a + len(data)] = data
    return font


# ---- pages

# strips of every kind and a spacing of 0 lines among them, with FBK 1 and the ninth character cut to 9 columns; CH 4 has halves to
# round up; mode 0 hides nothing
ROW = (font_code(65, 0x71) + font_code(66, 0x48) + font_code(67, 0x2A) + user_code(2, 0x35) + user_code(25, 0x1F)
       + user_code(26, 0x53) + user_code(126, 0x7B) + font_code(127, 0xFD) + user_code(0, 0xE1) + font_code(99, 0x77))
ENDS = user_code(20, 0x9B) + font_code(0, 0x64) + user_code(3, 0x4E) + user_code(127, 0x25) + font_code(70, 0x72) * 6
ENDS_AT_ONCE = user_code(127, 0x77) + font_code(71, 0x72) * 9
page(ram_with(RAM, {
    0x0C0: spacing(2, unused=0x7F) + characters(0x201, unused=7) + spacing(0) + characters(0x200, shown=0, zoom=1)
    + characters(0x220) + characters(0x200, zoom=1) + characters(0x241, unused=5) + characters(0x220, shown=0)
    + spacing(1, unused=0x60) + characters(0x3F7) + spacing(255, unused=0x40),
    0x200: ROW, 0x220: ENDS, 0x240: ENDS_AT_ONCE, 0x3F6: ROW}),
     FONT, 11, 5, 4, OSD | FBK | 3, 42, frame=63, way=PRINTED)

# tall characters, so that slice 1 stands in for 0, and rows over cell 1023, the first with a black seam at a character cut to 6
# columns; mode 1 in its last frame that shows
page(ram_with(rows(RAM, 448, 8), {
    448: characters(0x3FA) + characters(0x3FD, zoom=1), 0x3FA + 8: font_code(1, 0xF3) + user_code(26, 0x2A)}),
     FONT, 8, 6, 37, OSD | flashing(1) | 7, 116, frame=31)

# the tallest, first with zoom, then with a black seam at a flashing blank cut to 9 columns; mode 1 in its first frame that hides
page(ram_with(rows(script.noise(1024, 77), 64, 8), {
    64: characters(0x150, zoom=1) + characters(0x0F3), 0x0F2 + 4: font_code(1, 0x28) + user_code(126, 0xAF)}),
     FONT, 6, 5, 63, OSD | flashing(1) | 1, 150, frame=32)

# CH 18: each slice in turn, and spacings between; an unused register bit set; mode 3 in its first frame that hides
page(rows(script.noise(1024, 123), 256, 16, spacings=3), script.noise(4608, 321),
     9, 7, 18, OSD | FBK | flashing(3) | 8 | 4, 90, frame=48)

# as many lines and strips as there can be: the descriptors go round the RAM again and again. Where a row is not shown its high byte
# is a user character's code, so that the rows have glyphs. Mode 2 in its first frame that hides
ram = script.noise(1024, 31)
for a in range(1, 1024, 2):
    ram[a] = 0x80 | ram[a] % 26 if ram[a] % 5 < 2 else 0xC0 | ram[a]
page(ram, FONT, 4, 4, 1, OSD | flashing(2) | 7, 2048, frame=16)

# the full width, DD 3 taken as 4: 61 characters with a black seam at the last, then a row that ends in the place of the last; mode
# 3 in its last frame that shows
page(ram_with([min(x, 0xFE) for x in script.noise(1024, 41)], {
    128: characters(0x100) + characters(0x204, zoom=1) + spacing(9), 0x100 + 118: font_code(1, 0x4A) + user_code(99, 0x1B),
    0x204 + 118: font_code(1, 0x60) + user_code(127, 0x0A)}),
     FONT, 63, 3, 3, OSD | flashing(3) | 2, 10, frame=47)

# OSD 0 with FBK 1
page(rows(RAM, 0, 4), FONT, 5, 4, 7, FBK, 12)

# the first character beyond the widest line
page(rows(RAM, 0, 4), FONT, 63, 255, 2, OSD | FBK, 3)

# spacings of 0 lines (request K9), with any high bits: 511 of them and a strip of two lines, four times. CH 0 is taken as 1, its upper
# bits not kept. Five of the codes are spacings, so black characters; the sixth is the strip's own descriptor, a blank one in red
ZEROS = [x & 0x7F if a % 2 else 0 for a, x in enumerate(script.noise(1024, 222))]
page(ram_with(ZEROS, {382: characters(372, zoom=1)}), FONT, 9, 8, 0xC0, OSD | 6, 8, way=PRINTED, black=((48, 8), (107, 8), (108, 0)))

# and 512 of them: all is plain
page(ZEROS, FONT, 4, 4, 3, OSD | FBK | 6, 5)

# seams (request K7): solid, transparent and shadowed characters of the font and of the user, steady and hidden, and blank ones,
# each beside each, with the left one's last column and the right one's first set or not. A row has three: each pair stands once at
# its left, and once at its right with the right one cut to 3 columns. Then rows that end where there was a seam. All are zoomed,
# and the codes go over cell 1023; mode 1 in a frame that hides
KINDS = [code(number, bk | look) for bk in (10, 8, 1) for code, number, look in (
    (font_code, 7, 0x50), (font_code, 7, 0xD0), (user_code, 10, 0xD0), (user_code, 10, 0x50), (user_code, 26, 0x50))]
PAIRS = sum(script.side_by_side(KINDS), [])
N, END = len(KINDS) ** 2, user_code(127, 0x5A)
ENDED = [font_code(7, 0x51) + END + user_code(26, 0x5A), user_code(10, 0x58) + END + font_code(7, 0x5A),
         user_code(10, 0x5A) + END + font_code(7, 0xDA), END + font_code(7, 0x5A) + user_code(26, 0x5A)]
assert PAIRS[2 * 58:2 * 60] == user_code(10, 0x5A) + user_code(10, 0xDA) and 906 + 2 * 59 == 1024      # a black seam over cell 1023
# the black seams by hand, in the two lines of each of CH 4's slices: 6 kinds cast a shadow, each in two slices; of the shadowed
# ones two take it in one of them, where their first column is not set, the two hidden ones and the blank in both
BLACK = 2 * 6 * (2 * 1 + 3 * 2)
page(ram_with(RAM, {
    448: sum((characters((906 + 2 * i) % 1024, zoom=1) for i in range(N)), [])
    + sum((characters(336 + 6 * i, zoom=1) for i in range(len(ENDED))), []),
    906: PAIRS + PAIRS[2:4], 336: sum(ENDED, []),      # the first pair once more, for the cut
    **slices(38 * 10 + 2, {5: 0b010110011010, 9: 0b011001100101, 14: 0b101000011101, 18: 0b100111000110})}),
     font_with(slices(36 * 7, {5: 0b010000110001, 9: 0b101110010010, 14: 0b011111000110, 18: 0b100001101101})),
     5, 7, 4, OSD | flashing(1) | 7, 8 * (N + len(ENDED)), frame=40, black=((57, BLACK), (69, BLACK)))

# what the questions are about: flashing rows of three characters, DD 0 taken as 4, a row with seams, and rows for 2,048 lines
# behind them; mode 2; VSP and HSP set, which do not count in W
W, LINES, MODE_2 = 72, 26, 16
last = page(ram_with(rows(script.noise(1024, 55), 320, 352), {
    320: characters(0x040) + characters(0x061, zoom=1) + spacing(2) + characters(0x070),
    0x040: font_code(33, 0xF0) + user_code(4, 0xAB) + font_code(80, 0xDC),
    0x060: user_code(5, 0x9A) + font_code(8, 0x65) + user_code(127, 0),
    0x070: font_code(1, 0x7A) + font_code(2, 0xAA) + user_code(26, 0x0A)}),
     FONT, 0xC5, 0, 6, OSD | flashing(2) | 5, LINES, frame=MODE_2 - 1, way=PRINTED)

# ---- questions


def ask(lines, frame, x, y, ram=0, font=0, expected=None):
    def lent(data, choice):
        return (data, [], data[:-1], data + [0])[choice]

    questions.append(bytes([ram, font]) + b''.join(n.to_bytes(4, 'little') for n in (lines, frame, x, y)))
    registers, cells, glyphs = last
    answer = model.pixel(registers, lent(cells, ram), lent(glyphs, font), lines, frame, x, y)
    assert expected in (None, answer), (lines, frame, x, y, answer)
    out.append('%d %d\n' % answer)


# the corners, and one step beyond each edge
for x in (0, W - 1, W):
    for y in (0, LINES - 1, LINES):
        ask(LINES, 0, x, y)

# foreground and shadow of flashing characters by the frame number, which counts modulo 64; shadow over a seam between two of them,
# from a steady one into one that flashes and has foreground there, and from that one into a steady blank
LETTER, SHADOW, SEAM, INTO_FLASHING, FROM_FLASHING = (36, 0), (51, 0), (48, 0), (48, 20), (60, 20)
for f in (0, 15, 16, 31, 32, 47, 48, 63, 64, 79, 80, 127, 128, 143, 144, 255, 256, 271, 272, 65535, 65536, 65551, 65552,
          2 ** 31 - 1, 2 ** 31, 2 ** 31 + 16, 2 ** 32 - 64, 2 ** 32 - 49, 2 ** 32 - 48, 2 ** 32 - 1):
    shown = f % 64 < MODE_2
    ask(LINES, f, *LETTER, expected=(0, 15 if shown else 8))
    ask(LINES, f, *SHADOW, expected=(0, 8 if shown else 0))
    ask(LINES, f, *SEAM, expected=(0, 8 if shown else 0))
    ask(LINES, f, *INTO_FLASHING, expected=(0, 10 if shown else 8))
    ask(LINES, f, *FROM_FLASHING, expected=(0, 8 if shown else 0))

# columns of the row with seams: the first character has none; to the left of a seam, at it and to the right of it
for y in (20, 25):
    for x, value in ((36, 0), (46, 0), (47, 15), (48, 10), (49, 8), (50, 0), (58, 0), (59, 10), (60, 8), (61, 0), (71, 0)):
        ask(LINES, 0, x, y, expected=(0, value))

# foreground in the last column before an end of line, and no shadow behind it
for x, value in ((59, 14), (60, 0)):
    ask(LINES, 0, x, 14, expected=(0, value))

# line counts: the least, the most, beyond, and those that would do if narrowed; the count does not change the pixel
for lines in (0, 1, 2, 2047, 2048, 2049, 4096, 65535, 65536, 65536 + 5, 65536 + 2048, 2 ** 24 + 5, 2 ** 31 + 5, 2 ** 32 - 1):
    ask(lines, 0, *LETTER, expected=(0, 15) if 1 <= lines <= 2048 else (6, 0))

# columns and lines that would do if narrowed, and the largest
for beyond in (256, 65536, 2 ** 24, 2 ** 31, 2 ** 32 - 256):
    for x, y in ((0, 0), LETTER):
        ask(LINES, 0, x + beyond, y, expected=(11, 0))
        ask(LINES, 0, x, y + beyond, expected=(11, 0))
for x, y in ((2 ** 32 - 1, 0), (0, 2 ** 32 - 1), (2 ** 32 - 1, 2 ** 32 - 1)):
    ask(2048, 0, x, y, expected=(11, 0))

# the last lines of the longest frame, and of frames that end there
for lines, y in ((2048, 2042), (2048, 2046), (2048, 2047), (2048, 2048), (2047, 2046), (2047, 2047)):
    for x in (60, 62):
        ask(lines, 0, x, y)

# every length of RAM and font
for ram in range(4):
    for font in range(4):
        ask(LINES, 0, *LETTER, ram, font)

# several faults at once: 1 comes before 2, 6 and 11, and so on
for ram in (0, 2):
    for font in (0, 3):
        for lines in (LINES, 0, 2049):
            for x in (36, W):
                for y in (0, 2049):
                    ask(lines, 0, x, y, ram, font)

data = bytes([len(pages)]) + b''.join(pages) + b''.join(questions)
assert len(pages) <= 12 and len(questions) <= 400
script.store({'crates/test_pixel/stdin': data, 'crates/test_pixel/stdout': ''.join(out)})
print('%d pages, %d questions' % (len(pages), len(questions)))
