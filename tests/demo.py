#!/usr/bin/env python3
"""Makes stdin and stdout of crates/demo: the sample font with a host's bus traffic, and the picture by tests/model.py. Makes those of
crates/preview too: a small picture, and its characters.

The traffic sends a stop page as a host would. Camera and mixing are written here a second time, and share nothing with the Rattle
code: the camera is painted as shapes, one over the other, and the overlay is laid over what they leave.
"""
import pathlib

import model
import script

HERE = pathlib.Path(__file__).resolve().parent
WIDTH, LINES = 384, 216
BLACK, BLUE, GREEN, CYAN, RED, MAGENTA, YELLOW, WHITE = range(8)
FLASHING = 8                        # with a colour: shown in some frames only, frame 0 among them
CLEAR, SHADOW = 8, 10               # BK: plain background, without and with a shadow
RIGHT, BELL = '\x1a', '\x07'        # characters of the font
OPEN_DOOR = '\x80\x81'              # user characters 0 and 1
LOGO = '\x8e\x8f\x90'               # user characters 14 to 16; shadow of posts, a wheel and the front falls across the seams

DOOR = '''
........................
..################......
..################......
..###...........##......
..#####.........##......
..#######.......##......
..########......##......
..########......##......
..########......##......
..######.#......##......
..######.#......##......
..########......##......
..########......##......
..########......##......
..########......##......
..########......######..
....######..............
.......###..............
'''

BUS = '''
....................................
...#############################....
..################################..
..##......##..........##......##.##.
..##......##..........##......##..##
..##......##..........##......##..##
..##......##..........##......##..##
..##################################
..##################################
..##################################
..##################################
..##################################
..######....##############....######
..#####..##..############..##..#####
........####..............####......
........####..............####......
.........##................##.......
....................................
'''


# ---- the font

def rows_of(drawing):
    """Rows of # and dots as numbers of twelve bits, PX11 leftmost."""
    return [int(row.replace('#', '1').replace('.', '0'), 2) for row in drawing]


def packed(rows):
    """Two bytes a slice: first PX7 to PX0, then PX11 to PX8 in the low bits."""
    return [x for row in rows for x in (row & 255, row >> 8)]


def sample_font():
    font = [0] * 4608
    for drawing in (HERE / 'sample_font.txt').read_text().rstrip('\n').split('\n\n')[1:]:
        name, *rows = drawing.split('\n')
        assert [len(row) for row in rows] == [12] * 18, name
        number = int(name.split()[0])
        font[36 * number:36 * number + 36] = packed(rows_of(rows))
    return font


# ---- the host

traffic = bytearray()


def write(address, *data):
    for kind, x in script.writes(address, *data):
        traffic.extend((script.EVENTS.index(kind), x))


def text(s, colour, background):
    """The codes of a text; a user character has SET in its number."""
    return [x for c in s for x in (colour << 4 | background, ord(c))]


class Page:
    """A page in RAM: its descriptors at P times 64, and rows of codes one after the other."""

    def __init__(self, p, codes):
        self.p, self.descriptors, self.at, self.codes = p, [], codes, []

    def spacing(self, lines):
        self.descriptors += (lines, 0)

    def row(self, *codes, zoom=False):
        a = self.at + len(self.codes)
        self.descriptors += (a & 255, 0xC0 | zoom << 5 | a >> 8)
        self.codes += sum(codes, []) + [0, 0xFF]

    def send(self):
        write(64 * self.p, *self.descriptors)
        write(self.at, *self.codes)


def send_drawing(number, drawing):
    """User characters side by side from a number on: two cells of no slice, then slices 1 to 18."""
    rows = drawing.split()
    for part in range(len(rows[0]) // 12):
        write(38 * (number + part), 0, 0, *packed(rows_of(row[12 * part:12 * part + 12] for row in rows)))


def send_stop_page():
    write(0x3FF0, WIDTH // 12 - 1, 4, 18)          # LD; DD: characters start at pixel 36; CH
    send_drawing(0, DOOR)
    send_drawing(14, BUS)
    page = Page(p=2, codes=256)
    page.spacing(10)
    page.row(text(' NEXT STOP          ', YELLOW, BLUE), text('14:32 ', CYAN, BLUE))
    page.row(text(' Market Square      ', WHITE, BLUE), text('2', YELLOW, BLUE), text(' min ', WHITE, BLUE), zoom=True)
    page.spacing(4)
    page.row(text(' then ' + RIGHT + ' Harbour       ', WHITE, SHADOW), text(LOGO + ' ', YELLOW, SHADOW))
    page.spacing(57)
    page.row(text(' Mind the step!', YELLOW, SHADOW))
    page.spacing(3)
    page.row(
        text(' ' + OPEN_DOOR + ' DOOR OPEN ', FLASHING | WHITE, RED), text('    ', BLACK, CLEAR),
        text(' ' + BELL + ' STOP ', BLACK, YELLOW), zoom=True)
    page.spacing(255)                              # to the frame's end: behind it the walk goes on into whatever RAM has
    page.send()
    write(0x3FF3, 0x90 | page.p)                   # OSD, FBK 0, flashing mode 1, page P: last, when all of it stands


# ---- the camera: red, green and blue of a pixel

shot = [[(0, 0, 0)] * WIDTH for _ in range(LINES)]


def paint(columns, lines, colour):
    """A rectangle of the shot; its colour may hang on the place."""
    for y in lines:
        for x in columns:
            shot[y][x] = colour(x, y) if callable(colour) else colour


def take_shot():
    """The street behind the bus at dusk, through the rear door: painted from the back to the front."""
    paint(range(WIDTH), range(96), lambda x, y: (52 + 2 * y, 60 + y, 120 - y // 4))
    for block in range(15):
        house(26 * block, 60 + 8 * ((block * 5 + 1) % 7 % 4), block * 53 % 23, block)
    for y in range(96, 204):
        street(y, y - 95)
    car(248, 128)
    for post, edge in ((range(11), 10), (range(374, WIDTH), 374)):
        paint(post, range(204), (38, 39, 44))
        paint((edge,), range(204), (96, 98, 104))
    paint(range(WIDTH), range(204, LINES), (38, 39, 44))
    paint(range(WIDTH), range(204, 209), lambda x, y: ((230, 190, 40), (30, 30, 30))[(x + y) // 12 % 2])


def house(left, top, tint, block):
    paint(range(left, min(left + 26, WIDTH)), range(top, 96), (44 + tint, 40 + tint, 56 + tint))
    for row in range((96 - top) // 8):
        for column in range(4):
            if (5 * block + 3 * column + 7 * row) % 4 == 0:
                x, y = left + 6 * column + 3, top + 8 * row + 4
                paint(range(x, min(x + 3, WIDTH)), range(y, y + 4), (250, 206, 118))


def street(y, d):
    far = 4096 // (d + 8)
    road = 24 + d * 3 // 2
    slab = far // 8 % 2 * 6
    paint(range(WIDTH), (y,), (92 + slab + d // 4, 88 + slab + d // 4, 86 + slab + d // 4))
    for half, colour in (
            (road + 3 + d // 8, (168 + d // 4, 164 + d // 4, 154 + d // 4)),
            (road, (58 + d // 4, 60 + d // 4, 68 + d // 4)),
            (1 + d // 20 if far // 24 % 2 == 0 else 0, (214, 214, 206))):
        paint(range(max(193 - half, 0), min(192 + half, WIDTH)), (y,), colour)


def car(x, y):
    paint(range(x - 25, x + 26), range(y + 24, y + 28), (30, 31, 36))
    paint(range(x - 16, x + 17), range(y, y + 12), (30, 52, 96))
    paint(range(x - 13, x + 14), range(y + 3, y + 12), (124, 146, 168))
    paint(range(x - 25, x + 26), range(y + 10, y + 24), (36, 62, 112))
    for lamp in (x - 22, x + 15):
        paint(range(lamp, lamp + 8), range(y + 14, y + 19), (255, 246, 204))


# ---- the picture

def picture(font):
    device, ram = model.Device(), [0] * 1024
    for kind, x in zip(traffic[::2], traffic[1::2]):
        assert device.event(ram, script.EVENTS[kind], x) == (0, 0)
    assert device.start(LINES) == 0
    out = bytearray(b'P6\n%d %d\n255\n' % (WIDTH, LINES))
    take_shot()
    for seen in shot:
        line = [0] * WIDTH
        assert device.draw(ram, font, line)[0] == 0
        for pixel, behind in zip(line, seen):
            out.extend([255 if pixel & bit else 0 for bit in (4, 2, 1)] if pixel & 8 else behind)
    return out


# ---- the preview: a Braille character for every 4 columns of 8 lines

DOTS = ((64, 160), (208, 112), (88, 184), (232, 136))      # how bright a dot's pixel is at least, row by row


def small_picture():
    """Greys from black to white, then the eight colours of the overlay: 72 × 24 pixels, and two columns and five lines to spare."""
    width, lines = 74, 29
    out = bytearray(b'P6\n%03d %03d\n255\n' % (width, lines))
    for y in range(lines):
        for x in range(width):
            grey = (x * 24 + y) * 255 // (width * 24)
            out.extend([grey] * 3 if y < 16 else [255 if x // 9 & bit else 0 for bit in (4, 2, 1)])
    return out


def characters(picture):
    _, size, _, pixels = picture.split(b'\n', 3)
    width, lines = map(int, size.split())
    text = []
    for y in range(0, lines - 7, 8):
        for x in range(0, width - 3, 4):
            pattern = 0x2800
            for row in range(4):
                for column in range(2):
                    at = 3 * ((y + 2 * row) * width + x + 2 * column)
                    red, green, blue = pixels[at:at + 3]
                    if (2 * red + 5 * green + blue) // 8 >= DOTS[row][column]:
                        # the dots of a Braille pattern are numbered down the left column, then the right; 7 and 8 lie below
                        pattern += 1 << (row + 3 * column if row < 3 else 6 + column)
            text.append(chr(pattern))
        text.append('\n')
    return ''.join(text).encode()


send_stop_page()
if __name__ == '__main__':         # the traffic is fed elsewhere too, as a capture
    font = sample_font()
    script.store({
        'crates/demo/stdin': bytes(font) + traffic, 'crates/demo/stdout': picture(font),
        'crates/preview/stdin': small_picture(), 'crates/preview/stdout': characters(small_picture())})
