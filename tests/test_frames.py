#!/usr/bin/env python3
"""Makes stdin and stdout of crates/test_frames: the script of its calls, and the answers of tests/model.py.

The script is a list of small cases. Each is a function below: its comment says what it is after, and its name is printed above what
its calls answer, so that a difference shows where it lies. A step goes into the input and to the model at once.
"""
import model
import script

MARKER = 170                        # in every byte of a line buffer before a draw; prints as a dot
PIXELS, DIGEST, SUM = 0, 1, 2       # how a draw is told
RAM_LENGTHS, FONT_LENGTHS = [1024, 0, 1023, 1025], [4608, 0, 4607, 4609]
EDGES = (0, 15, 16, 31, 32, 47, 48, 63, 64)   # the frame numbers at which a flashing mode changes, and those before
steps, output = bytearray(), []
device, ram, font = model.Device(), [0] * 1024, [0] * 4608
lent = {'line': 1024, 'ram': 1024, 'font': 4608}
totals = {'cases': 0, 'draws': 0, 'sum': 0}


# ---- the steps of the script, as crates/test_frames/src/main.rt has them

def step(kind, a=0, b=0, c=0):
    steps.extend((kind, a, b, c))


def event(kind, x=0, told=True):
    if told:
        step(0, script.EVENTS.index(kind), x)
    refusal, byte = device.event(ram, kind, x)
    if refusal or byte:
        output.append('event %d %d\n' % (refusal, byte))


def write(address, x):
    """One byte to an address over the bus."""
    step(1, address >> 8, address & 255, x)
    for kind, y in script.writes(address, x):
        event(kind, y, told=False)


def start(lines, times=1):
    for _ in range(times):
        step(2, lines >> 16, lines >> 8 & 255, lines & 255)
        refusal = device.start(lines)
        if refusal:
            output.append('start %d\n' % refusal)


def reset():
    step(3)
    device.reset()


def cell(a, *data):
    for x in data:
        step(4, a >> 8, a & 255, x)
        ram[a] = x
        a = (a + 1) % 1024


def font_byte(a, *data):
    for x in data:
        step(5, a >> 8, a & 255, x)
        font[a] = x
        a += 1


def noise(buffer, seed):
    step(6 if buffer is ram else 7, seed >> 8, seed & 255)
    buffer[:] = script.noise(len(buffer), seed)


def fill(buffer, x):
    step(8 if buffer is ram else 9, 0, 0, x)
    buffer[:] = [x] * len(buffer)


def lend(line=None, ram=1024, font=4608):
    """The lengths of what the next draws are lent; the line buffer as it was where none is given."""
    if line is None:
        line = lent['line']
    lent.update(line=line, ram=ram, font=font)
    step(10, line >> 8, line & 255, RAM_LENGTHS.index(ram) + 4 * FONT_LENGTHS.index(font))


def mixed(total, *values):
    return script.mixed(total, values, 16777619)


def draw(lines=1, way=PIXELS):
    """Gives back the line buffers, for answers that are known by hand."""
    step(11, lines >> 8, lines & 255, way)
    totals['draws'] += lines
    lent_ram = ram if lent['ram'] == 1024 else [0] * lent['ram']
    lent_font = font if lent['font'] == 4608 else [0] * lent['font']
    drawn = [[MARKER] * lent['line'] for _ in range(lines)]
    for line in drawn:
        refusal, count = device.draw(lent_ram, lent_font, line)
        if way == SUM:
            totals['sum'] = mixed(totals['sum'], refusal, count, *line)
        elif way == DIGEST:
            output.append('%d %d %08x\n' % (refusal, count, mixed(0, *line)))
        else:
            output.append('%d %d %s\n' % (refusal, count, ''.join('.' if x == MARKER else '%X' % x for x in line)))
    return drawn


def show_sum():
    step(12)
    output.append('%08x\n' % totals['sum'])
    totals['sum'] = 0


def text(s):
    for i in range(0, len(s), 3):
        step(13, *s[i:i + 3].encode())
    output.append(s)


def ask(a, n):
    """The cell question about n cells from a on."""
    step(14, a >> 8, a & 255, n)
    output.append('ask %s\n' % ' '.join('%d:%d' % device.ask(ram, c) for c in range(a, a + n)))


# ---- what several cases share

def case(f):
    """Runs a case: its name, then its calls on a reset device, RAM of zeros and a font of noise."""
    name = ' %s\n' % f.__name__.replace('_', ' ')
    text('=' * (1 + -(len(name) + 1) % 3) + name)
    totals['cases'] += 1
    if totals['cases'] > 1:         # the first case has the device and the RAM as they are made
        reset()
        fill(ram, 0)
    noise(font, 1)
    f()
    return f


def settings(ld=4, dd=4, ch=18, osd=1, fbk=0, fl=0, p=0, spare=2):
    """Registers 3FF0 to 3FF3 over the bus, and a line buffer with some bytes to spare."""
    for r, x in enumerate((ld, dd, ch, osd << 7 | fbk << 6 | fl << 4 | p)):
        write(0x3FF0 + r, x)
    lend(12 * ((ld & 63) + 1) + spare)


def control(osd=1, fbk=0, fl=0, p=0):
    write(0x3FF3, osd << 7 | fbk << 6 | fl << 4 | p)


def spacing(a, lines):
    cell(a, lines, 0)
    return (a + 2) % 1024


def strip(a, codes, de=1, zy=0):
    cell(a, codes & 255, 0x80 | de << 6 | zy << 5 | codes >> 8)
    return (a + 2) % 1024


def codes(a, *pairs):
    """Codes as (low byte, high byte), and an end of line."""
    for low, high in pairs + ((0, 0xFF),):
        cell(a, low)
        cell(a + 1, high)
        a = (a + 2) % 1024


def glyph(number, *rows):
    """The slices of a font character from slice 1 on, each as twelve bits."""
    for s, row in enumerate(rows):
        font_byte(36 * number + 2 * s, row & 255, row >> 8)


def user(number, s, row):
    """Slice s of a user character, 1 to 18; with s 0 its first two cells, which are of no slice."""
    cell(38 * number + 2 * s, row & 255, row >> 8)


class Numbers:
    """Numbers for made-up scripts."""

    def __init__(self, seed):
        self.numbers = script.numbers(seed, 75, 74, 65537)

    def below(self, n):
        return next(self.numbers) // 3 % n


# ---- the cases

@case
def power_up():
    # the very first draw has no frame; then the reset values draw 768 zeros. RAM of zeros is 512 spacings of 0 lines: the first line
    # reads them all, and the others nothing
    lend(768)
    draw(way=DIGEST)
    start(3)
    draw(4, DIGEST)


@case
def the_example_of_document_01():
    fill(font, 0)
    font_byte(2340, 0x0F, 0x08)
    cell(0, 0x04, 0xC0, 0x00, 0x00, 0x71, 0x41, 0x00, 0xFF)
    settings()
    start(1)
    draw()
    assert output[-1].split() == ['0', '6', '000000000000000000000000000000000000F9999999FFFF000000000000..']


@case
def line_buffer_of_w_and_less():
    # W − 1 is refused and changes nothing; W, W + 1 and 1,024 bytes are enough, and bytes from W on stay
    noise(ram, 77)
    codes(512, (0x71, 0x41), (0x6A, 0x42), (0x53, 0x43))
    strip(0, 512)
    for ld in (0, 4, 63):
        w = 12 * (ld + 1)
        settings(ld=ld)
        start(20)
        for n in (w - 1, w, 0, w + 1, 1, w - 1, 1024, w - 12, w):
            lend(n)
            draw(way=PIXELS if n <= 61 else DIGEST)
    # a buffer that fits until LD goes up, and again once it goes down; the top bits of the register are not LD's
    settings(ld=3, spare=0)
    start(9)
    for register in (0x03, 0x04, 0xC3, 0x83, 0x44, 0x02):
        write(0x3FF0, register)
        draw()


@case
def code_rows_over_cell_1023():
    # rows at 1016 to 1023 go on at cell 0; an odd code address counts as the even one below it
    noise(ram, 5)
    settings(ld=8, p=1)
    for i, (low, high) in enumerate(((0x17, 0x41), (0x62, 0x00), (0x4A, 0x85), (0x2B, 0x7F), (0x58, 0x02), (0x31, 0x03), (0x00, 0xFF))):
        cell((1016 + 2 * i) % 1024, low)
        cell((1017 + 2 * i) % 1024, high)
    for i, at in enumerate((1016, 1017, 1018, 1022, 1023, 0, 1)):
        strip(64 + 2 * i, at)
    write(0x3FF2, 3)
    start(21)
    draw(21)


@case
def early_frame_start():
    # a start during a frame begins anew: at the first descriptor, with its own lines and the next frame number
    codes(100, (0xF4, 0x05), (0x73, 0x06))
    codes(110, (0x92, 0x07))
    strip(strip(0, 100), 110)
    settings(ld=5, ch=4, fl=2)
    start(1, times=14)
    start(10)
    draw(6)
    start(2)                # frame 15, still shown
    draw(3)
    start(9)
    draw(1)
    start(9)                # frames 16 and 17, hidden
    draw(5)


@case
def refused_draws_in_mid_frame():
    # each refusal and each pair, in the order 1, 2, 4, 3; the frame then goes on where it was
    noise(ram, 9)
    spacing(strip(0, 512), 1)
    settings(spare=0)
    start(8)
    draw(3, DIGEST)
    for r in RAM_LENGTHS:
        for f in FONT_LENGTHS:
            for n in (59, 60):
                lend(n, r, f)
                draw(way=DIGEST)
    lend(60)
    draw()
    for r, f, n in ((1023, 4608, 60), (1024, 4609, 60), (1024, 4608, 59)):
        lend(n, r, f)
        draw(way=PIXELS)
        lend(60)
        draw(way=PIXELS)
    # the refused ones used up no line: the eighth accepted draw was the last; now 4 stands before 3 and after 1 and 2
    for r in (1024, 0, 1025):
        for f in (4608, 4607):
            for n in (0, 60):
                lend(n, r, f)
                draw(way=DIGEST)


@case
def every_background_with_every_flashing_mode():
    # a flashing character with each BK, at the frame numbers around which a mode hides or shows it
    glyph(3, *[0b100110111001] * 18)
    codes(64, *[(0x80 | (bk % 7 + 1) << 4 | bk, 0x03) for bk in range(16)])
    a = 0
    for _ in range(8):
        a = strip(a, 64)
    settings(ld=18, ch=1)
    for number in range(65):
        start(8)
        if number in EDGES:
            for fl in range(4):
                for fbk in range(2):
                    control(fbk=fbk, fl=fl)
                    draw(way=PIXELS if fbk == 0 and number in (0, 16, 32, 48) else DIGEST)


@case
def steady_characters_with_every_background():
    # the same without FL: no mode hides them
    glyph(3, *[0b011001000110] * 18)
    codes(64, *[((bk % 7 + 1) << 4 | bk, 0x03) for bk in range(16)])
    a = 0
    for _ in range(8):
        a = strip(a, 64)
    settings(ld=18, ch=1)
    for number in range(65):
        start(8)
        if number in EDGES:
            for fl in range(4):
                control(fbk=number & 1, fl=fl)
                draw(way=PIXELS if number == 48 and fl == 3 else DIGEST)


@case
def every_frame_number_in_every_flashing_mode():
    # three rounds of 64; frame numbers go round after 63
    codes(64, (0xC3, 0x41), (0xAA, 0x80), (0x55, 0x42))
    user(0, 18, 0b111100001111)
    a = 0
    for _ in range(4):
        a = strip(a, 64)
    settings(ld=6, ch=1)
    for number in range(3 * 64):
        start(4)
        for fl in range(4):
            control(fl=fl)
            draw(way=SUM)
        if number % 8 == 7:
            show_sum()


@case
def flashing_user_and_blank_characters():
    # hidden: no foreground, no shadow, but the slice is read; a blank has no foreground to hide
    user(2, 9, 0b101100001101)
    codes(200, (0xF1, 0x82), (0xFA, 0x82), (0xF8, 0x82), (0xF3, 0x9A), (0x7A, 0x82), (0xFA, 0x9A))
    strip(strip(0, 200), 200)
    settings(ld=8, ch=2, fbk=1, fl=1)
    start(2, times=31)
    for _ in range(2):
        start(2)
        draw(2)


@case
def every_foreground_on_every_background():
    glyph(1, *[0b110011001010] * 18)
    for half in range(2):
        for i in range(32):
            n = 32 * half + i
            cell(128 + 64 * half + 2 * i, (n >> 3) << 4 | n & 7, 0x01)
    strip(strip(0, 128), 192)
    settings(ld=34, ch=1)
    start(2)
    draw(2)


@case
def shadows():
    # to the right of each foreground pixel, over a seam too; BK2 and BK0 play no part; FBK under what is plain
    rows = (0b000000000001, 0b100000000000, 0b101010101010, 0b010101010101, 0b111111111111, 0b000000000000, 0b011101101110)
    for n, row in enumerate(rows):
        glyph(n, *[row] * 18)
    for i, bk in enumerate((10, 11, 14, 15, 8, 9, 12, 13)):
        codes(64 + 16 * i, *[(0x50 | bk, n) for n in range(len(rows))])
        strip(2 * i, 64 + 16 * i)
    settings(ld=10, ch=1)
    for fbk in range(2):
        control(fbk=fbk)
        start(8)
        draw(8, DIGEST if fbk else PIXELS)


# seams (request K7): high bytes of codes, of the font and of the user by their number, and of a blank
LAST, FIRST, MIDDLE, USER, BLANK, ENDS = 1, 2, 3, 0x80, 0x9A, 0xFF


def seam_rows(*rows):
    """A strip of one line for each row of codes, and characters with foreground in their last column, their first or neither."""
    for number, bits in ((LAST, 0b000000000001), (FIRST, 0b100000000000), (MIDDLE, 0b000001100000)):
        font_byte(36 * number + 34, bits & 255, bits >> 8)      # slice 18, which CH 1 shows
        user(number, 18, bits)
    for i, row in enumerate(rows):
        codes(256 + 16 * i, *row)
        strip(2 * i, 256 + 16 * i)


def by_hand(first, *rows, plain='0'):
    """Draws a line for each of these rows, its pixels written out by hand from the first character on; the model must draw them."""
    for row in rows:
        draw()
        expected = ('0' * first + row.replace(' ', '')).replace('0', plain)
        assert output[-1].split()[2] == expected + '..', (row, output[-1])


@case
def seams():
    # a shadowed character's first column takes the shadow of foreground in the last column of the one to its left, whatever its
    # background and colour; a blank takes it and gives none; the first character of a line has none, after any line
    seam_rows(
        ((0x5A, LAST), (0x5A, MIDDLE), (0x5A, USER + LAST), (0x5A, USER + MIDDLE), (0x5A, BLANK), (0x5A, LAST), (0x5A, LAST)),
        ((0x5A, MIDDLE), (0x5A, USER + LAST), (0x5A, MIDDLE), (0x51, MIDDLE), (0x5A, LAST), (0x51, LAST), (0x5A, LAST)),
        ((0x5A, BLANK), (0x58, LAST), (0x5A, BLANK), (0x11, LAST), (0x5A, BLANK), (0x08, LAST), (0x5A, BLANK)),
        ((0x5B, FIRST), (0x5A, LAST), (0x51, BLANK), (0x5A, LAST), (0x58, BLANK), (0x5A, LAST), (0x5A, FIRST)),
        ((0x5A, LAST), (0x5A, LAST), (0x5A, ENDS), (0x5A, MIDDLE), (0x5A, BLANK)),
        ((0x5A, BLANK), (0x51, USER + LAST), (0x5E, USER + MIDDLE), (0x5A, ENDS), (0x5A, BLANK)))
    strip(2, 256 + 16, zy=1)        # the second row has two lines
    second = '00000DD80000 00000000000D 80000DD80000 99999DD99999 00000000000D 99999999999D 80000000000D'
    rows = (
        '00000000000D 80000DD80000 00000000000D 80000DD80000 000000000000 00000000000D 80000000000D',
        second,
        second,
        '000000000000 00000000000D 800000000000 999999999999 800000000000 000000000008 800000000000',
        'D80000000000 00000000000D 999999999999 00000000000D 000000000000 00000000000D D80000000000',
        '00000000000D 80000000000D 000000000000 000000000000 000000000000 000000000000 000000000000',
        '000000000000 99999999999D 80000DD80000 000000000000 000000000000 000000000000 000000000000')
    settings(ld=9, ch=1)
    start(7)
    by_hand(36, *rows)
    control(fbk=1)
    start(7)
    by_hand(36, *rows, plain='8')


@case
def seams_of_hidden_characters():
    # a hidden one draws no foreground: it gives no shadow, and takes one in its first column, set or not. Each mode in its last
    # frame that shows and its first that hides
    seam_rows(
        ((0xDA, LAST), (0x5A, MIDDLE), (0x5A, LAST), (0xDA, FIRST), (0xDA, BLANK), (0x58, LAST), (0xDA, USER + MIDDLE)),
        ((0xD1, LAST), (0x5A, BLANK), (0x51, USER + LAST), (0xDA, BLANK), (0xD8, USER + LAST), (0xDA, MIDDLE), (0x5A, BLANK)),
        ((0x5A, LAST), (0xDA, USER + LAST), (0x5A, BLANK), (0x5A, LAST), (0xDA, BLANK), (0x5A, BLANK), (0xD1, USER + FIRST)))
    shown = (
        '00000000000D 80000DD80000 00000000000D D80000000000 000000000000 00000000000D 80000DD80000',
        '99999999999D 800000000000 99999999999D 800000000000 00000000000D 80000DD80000 000000000000',
        '00000000000D 80000000000D 800000000000 00000000000D 800000000000 000000000000 D99999999999')
    hidden = (
        '000000000000 00000DD80000 00000000000D 800000000000 000000000000 00000000000D 800000000000',
        '999999999999 000000000000 99999999999D 800000000000 000000000000 000000000000 000000000000',
        '00000000000D 800000000000 000000000000 00000000000D 800000000000 000000000000 999999999999')
    settings(ld=9, ch=1)
    modes = {15: (2, shown), 16: (2, hidden), 31: (1, shown), 32: (1, hidden), 47: (3, shown), 48: (3, hidden)}
    for number in range(49):
        start(3)
        if number in modes:
            fl, rows = modes[number]
            control(fl=fl)
            by_hand(36, *rows)
    start(3)
    control(fl=3, fbk=1)
    draw(3, DIGEST)


@case
def seams_at_the_cut():
    # a character that is cut takes it like any other, with 12, 9, 6 and 3 of its columns on the line; the code behind it is not read
    seam_rows(
        ((0x58, LAST), (0x5A, MIDDLE), (0x5A, LAST)),
        ((0x51, USER + LAST), (0xDA, FIRST), (0x5A, LAST)),
        ((0x5A, LAST), (0xDA, BLANK)),
        ((0xDA, LAST), (0x5A, USER + MIDDLE)),
        ((0x5A, MIDDLE), (0x5A, BLANK)))
    start(1, times=16)
    for dd, columns in ((4, 12), (5, 9), (6, 6), (7, 3)):
        settings(dd=dd, ch=1, fl=2)
        start(5)
        by_hand(
            3 * (dd + 8),
            '00000000000D ' + '80000DD80000'[:columns],
            '99999999999D ' + '800000000000'[:columns],
            '00000000000D ' + '800000000000'[:columns],
            '000000000000 ' + '00000DD80000'[:columns],
            '00000DD80000 ' + '000000000000'[:columns])


@case
def seams_over_cell_1023():
    # the character to the left of the one at cell 0 lies at cell 1022, but none does where the row begins at cell 0
    seam_rows()
    codes(1020, (0x5A, USER + LAST), (0x5A, LAST), (0x5A, MIDDLE), (0x5A, BLANK))
    for i, at in enumerate((1020, 1022, 1023, 0, 2)):
        strip(64 + 2 * i, at)
    settings(ld=6, ch=1, p=1)
    start(5)
    by_hand(
        36,
        '00000000000D 80000000000D 80000DD80000 000000000000',
        '00000000000D 80000DD80000 000000000000 000000000000',
        '00000000000D 80000DD80000 000000000000 000000000000',
        '00000DD80000 000000000000 000000000000 000000000000',
        '000000000000 000000000000 000000000000 000000000000')


@case
def seams_of_every_two_backgrounds():
    # each BK beside each, in foreground of every colour; rows of 61 characters, each beginning with the one that ended the last
    seam_rows()
    codes(256, *[(i % 8 << 4 | bk, LAST) for i, bk in enumerate(script.side_by_side(list(range(16))))])
    for i in range(5):
        strip(2 * i, 256 + 120 * i)
    settings(ld=63, ch=1)
    start(5)
    first_columns = [x for line in draw(5, DIGEST) for x in line[48:768:12]]
    assert first_columns.count(8) == 16 * 4 + 16        # behind each BK the four that are shadowed, and the solid black one
    control(fbk=1)
    start(5)
    draw(5, DIGEST)


@case
def every_pair_of_characters():
    # solid, transparent and shadowed ones, each of the font and of the user, steady and flashing, and blank, beside each other. CH
    # 4 shows four slices, in which the left one's last column and the right one's first are set or not, in all four ways
    for s, font_row, user_row in (
            (5, 0b010000110001, 0b010110011010), (9, 0b101110010010, 0b011001100101),
            (14, 0b011111000110, 0b101000011101), (18, 0b100001101101, 0b100111000110)):
        font_byte(36 * 7 + 2 * (s - 1), font_row & 255, font_row >> 8)
        user(10, s, user_row)
    row = script.side_by_side([
        (0x50 | bk | flashing, high) for bk in (10, 8, 1)
        for high, flashing in ((7, 0), (7, 0x80), (USER + 10, 0), (USER + 10, 0x80), (BLANK, 0))])
    n = len(row) - 1
    codes(898, *row)                # over cell 1023, with a seam there that is black
    assert (row[62], row[63]) == ((0x58, 7), (0x5A, USER + 10)) and 898 + 2 * 63 == 1024
    for i in range(n):
        strip(448 + 2 * i, (898 + 2 * i) % 1024)
    start(1, times=16)              # the next frames are hidden in mode 2
    # each pair alone in a line, the right one whole and cut. The black seams by hand: with nothing hidden 12 kinds cast a shadow,
    # each in two slices; of the shadowed ones four take it in one of the two, where their first column is not set, and the blank in
    # both. With the flashing ones hidden 6 cast, two take it in one slice and three in both
    for dd in (4, 5, 6, 7):
        for fbk in range(2):
            for fl, black in ((0, 12 * (4 * 1 + 1 * 2)), (2, 6 * (2 * 1 + 3 * 2))):
                settings(dd=dd, ch=4, fbk=fbk, fl=fl, p=7)
                start(4 * n)
                first_columns = [line[3 * (dd + 8) + 12] for line in draw(4 * n, SUM)]
                assert fbk or first_columns.count(8) == black
                show_sum()
    # and all of them in rows of 61, first without zoom
    for i in range(8):
        strip(448 + 2 * i, (898 + 120 * (i % 4)) % 1024, zy=i // 4)
    for dd, fl in ((4, 0), (4, 2), (7, 2)):
        settings(ld=63, dd=dd, ch=4, fl=fl, p=7)
        start(48)
        draw(16, DIGEST)
        draw(32, SUM)
        show_sum()


def height_row():
    """A user character and a font character whose slices all differ."""
    for s in range(19):
        user(4, s, s << 6 | 0b100001)
    glyph(9, *[s << 5 | 1 for s in range(1, 19)])
    codes(400, (0x70, 0x84), (0x61, 0x09))


def height_case(heights, zy, way):
    """A strip of each height and the first line of the next."""
    height_row()
    for ch in heights:
        strip(strip(0, 400, zy=zy), 402, zy=zy)
        settings(ch=ch)
        lines = max(ch, 1) << zy
        start(lines + 1)
        draw(lines + 2, way)


@case
def heights():
    # CH 0 counts as 1; 37 and 63 begin with slice 1, as 18 and 36 do
    height_case((0, 1, 12), 0, PIXELS)
    height_case((18, 36, 37, 63), 0, DIGEST)


@case
def zoomed_heights():
    # with ZY each n has two lines, CH even or odd
    height_case((0, 1, 2, 3, 5), 1, PIXELS)
    height_case((12, 19), 1, DIGEST)


def top_of_strip(cells, zy):
    """A frame that ends with n = 1 of a strip, and one that ends with n = 2: before it, between its lines and after it, the cell
    question about four cells."""
    for n in (1, 2):
        start(n << zy)
        for _ in range(n << zy):
            ask(cells, 4)
            draw()
        ask(cells, 4)


@case
def tall_letters():
    # what rounds to slice 0 shows slice 1: n = 1 of CH 37 and 63, not of CH 36
    height_row()
    for zy in range(2):
        strip(strip(0, 400, zy=zy), 400, zy=zy)
        for ch in (36, 37, 63):
            settings(ch=ch)
            top_of_strip(38 * 4, zy)
            # a strip and the top line of the next, which alone shows slice 1 then
            start((ch << zy) + 1)
            ask(38 * 4, 4)
            draw(ch << zy, SUM)
            show_sum()
            ask(38 * 4, 4)
            draw()


@case
def tall_letters_over_descriptors_and_codes():
    # cells 0 to 3 are two descriptors, and user character 0's first two cells and slice 1; cells 38 to 41 two codes, and the same of
    # character 1
    fill(ram, 0x5A)
    for zy in range(2):
        strip(strip(0, 38, zy=zy), 40, zy=zy)
        codes(38, (0x70, 0x80), (0x61, 0x81))
        for ch in (36, 37, 63):
            settings(ch=ch)
            for cells in (0, 38):
                top_of_strip(cells, zy)


def ask_between(counts, cells, n):
    """Draws a frame up to each of these counts of its lines, and there asks about n cells from each of these cells on."""
    drawn = 0
    for count in sorted(set(counts)):
        draw(count - drawn, SUM)
        drawn = count
        for a in cells:
            ask(a, n)


@case
def first_cells_of_user_characters():
    # cells 38 n and 38 n + 1 are never read as a slice; the next two are slice 1, which is shown at the top, but not with CH 1
    noise(ram, 26)
    codes(1000, *[(0x71, 0x80 + n) for n in (0, 12, 25)])
    for zy in range(2):
        strip(64, 1000, zy=zy)
        for ch in (1, 18, 37, 63):
            settings(ld=5, ch=ch, p=1)
            lines = ch << zy
            start(lines)
            ask_between((0, 1, lines - 1, lines), (38 * 0, 38 * 12, 38 * 25), 4)
    # each of the 26, in a frame of the six lines that show slice 1 and one that shows slice 2
    strip(64, 1000, zy=1)
    settings(ch=37, p=1)
    for n in range(26):
        codes(1000, (0x71, 0x80 + n))
        start(7)
        ask_between((0, 6), (38 * n,), 4)
    show_sum()


@case
def first_cells_as_descriptors_and_codes():
    # cells 38 n and 38 n + 1 as a strip's descriptor, read until its first line, and as its code, until its last; the strip shows
    # user character n or a font character, and a line of spacing follows it. Not read in a frame that ends before the descriptor, nor
    # as codes with DE 0
    for n, p, before in ((0, 0, 0), (12, 7, 4), (25, 7, 251)):
        first = 38 * n
        fill(ram, 1)        # spacing strips of one line, so many before the descriptor
        for high in (0x80 + n, 0x41):
            for zy in range(2):
                for ch in (1, 18, 37, 63):
                    lines = ch << zy
                    codes(1000, (0x71, high))
                    spacing(strip(first, 1000, zy=zy), 1)
                    settings(ch=ch, p=p)
                    if before:
                        start(before)
                        ask(first, 2)
                    start(before + lines + 1)
                    ask_between((0, before, before + 1, before + lines), (first,), 2)
                    codes(first, (0x71, high))
                    strip(64, first, zy=zy)
                    settings(ch=ch, p=1)
                    start(lines + 1)
                    ask_between((0, lines - 1, lines), (first,), 2)
                    strip(64, first, de=0, zy=zy)
                    start(lines)
                    ask(first, 2)
    show_sum()


@case
def every_height():
    fill(ram, 1)            # behind the strips stand spacings of one line
    for s in range(19):
        user(4, s, s << 6 | 0b100001)
    codes(400, (0x70, 0x84), (0x61, 0x09), (0x4A, 0x41))
    for zy in range(2):
        strip(strip(0, 400, zy=zy), 402, zy=1 - zy)
        for ch in range(64):
            settings(ld=5, ch=ch)
            start(3 * max(ch, 1) + 2)
            draw(3 * max(ch, 1) + 2, SUM)
            show_sum()


@case
def first_pixel():
    # DD 0 to 3 count as 4; the last character is cut; 247 leaves three columns of 768, 248 and 255 none
    noise(ram, 21)
    codes(256, *[(0x17 + 16 * i & 0x7F, 0x20 + i) for i in range(64)])
    a = 0
    for _ in range(12):
        a = strip(a, 256)
    for dd in (0, 3, 4, 5, 6, 7, 8, 11, 12):
        settings(dd=dd, ch=1)
        start(1)
        draw()
    for dd in (0, 3, 4, 5, 8, 9, 10, 244, 246, 247, 248, 249, 255):
        settings(ld=63, dd=dd, ch=1)
        start(1)
        draw(way=DIGEST)


@case
def every_first_pixel():
    noise(ram, 33)
    strip(0, 512)
    settings(ld=63, ch=11)
    for dd in range(256):
        write(0x3FF1, dd)
        if dd % 16 == 0:
            start(16)
        draw(way=SUM)
        if dd % 16 == 15:
            show_sum()


@case
def every_width():
    # LD 0 to 63, one line each, with buffers of W and of W + 1 bytes; LD 0 to 2 end before the first character
    noise(ram, 45)
    strip(0, 300)
    for ld in range(64):
        if ld % 16 == 0:
            start(16)
        settings(ld=ld, ch=16, spare=ld & 1)
        draw(way=PIXELS if ld < 5 else DIGEST)


@case
def most_reads():
    # 2 of descriptor, 61 codes and 61 user slices: 246 cells, and 244 in the strip's later lines
    noise(ram, 60)
    for i in range(64):
        cell(256 + 2 * i, 0x13 + i & 0x7F, 0x80 + i % 26)
    strip(strip(0, 256), 256, zy=1)
    settings(ld=63, ch=3)
    start(9)
    draw(9, DIGEST)
    # the 62nd code is not looked at: an end of line there changes nothing, one before it does
    for i in (61, 60, 1, 0):
        cell(256 + 2 * i + 1, 0xFF)
        start(2)
        draw(2, DIGEST)


@case
def user_character_25():
    # slice 18 lies at cells 986 and 987; slice 1 at 952 and 953, read with CH 37 and 63 in line 1; the two cells before slice 1 are never read as a slice
    noise(ram, 14)
    cell(950, 0x55, 0x0A)
    cell(952, 0xCC, 0xF3)
    cell(986, 0x81, 0x7C)
    cell(988, 0xFF, 0xFF)
    codes(128, (0x79, 0x99), (0x2A, 0x99), (0x79, 0x9A))
    strip(0, 128)
    for ch, lines in ((18, 18), (1, 1), (37, 37), (63, 3)):
        settings(ld=5, ch=ch)
        start(lines)
        draw(lines - 1, DIGEST)
        draw()


@case
def every_user_character():
    # all 26, each slice from 1 to 18, in RAM full of noise
    noise(ram, 1234)
    for n in range(26):
        codes(1000, (0x71, 0x80 + n), (0x4A, 0x80 + n))
        strip(0, 1000)
        settings(ch=40)
        start(40)
        draw(40, SUM)
        show_sum()


@case
def every_font_character():
    # all 128, each slice from 1 to 18, in a font of noise
    noise(font, 4321)
    for n in range(0, 128, 8):
        codes(1000, *[(0x71 + i, n + i) for i in range(8)])
        strip(0, 1000)
        settings(ld=11, ch=40)
        start(40)
        draw(40, SUM)
        show_sum()
    codes(1000, (0x71, 0x00), (0x71, 0x7F))
    settings(ch=18)
    start(18)
    draw(18, DIGEST)


@case
def blanks_and_end_of_line():
    # SET 1 with 26 to 126 is all background and reads its code only; 127 ends the line; SET 0 with 127 is a character
    user(1, 18, 0b110000000011)
    fill(font, 0x3C)
    rows = (
        ((0x71, 0x81), (0x62, 0x9A), (0x71, 0x01), (0x6A, 0xFE), (0x68, 0xBF), (0x71, 0xC0)),
        ((0x71, 0x99), (0x71, 0x9A), (0x71, 0x9B), (0x71, 0xFD), (0x71, 0xFE), (0x71, 0x7F)),
        ((0x71, 0x01), (0xFF, 0xFF), (0x71, 0x01)),
        ((0x00, 0xFF), (0x71, 0x01)),
        ((0x7F, 0x7F), (0x12, 0xFF)),
        (),
    )
    for i, row in enumerate(rows):
        codes(128 + 16 * i, *row)
        strip(2 * i, 128 + 16 * i)
    for fbk in range(2):
        settings(ld=8, ch=1, fbk=fbk)
        start(6)
        draw(6)


@case
def every_high_byte():
    # each SET and number at slices 1 to 9, every fourth number up to 18
    noise(ram, 88)
    strip(0, 1000)
    for high in range(256):
        cell(1000, high ^ 0x5A, high, 0x25, 0x8C, 0x25, 0xFF)
        settings(ld=5, ch=50, fbk=high & 1)
        start(50)
        draw(1, SUM)
        draw(24, SUM)
        if high % 4 == 3:
            draw(25, SUM)
        if high % 8 == 7:
            show_sum()


@case
def spacing_strips():
    # of 1, 0 (passed over), 3 and 255 lines, each followed by characters; the high byte's other bits play no part
    codes(128, (0x73, 0x81))
    user(1, 18, 0b101100111000)
    a = strip(0, 128)
    for low, high in ((1, 0x00), (0, 0x00), (3, 0x7F), (0, 0x60), (2, 0x43)):
        cell(a, low, high)
        a = strip(a + 2, 128)
    cell(a, 255, 0x20)
    strip(a + 2, 128)
    settings(ch=1, fbk=1)
    start(268)
    draw(12)
    draw(252, SUM)
    show_sum()
    draw(4)


# spacings of 0 lines (request K9); RAM is all such, but for what a case puts there

def shown(*counts):
    """Draws a line for each of these read counts, known by hand; the model must count them."""
    for count in counts:
        draw()
        assert output[-1].split()[:2] == ['0', str(count)], (count, output[-1])


def zero_spacings(a, n, high=0):
    """So many, in cells that have other bytes."""
    for _ in range(n):
        cell(a, 0, high)
        a = (a + 2) % 1024
    return a


@case
def zero_spacings_at_the_frame_start():
    # passed over, and the next descriptor is read at once: 1 or 2 of them and a strip, which has all its lines, or a spacing
    settings(ld=3, ch=2, p=3)
    for n in (1, 2):
        fill(ram, 0)
        codes(600, (0x71, 0x41))
        spacing(strip(192 + 2 * n, 600), 3)
        start(5)
        ask(190, 12)
        shown(2 * n + 2 + 2)
        ask(190, 12)
        shown(2, 2, 0, 0)
        spacing(192 + 2 * n, 2)
        start(3)
        shown(2 * n + 2, 0)
        ask(190, 12)
        shown(2)
    # 511 and a strip, which they lead to once more each time that it ends, whatever was passed over at lines before; its code is one
    # of them, a black character
    fill(ram, 0)
    strip(190, 600)
    start(7)
    ask(188, 6)
    shown(1024 + 2, 2)
    ask(188, 6)
    shown(1024 + 2, 2, 1024 + 2)
    ask(188, 6)
    shown(2)
    ask(188, 6)
    shown(1024 + 2)
    ask(188, 6)
    spacing(190, 2)
    start(4)
    shown(1024, 0, 1024, 0)
    # 512: that line and the rest are plain, and nothing more is read
    fill(ram, 0)
    start(4)
    for a in (0, 188, 1020):
        ask(a, 6)
    shown(1024)
    for a in (0, 188, 1020):
        ask(a, 6)
    shown(0, 0, 0)
    draw()


@case
def zero_spacings_between_strips():
    # 1 and 2 of them, before strips and spacings of every kind
    codes(600, (0x71, 0x41))
    codes(604, (0x12, 0x42))
    a = strip(strip(0, 600) + 2, 604, zy=1)
    a = spacing(a + 4, 1)
    a = strip(a + 2, 600, de=0)
    a = strip(a + 4, 604)
    spacing(a, 9)
    settings(ld=3, ch=2)
    start(12)
    ask(a - 8, 8)
    shown(4, 2, 6, 2, 2, 2, 6, 4, 0)
    ask(a - 8, 8)
    shown(8)
    ask(a - 8, 8)
    shown(2, 2)
    # hundreds of them: what was passed over at one line does not count at the next
    fill(ram, 0)
    for at in (2, 602, 1020):
        strip(at, 700)
    settings(ld=3, ch=1, p=1)
    start(9)
    shown(*[2 * n + 2 + 2 for n in (269, 208, 2, 299, 208, 2, 299, 208, 2)])


@case
def zero_spacings_at_the_last_line():
    # passed over there as at any other line; but nothing is read ahead, and those behind the last line's strip are not read
    codes(600, (0x71, 0x41))
    settings(ld=3, ch=2)
    for n in (1, 2):
        strip(strip(0, 600) + 2 * n, 600)
        for lines in (1, 2, 3, 4):
            start(lines)
            for count in (4, 2, 2 * n + 4, 2)[:lines]:
                ask(0, 12)
                shown(count)
            ask(0, 12)
        cell(2 + 2 * n, 0, 0)
    # a spacing strip and those behind it
    spacing(0, 3)
    start(3)
    ask(0, 6)
    shown(2, 0)
    ask(0, 6)
    shown(0)
    # 511 and the strip that was shown; 512, as the strip's descriptor is taken away behind its last line
    fill(ram, 0)
    strip(0, 600)
    for high in (0xC2, 0x42):
        start(3)
        shown(4, 2)
        cell(0, 0, high)
        ask(0, 4)
        shown(1024 + 2 if high & 0x80 else 1024)
        ask(0, 4)
        draw()
    # a frame of one line
    start(1)
    shown(1024)
    draw()


@case
def zero_spacings_over_cell_1023():
    # from page 7 on spacings of one line, 286 or more of them, and then some of 0 lines up to cell 1023 or beyond it
    settings(ld=3, ch=1, p=7)
    for first, n in ((1022, 1), (1022, 2), (0, 1), (1020, 4)):
        fill(ram, 1)
        codes(300, (0x71, 0x41))
        strip(zero_spacings(first, n, high=n), 300)
        before = (first - 448) % 1024 // 2
        start(before + 2)
        draw(before - 1, SUM)
        ask(1020, 4)
        ask(0, 6)
        shown(2)
        ask(1020, 4)
        ask(0, 6)
        shown(2 * n + 4)
        ask(1020, 4)
        ask(0, 6)
        shown(2)
        show_sum()
    # once round, from pages 0, 1 and 7 on: 511 and a strip, or 512
    for p in (0, 1, 7):
        fill(ram, 0)
        last = (64 * p - 2) % 1024
        strip(last, 300)
        settings(ld=3, ch=1, p=p)
        start(2)
        shown(1024 + 2, 1024 + 2)
        cell(last, 0, 0x7F)
        start(2)
        shown(1024, 0)


@case
def high_bits_of_zero_spacings():
    # bits 6 to 0 do not matter, alone and all; with bit 7 a low byte of 0 is a code address, and its strip is not passed over
    codes(600, (0x71, 0x41))
    spacing(strip(2, 600), 9)
    settings(ld=3, ch=1)
    for high in (0x01, 0x02, 0x04, 0x08, 0x10, 0x20, 0x40, 0x60, 0x43, 0x7F, 0x80, 0xA0, 0xC0, 0xFF):
        cell(0, 0, high)
        start(3)
        ask(0, 4)
        if high < 0x80:
            shown(6, 2, 0)
        else:
            draw(3)
    # a low byte of 1 is a line, whatever the high byte
    for high in (0x00, 0x7F, 0x40):
        cell(0, 1, high)
        start(2)
        shown(2, 4)
    # each of them among the 512
    fill(ram, 0)
    for i in range(512):
        cell(2 * i + 1, i % 127 + 1)
    settings(ld=3, ch=1, p=5)
    start(3)
    shown(1024)
    ask(318, 4)
    shown(0, 0)
    # and a strip with the low byte 0 as the last of the 512, with DE 0 and DE 1
    for high in (0x80, 0xC0):
        cell(319, high)
        start(3)
        shown(*[1024 + (2 if high & 0x40 else 0)] * 3)


@case
def zero_spacings_with_osd_0():
    # their cells are read all the same, and the strip goes on underneath; behind 512 every pixel is 0, with FBK 1 too
    codes(600, (0x71, 0x41))
    spacing(strip(strip(4, 600) + 2, 600, zy=1), 9)
    settings(ld=3, ch=2, osd=0, fbk=1)
    start(8)
    ask(0, 12)
    shown(6)
    ask(0, 12)
    shown(0, 4)
    control(osd=1, fbk=1)
    shown(2)
    control(osd=0)
    shown(0)
    fill(ram, 0)
    strip(62, 600)
    settings(ld=3, ch=1, osd=0, p=1)
    start(4)
    shown(1024, 1024)
    control(p=1)
    shown(1024 + 2)
    control(osd=0, fbk=1, p=1)
    shown(1024)
    cell(63, 0)
    start(6)
    ask(60, 6)
    shown(1024)
    ask(60, 6)
    shown(0)
    control(osd=1, fbk=1)
    shown(0)
    control(osd=0, fbk=1)
    shown(0)
    control(osd=1, fbk=0)
    shown(0)
    ask(60, 6)
    shown(0)


def a_strip_for_page_2():
    """Over the bus: it stands where the walk began, at page 2 and everywhere else that it could go on from."""
    for a in (0, 126, 128, 130):
        write(a, 0x00)
        write(a + 1, 0xC3)
    for a, x in ((768, 0x71), (769, 0x41)):
        write(a, x)


@case
def the_plain_rest_of_a_frame():
    # whatever is written, and whatever is refused: no more is read. OSD, FBK and LD are still read at each line
    settings(ld=3, ch=2, fbk=1, p=2)
    start(24)
    shown(1024, 0)
    control(fbk=0, p=2)
    shown(0)
    control(fbk=1, p=2)
    shown(0)
    control(osd=0, fbk=1, p=2)
    shown(0)
    control(fbk=1, p=2)
    shown(0)
    a_strip_for_page_2()
    for a in (0, 126, 768):
        ask(a, 6)
    shown(0, 0)
    write(0x3FF2, 1)
    shown(0)
    write(0x3FF0, 4)
    draw()                      # refused: the line is too short
    lend(62)
    shown(0)
    lend(61, 1023)
    draw()
    lend(61, 1024, 4607)
    draw()
    lend(61)
    shown(0)
    for lines in (0, 2049):
        start(lines)            # refused: the frame goes on
        shown(0)
    control(osd=1, fbk=0, p=0)
    shown(0)
    noise(ram, 9)
    ask(0, 6)
    shown(0)
    for x in (0xC1, 1, 0):      # nothing but strips, spacings of one line, and as it was
        fill(ram, x)
        shown(0)
    ask(126, 6)
    draw(8)                     # the last six lines, and two that are refused


@case
def frame_starts_after_the_plain_rest():
    # the next start reads from its page on: a strip that was written meanwhile, or 512 once more; in the rest and behind it
    settings(ld=3, ch=2, fbk=1, p=2)
    start(5)
    shown(1024, 0)
    a_strip_for_page_2()
    ask(126, 6)
    shown(0)
    start(3)
    ask(126, 6)
    shown(4, 2, 4)
    draw()
    fill(ram, 0)
    start(2)
    shown(1024, 0)
    draw()
    ask(126, 6)
    start(3)
    shown(1024, 0)
    strip(60, 768)
    control(p=1)                # another page, from behind the strip on
    shown(0)
    start(3)
    ask(58, 6)
    shown(2 * 511 + 2, 2, 1024 + 2)
    # a frame that is plain has its number all the same: mode 2 shows frame 15, and hides frame 16
    reset()
    settings(ld=3, ch=2, fl=2)
    fill(ram, 0)
    start(2, times=14)
    start(2)
    shown(1024, 0)
    codes(768, (0xF1, 0x41))
    strip(2, 768)
    for _ in range(2):
        start(2)
        shown(6, 2)


@case
def reset_in_the_plain_rest():
    # stops the frame, and the next start reads again
    for strip_written in (False, True, False):
        settings(ld=3, ch=2, p=2)
        start(9)
        shown(1024, 0)
        if strip_written:
            a_strip_for_page_2()
        reset()
        draw()
        ask(0, 4)
        settings(ld=3, ch=2, p=2)
        draw()
        start(3)
        ask(126, 6)
        shown(*((4, 2, 4) if strip_written else (1024, 0, 0)))
        fill(ram, 0)


@case
def zero_spacings_after_a_strip_shown():
    # 512 behind a strip of characters, with zoom and without, and behind a spacing: all other descriptors are taken away while it is
    # shown, and its own too, but it goes on to its end
    settings(ld=3, ch=2)
    for data, lines in (((0x58, 0xC2), 2), ((0x58, 0xE2), 4), ((3, 0x00), 3), ((0x58, 0x82), 2)):
        codes(600, (0x71, 0x41))
        spacing(strip(100, 600), 255)
        cell(0, *data)
        start(lines + 3)
        ask(0, 4)
        draw()
        fill(ram, 0)
        ask(0, 4)
        draw(lines - 1)
        ask(0, 4)
        shown(1024)
        ask(0, 4)
        strip(2, 600)           # where the walk stands, and behind it
        strip(4, 600)
        ask(0, 6)
        shown(0, 0)
        fill(ram, 0)
    # not if one of them is written anew in time, whichever it is
    for a in (2, 4, 500, 1022, 0):
        fill(ram, 0)
        strip(0, 600)
        start(3)
        shown(4, 2)
        cell(0, 0, 0)
        strip(a, 600)
        ask(a, 4)
        shown(2 * ((a - 2) % 1024 // 2 + 1) + 2)


@case
def zero_spacings_and_a_height_of_0():
    # CH 0 counts as 1, also behind those that are passed over; CH is taken at the line that passes over them
    codes(600, (0x71, 0x41))
    spacing(strip(strip(2, 600) + 4, 600, zy=1), 9)
    settings(ld=3, ch=0)
    start(6)
    shown(6, 8, 2, 2)
    start(9)
    write(0x3FF2, 3)
    shown(6)
    write(0x3FF2, 0)
    shown(2, 2, 8)
    write(0x3FF2, 5)
    shown(2, 2)


@case
def most_reads_with_zero_spacings():
    # 512 descriptors, 511 of them of 0 lines, and 61 codes: 1,146 cells. A user character's code is no spacing: the 60 user slices
    # cost as many descriptors
    strip(126, 300)
    settings(ld=63, ch=1, p=2)
    start(2)
    draw(2, DIGEST)
    assert output[-1].split()[:2] == ['0', '1146']
    cell(126, 0, 0)
    for i in range(60):
        cell(8 + 2 * i, 0x13 + i & 0x7F, 0x80 + i % 26)
    strip(6, 8)
    start(1)
    draw(1, DIGEST)
    assert output[-1].split()[:2] == ['0', '1146']


@case
def made_up_pages_of_zero_spacings():
    # few strips and spacings among them, written and taken away in any order, before frames and in them
    numbers = Numbers(512)

    def put(a):
        """A descriptor of any kind at an even address."""
        kind = numbers.below(6)
        if kind < 2:
            cell(a, 0, numbers.below(128))
        elif kind == 2:
            spacing(a, numbers.below(4))
        else:
            strip(a, numbers.below(1024), de=int(kind > 3), zy=numbers.below(2))
        return a

    for i in range(48):
        if i % 3 == 0:
            fill(ram, 0)
        last = put(2 * numbers.below(512))
        settings(
            ld=3 + numbers.below(4), ch=numbers.below(4), osd=int(numbers.below(5) > 0), fbk=numbers.below(2), p=numbers.below(8))
        start(6 + numbers.below(12))
        for _ in range(4):
            ask(last, 2)
            draw(1 + numbers.below(4), SUM)
            n = numbers.below(8)
            if n < 2:
                cell(last, 0, 0)
            elif n < 4:
                last = put(2 * numbers.below(512))
            elif n == 4:
                control(osd=numbers.below(2), fbk=numbers.below(2))
        ask(numbers.below(1020), 4)
        show_sum()


@case
def a_height_change_leaves_a_spacing_strip():
    spacing(strip(spacing(0, 6), 128), 2)
    codes(128, (0x73, 0x41))
    settings(ch=2)
    start(20)
    for ch in (2, 40, 1, 0, 63, 9, 3, 3, 1, 5, 7):
        write(0x3FF2, ch)
        draw()


@case
def osd_and_fbk_change_between_lines():
    # OSD 0: zeros, descriptors read and nothing else, and the strip goes on underneath; spacings of one line behind the strips
    fill(ram, 1)
    codes(128, (0x73, 0x81), (0x4A, 0x41))
    for s in range(19):
        user(1, s, 0b100000000000 | s << 3)
    spacing(strip(spacing(strip(0, 128), 2), 128, zy=1), 1)
    settings(ch=6)
    start(40)
    for i in range(24):
        control(osd=int(i % 3 != 1 and i != 8), fbk=i // 2 % 2)
        draw()
    start(30)
    control(osd=0, fbk=1)
    draw(13)
    control(osd=1, fbk=1)
    draw(3)


@case
def other_settings_change_between_lines():
    # DD, LD and FL count from the next line on, also in mid-strip; registers from 3FF4 on do not
    codes(128, (0xF3, 0x41), (0x7A, 0x42), (0x51, 0x43), (0x52, 0x44))
    strip(0, 128)
    settings(ld=6, ch=30, spare=12)
    start(1, times=20)
    start(30)
    for register, x in ((1, 6), (0, 3), (3, 0x90), (3, 0xA0), (1, 3), (0, 7), (3, 0xB0), (1, 255), (1, 0), (3, 0xE0), (4, 0xFF), (8, 0xFF)):
        write(0x3FF0 + register, x)
        draw()


@case
def height_changes_in_mid_strip():
    # the strip keeps the CH of its first line, for its end and for its slices; the next strip takes the new one
    fill(ram, 1)            # behind the strips stand spacings of one line
    for s in range(19):
        user(1, s, 0b100000000000 | s << 3)
    codes(128, (0x73, 0x81))
    strip(strip(strip(0, 128), 128, zy=1), 128)
    settings(ch=4)
    start(60)
    for i in range(16):
        write(0x3FF2, (4, 4, 36, 1, 3, 63, 0, 2, 5)[i % 9])
        draw()


@case
def strips_with_de_0():
    # plain, with no code read, for as many lines as with DE 1
    codes(128, (0x73, 0x81))
    user(1, 6, 0b100000011111)
    strip(strip(strip(0, 128, de=0), 128, de=0, zy=1), 128)
    for fbk in range(2):
        settings(ch=3, fbk=fbk)
        start(10)
        draw(12)


@case
def a_page_for_each_p():
    # the descriptor address is P times 64
    for p in range(8):
        codes(640 + 8 * p, (0x10 + 16 * (p % 7), 0x41 + p))
        strip(64 * p, 640 + 8 * p)
    for p in (0, 1, 2, 3, 4, 5, 6, 7, 0):
        settings(p=p, ch=1)
        start(1)
        draw()


@case
def a_page_change_in_a_frame():
    # counts from the next frame start only, not from the next strip
    for p, n in ((0, 0x41), (5, 0x42)):
        codes(640 + 8 * p, (0x71, n))
        strip(spacing(strip(64 * p, 640 + 8 * p), 1), 640 + 8 * p)
    settings(ch=2)
    start(5)
    draw(1)
    control(p=5)
    draw(4)
    start(5)
    draw(2)
    control(p=0)
    draw(1)
    start(3000)             # refused: it takes no page
    draw(2)
    start(2)
    draw(2)


@case
def descriptors_over_cell_1023():
    # from page 7 on, 288 spacing strips of one line reach cell 1022; cell 0 comes next
    fill(ram, 1)
    codes(100, (0x71, 0x41), (0x62, 0x42))
    codes(110, (0x53, 0x43))
    strip(1020, 100)
    spacing(1022, 2)
    strip(0, 110)
    strip(4, 100, zy=1)
    settings(p=7, ch=2)
    start(320)
    draw(285, SUM)
    show_sum()
    draw(20)


@case
def descriptors_all_the_way_round():
    # 600 strips of one line: 512 descriptors and 88 more, in RAM of noise with every spacing strip of one line
    noise(ram, 17)
    settings(ch=1, p=3)
    for a in range(0, 1024, 2):
        if not ram[a + 1] & 0x80:
            cell(a, 1)
    start(600)
    for _ in range(12):
        draw(50, SUM)
        show_sum()


@case
def frame_lines():
    # 0 and 2,049 are refused, 1 and 2,048 not; so are numbers that would fit if cut to 16 bits
    noise(ram, 3)
    settings()
    for n in (0, 2049, 65536, 65537, 65536 + 2048, 0xFFFF, 0xFFFFFF):
        start(n)
        draw(way=DIGEST)
    start(1)
    draw(2, DIGEST)
    start(2048)
    for _ in range(8):
        draw(255, SUM)
        show_sum()
    draw(8, SUM)
    show_sum()
    draw(2, DIGEST)


@case
def a_refused_frame_start():
    # keeps the running frame and uses up no frame number: mode 2 hides from the sixteenth accepted start on
    codes(128, (0xF1, 0x41), (0x71, 0x41))
    codes(136, (0x71, 0x45))
    strip(0, 128)
    strip(64, 136)
    settings(ch=18, fl=2)
    for _ in range(15):
        start(0)
        start(1)
        start(2049)
    start(7)                # frame 15
    draw(2)
    control(fl=2, p=1)
    start(0)
    start(2049)
    draw(2)
    control(fl=2)
    draw(3)
    start(0)
    draw(1)                 # all lines are drawn, and a refused start gives none
    start(2)                # frame 16
    draw(2)


@case
def reset_in_mid_frame():
    # stops the frame, sets the registers, leaves RAM; the next frame flashes as frame 0
    codes(128, (0xF1, 0x41), (0x71, 0x41))
    strip(0, 128)
    settings(fl=2, ch=10)
    start(1, times=20)
    start(9)                # frame 20: hidden
    draw(2)
    reset()
    draw(1)
    lend(768)
    start(2)                # frame 0, by the reset values: OSD 0
    draw(1, DIGEST)
    settings(fl=2, ch=10)
    draw(2)                 # its second line, shown
    start(1, times=14)
    start(2)                # frame 15
    draw(1)
    start(2)                # frame 16
    draw(1)
    reset()
    reset()
    settings(fl=2, ch=10)
    draw(1)
    start(2)
    draw(3)


@case
def reset_in_mid_transfer():
    # the bus is idle and its counter 0, whatever it was at
    cell(0, 0x5A)
    for part in ((), (0xBA,), (0xBA, 0x01), (0xBA, 0x01, 0x23), (0xBA, 0x01, 0x23, 0x45), (0xBB,), (0x42,)):
        event('start')
        for x in part:
            event('byte', x)
        reset()
        event('byte', 0xBA)
        event('fetch')
        event('start')
        event('byte', 0xBB)
        event('fetch')
        event('stop')


@case
def bus_events_between_lines():
    # traffic does not move the walk; what it stores is read by the next line; events that are not acknowledged change nothing
    codes(128, (0x71, 0x81), (0x62, 0x41))
    strip(0, 128)
    settings(ch=12)
    start(12)
    draw(1)
    event('byte', 0xBA)
    event('fetch')
    draw(1)
    event('start')
    event('byte', 0x42)
    event('byte', 0x00)
    event('stop')
    draw(1)
    event('start')
    for x in (0xBA, 0x00, 0x80, 0x4A):      # a new low byte for the first code, in mid-transfer
        event('byte', x)
        draw(1)
    event('byte', 0x42)                     # and a new high byte
    draw(1)
    event('stop')
    write(129, 0x81)
    write(38 + 28, 0xF0)                    # user character 1, slice 14, which line 9 shows
    draw(1)
    write(0x3FEF, 0xFF)                     # no cell
    write(0x0400, 0xFF)
    draw(3)
    event('fetch')
    start(1)
    draw(2)


@case
def noise_in_all_of_ram():
    # whole frames of noise, by many settings
    numbers = Numbers(99)
    for seed in range(24):
        noise(ram, 1000 + 7 * seed)
        noise(font, 2000 + seed)
        settings(
            ld=numbers.below(64), dd=numbers.below(64), ch=numbers.below(64),
            fbk=numbers.below(2), fl=numbers.below(4), p=numbers.below(8), spare=numbers.below(9))
        start(625)
        for _ in range(5):
            draw(125, SUM)
            show_sum()


@case
def noise_in_ram_and_registers():
    # every register from noise, at the start of a frame and in it
    numbers = Numbers(7)
    lend(768)
    for seed in range(12):
        noise(ram, 5000 + seed)
        for r in range(16):
            write(0x3FF0 + r, numbers.below(256))
        start(100)
        for _ in range(20):
            write(0x3FF0 + numbers.below(4), numbers.below(256))
            write(0x3FF3, 0x80 | numbers.below(128))
            write(numbers.below(0x4000) if numbers.below(2) else numbers.below(1024), numbers.below(256))
            draw(5, SUM)
        show_sum()


@case
def made_up_calls():
    # any call after any other, refused or not
    numbers = Numbers(31)
    noise(ram, 600)
    for i in range(800):
        n = numbers.below(40)
        if n == 0:
            reset()
        elif n < 4:
            start((0, 1, 5, 9, 40, 625, 2048, 2049)[numbers.below(8)])
        elif n < 12:
            write(0x3FF0 + numbers.below(4), numbers.below(256))
        elif n < 16:
            write(0x3FF3, 0x80 | numbers.below(128))
        elif n < 20:
            write(numbers.below(1024), numbers.below(256))
        elif n < 26:
            lend(
                (768, 1024, 768, 400, 12, 60)[numbers.below(6)],
                RAM_LENGTHS[numbers.below(4)] if n == 20 else 1024, FONT_LENGTHS[numbers.below(4)] if n == 21 else 4608)
        else:
            draw(1 + numbers.below(12), SUM)
        if i % 10 == 9:
            show_sum()


assert len(steps) <= 131072    # what the program reads
script.store({'crates/test_frames/stdin': steps, 'crates/test_frames/stdout': ''.join(output)})
print('%d cases, %d draws' % (totals['cases'], totals['draws']))
