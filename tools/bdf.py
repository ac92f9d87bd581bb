#!/usr/bin/env python3
"""Converts between a font's 4,608 bytes and BDF, the bitmap font format of X11 that font editors read and write:

    python3 tools/bdf.py to-font < NAME.bdf > font.bin
    python3 tools/bdf.py from-font < font.bin > NAME.bdf

A font has 128 characters of 18 slices of twelve pixels, two bytes a slice: slice s (1 = top) of character k at byte 36 * k + 2 * (s - 1),
first PX7 to PX0, then PX11 to PX8 in bits 3 to 0. PX11 is leftmost. The upper four bits of the second byte do not count and cannot be drawn:
from-font drops them, and to-font gives 0. So a font that went both ways is the same on the screen, and the same in every byte if it had
these bits 0.

to-font takes the glyphs with ENCODING 0 to 127. Where the properties FONT_ASCENT and FONT_DESCENT are both given and together make 18 rows,
they place the cell, whatever FONTBOUNDINGBOX says: its top row is FONT_ASCENT above the base line, and its leftmost column is at x = 0.
Otherwise the cell's top left corner is that of FONTBOUNDINGBOX, and a smaller box leaves the rest of the cell blank. A character that is
missing is blank; glyphs with other encodings (-1, or above 127) are passed over. ENCODING -1 n counts as n. A set pixel outside the cell is
refused, and so is a BDF that is malformed, with the number of the line: nothing is converted then, and the exit status is 1. Words and values
that do not change a pixel (names, widths, other properties) are not looked at, nor are digits of a row that lie to the right of its BBX.
"""
import re
import sys

FONT_LENGTH, CHARACTERS, SLICES, PIXELS = 4608, 128, 18, 12
NUMBER = re.compile('-?[0-9]{1,9}')
DIGITS = re.compile('[0-9A-Fa-f]+')
FONT_WORDS = ('CONTENTVERSION', 'FONT', 'METRICSSET', 'SWIDTH', 'DWIDTH', 'SWIDTH1', 'DWIDTH1', 'VVECTOR')
GLYPH_WORDS = ('SWIDTH', 'DWIDTH', 'SWIDTH1', 'DWIDTH1', 'VVECTOR', 'ATTRIBUTES')

PROPERTIES = '''
FOUNDRY "Misc"
FAMILY_NAME "Spriettobbe"
WEIGHT_NAME "Medium"
SLANT "R"
SETWIDTH_NAME "Normal"
ADD_STYLE_NAME ""
PIXEL_SIZE 18
POINT_SIZE 180
RESOLUTION_X 72
RESOLUTION_Y 72
SPACING "C"
AVERAGE_WIDTH 120
CHARSET_REGISTRY "ISO10646"
CHARSET_ENCODING "1"
FONT_ASCENT 14
FONT_DESCENT 4
DEFAULT_CHAR 32
'''.split('\n')[1:-1]


class Refused(Exception):
    pass


# ---- from BDF

class Lines:
    """The lines of a BDF as lists of words, one after the other; empty lines and comments are passed over."""

    def __init__(self, data):
        self.lines, self.number = data.decode('ascii', 'replace').split('\n'), 0

    def next(self, awaited):
        while self.number < len(self.lines):
            self.number += 1
            words = self.lines[self.number - 1].split()
            if words and words[0] != 'COMMENT':
                return words
        raise self.refusal('the BDF ends, and %s is missing' % awaited)

    def refusal(self, what, line=None):
        return Refused('line %d: %s' % (line or self.number, what))

    def numbers(self, words, *counts):
        """The numbers after a word, if there are as many as one of the counts."""
        word, *values = words
        if len(values) not in counts or not all(NUMBER.fullmatch(value) for value in values):
            raise self.refusal('%s takes %s' % (word, ' or '.join('%d number%s' % (n, 's' * (n > 1)) for n in counts)))
        return [int(value) for value in values]

    def count(self, words):
        n, = self.numbers(words, 1)
        if n < 0:
            raise self.refusal('%s is negative' % words[0])
        return n

    def box(self, words):
        """Width, height, and the place of the lower left corner."""
        box = self.numbers(words, 4)
        if box[0] < 0 or box[1] < 0:
            raise self.refusal('%s has a negative size' % words[0])
        return box


class Glyph:
    def __init__(self, name, line):
        self.name, self.line, self.encoding, self.box, self.rows = name, line, None, None, []


def head_of(lines):
    """The font's part of a BDF, up to CHARS: where the cell's left and top edges are, and how many glyphs follow."""
    box, rows = None, {}
    if lines.next('STARTFONT')[0] != 'STARTFONT':
        raise lines.refusal('a BDF begins with STARTFONT')
    while True:
        words = lines.next('CHARS')
        if words[0] == 'FONTBOUNDINGBOX' and box is None:
            box = lines.box(words)
        elif words[0] == 'SIZE':
            if words[4:] not in ([], ['1']):
                raise lines.refusal('more than one bit a pixel')
        elif words[0] == 'STARTPROPERTIES':
            read_properties(lines, lines.count(words), rows)
        elif words[0] == 'CHARS':
            if box is None:
                raise lines.refusal('CHARS before FONTBOUNDINGBOX')
            _, height, left, bottom = box
            placed = len(rows) == 2 and sum(rows.values()) == SLICES
            return (0, rows['FONT_ASCENT']) if placed else (left, bottom + height), lines.count(words)
        elif words[0] not in FONT_WORDS:
            raise lines.refusal('%s has no place here' % words[0])


def read_properties(lines, n, rows):
    """Puts FONT_ASCENT and FONT_DESCENT into rows, and passes over the others."""
    for i in range(n):
        words = lines.next('ENDPROPERTIES')
        if words == ['ENDPROPERTIES']:
            raise lines.refusal('%d properties, not %d' % (i, n))
        if words[0] in rows:
            raise lines.refusal('%s is given twice' % words[0])
        if words[0] in ('FONT_ASCENT', 'FONT_DESCENT'):
            rows[words[0]], = lines.numbers(words, 1)
    if lines.next('ENDPROPERTIES') != ['ENDPROPERTIES']:
        raise lines.refusal('more than %d properties' % n)


def glyph_of(lines, words):
    if words[0] != 'STARTCHAR':
        raise lines.refusal('STARTCHAR is missing')
    glyph = Glyph(' '.join(words[1:]), lines.number)
    while words[0] != 'BITMAP':
        words = lines.next('BITMAP')
        if words[0] == 'ENCODING' and glyph.encoding is None:
            glyph.encoding = encoding_of(lines, words)
        elif words[0] == 'BBX' and glyph.box is None:
            glyph.box = lines.box(words)
        elif words[0] not in GLYPH_WORDS + ('BITMAP',):
            raise lines.refusal('%s has no place here' % words[0])
    if glyph.encoding is None or glyph.box is None:
        raise lines.refusal('BITMAP before %s' % ('ENCODING' if glyph.encoding is None else 'BBX'))
    read_rows(lines, glyph)
    return glyph


def encoding_of(lines, words):
    encoding, *more = lines.numbers(words, 1, 2)
    if encoding < -1 or more and (encoding != -1 or more[0] < -1):
        raise lines.refusal('ENCODING takes a number from 0 on, or -1, or -1 and a number')
    return more[0] if more else encoding


def read_rows(lines, glyph):
    """The rows up to ENDCHAR, as numbers of the BBX's width in bits."""
    width, height = glyph.box[:2]
    needed = (width + 7) // 8 * 2
    words = lines.next('ENDCHAR')
    while words != ['ENDCHAR']:
        digits = ''.join(words)
        if len(words) > 1 or not DIGITS.fullmatch(digits):
            raise lines.refusal('no row of hexadecimal digits')
        if len(digits) < needed:
            raise lines.refusal('a row of %d digits, where a BBX of width %d needs %d' % (len(digits), width, needed))
        if len(glyph.rows) == height:
            raise lines.refusal('more than %d rows' % height)
        glyph.rows.append(int(digits, 16) >> 4 * len(digits) - width)
        words = lines.next('ENDCHAR')
    # rows of no width may be left out, as they are empty lines
    if len(glyph.rows) < height and width > 0:
        raise lines.refusal('%d rows, not %d' % (len(glyph.rows), height))


def slices_of(lines, glyph, cell_left, cell_top):
    """The 18 slices of a glyph's cell, as numbers of twelve bits."""
    width, height, left, bottom = glyph.box
    first_row, first_column = cell_top - bottom - height, left - cell_left
    slices = [0] * SLICES
    for row, bits in enumerate(glyph.rows, first_row):
        for column in range(first_column, first_column + width):
            if bits >> first_column + width - 1 - column & 1:
                if not (0 <= row < SLICES and 0 <= column < PIXELS):
                    raise lines.refusal('character %d (%s) has a pixel outside the cell, at column %d of row %d, both counted from 0'
                                        % (glyph.encoding, glyph.name, column, row), glyph.line)
                slices[row] |= 1 << PIXELS - 1 - column
    return slices


def to_font(data):
    """The font of a BDF, and a line about it."""
    lines, seen, passed = Lines(data), {}, 0
    font = bytearray(FONT_LENGTH)
    corner, n = head_of(lines)
    words = lines.next('ENDFONT')
    for i in range(n):
        if words == ['ENDFONT']:
            raise lines.refusal('%d glyphs, not %d' % (i, n))
        glyph = glyph_of(lines, words)
        k = glyph.encoding
        if k in seen:
            raise lines.refusal('%s has ENCODING %d, and so has %s' % (glyph.name, k, seen[k]), glyph.line)
        if k >= 0:
            seen[k] = glyph.name
        if 0 <= k < CHARACTERS:
            slices = slices_of(lines, glyph, *corner)
            font[36 * k:36 * k + 36] = [x for bits in slices for x in (bits & 255, bits >> 8)]
        else:
            passed += 1
        words = lines.next('ENDFONT')
    if words != ['ENDFONT']:
        raise lines.refusal('more than %d glyphs, or ENDFONT is missing' % n)
    pass_the_end(lines)
    taken = n - passed
    return font, '%d characters taken, %d missing and so blank, %d passed over' % (taken, CHARACTERS - taken, passed)


def pass_the_end(lines):
    for rest in lines.lines[lines.number:]:
        lines.number += 1
        if rest.split()[:1] not in ([], ['COMMENT']):
            raise lines.refusal('more after ENDFONT')


# ---- to BDF

def from_font(font):
    """The BDF of a font, and a line about it."""
    if len(font) != FONT_LENGTH:
        raise Refused('the font has %d bytes, not %d' % (len(font), FONT_LENGTH))
    text = [
        'STARTFONT 2.1', 'COMMENT 128 characters in cells of 12 x 18 pixels',
        'FONT -Misc-Spriettobbe-Medium-R-Normal--18-180-72-72-C-120-ISO10646-1', 'SIZE 18 72 72', 'FONTBOUNDINGBOX 12 18 0 -4',
        'STARTPROPERTIES %d' % len(PROPERTIES), *PROPERTIES, 'ENDPROPERTIES', 'CHARS %d' % CHARACTERS]
    for k in range(CHARACTERS):
        character = font[36 * k:36 * k + 36]
        rows = ['%04X' % ((high & 15) << 12 | low << 4) for low, high in zip(character[::2], character[1::2])]
        # the scalable width: 12 pixels of 18, in thousandths
        text += ['STARTCHAR U+%04X' % k, 'ENCODING %d' % k, 'SWIDTH 667 0', 'DWIDTH 12 0', 'BBX 12 18 0 -4', 'BITMAP', *rows, 'ENDCHAR']
    text += ['ENDFONT', '']
    dropped = sum(high > 15 for high in font[1::2])
    return '\n'.join(text).encode(), '%d characters written, unused bits dropped in %d slices' % (CHARACTERS, dropped)


if __name__ == '__main__':
    ways = {'to-font': to_font, 'from-font': from_font}
    if len(sys.argv) != 2 or sys.argv[1] not in ways:
        sys.exit('usage: python3 %s to-font|from-font < INPUT > OUTPUT' % sys.argv[0])
    try:
        output, said = ways[sys.argv[1]](sys.stdin.buffer.read())
    except Refused as refused:
        sys.exit('bdf: %s' % refused)
    sys.stdout.buffer.write(output)
    print('bdf: %s' % said, file=sys.stderr)
