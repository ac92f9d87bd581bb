#!/usr/bin/env python3
"""Tests of tools/bdf.py, run as `python3 -B tests/bdf.py`: prints a line for each difference, and one with the counts.

The small font tests/small.bdf is held against pictures below, the sample font and noise go both ways, cells are placed by FONT_ASCENT and
FONT_DESCENT or by FONTBOUNDINGBOX (as in the small font, where these make fewer than 18 rows), and every kind of bad BDF is refused.
Fonts of X11 are tried where they are installed (on Debian xfonts-base and pcf2bdf), and what from-font writes is given to bdftopcf
(xfonts-utils).
"""
import gzip
import importlib.util
import pathlib
import re
import shutil
import subprocess
import sys

import demo
import script

HERE = pathlib.Path(__file__).resolve().parent
TOOL = HERE.parent / 'tools' / 'bdf.py'
X11 = pathlib.Path('/usr/share/fonts/X11')
SMALL = (HERE / 'small.bdf').read_text()

# the characters of tests/small.bdf that are not blank
NUMBERS = (0, 5, 46, 65, 103, 106, 127)
PICTURES = '''
############ ............ ............ ............ ............ ............ #..........#
#..........# ............ ............ ............ ............ ............ ............
#..........# ............ ............ ....#....... ............ ..##........ ............
#..........# ............ ............ ...#.#...... ............ ..##........ ............
#..........# ....#.#..... ............ ...#.#...... ............ ............ ............
#..........# ...#####.... ............ ..#...#..... ..###.#..... .###........ ............
#..........# ....###..... ............ ..#...#..... .#...##..... ..##........ ............
#..........# .....#...... ............ ..#####..... .#....#..... ..##........ ............
#..........# ............ ............ .#.....#.... .#....#..... ..##........ ............
#..........# ............ ....##...... .#.....#.... .#...##..... ..##........ ............
#..........# ............ ....##...... .#.....#.... ..###.#..... ..##........ ............
#..........# ............ ............ ............ ......#..... ..##........ ............
#..........# ............ ............ ............ .#....#..... #.##........ ............
#..........# ............ ............ ............ ..####...... .##......... ............
#..........# ............ ............ ............ ............ ............ ............
#..........# ............ ............ ............ ............ ............ ............
#..........# ............ ............ ............ ............ ............ ............
############ ............ ............ ............ ............ ............ #..........#
'''

SPEC = importlib.util.spec_from_file_location('tool', TOOL)
tool = importlib.util.module_from_spec(SPEC)
SPEC.loader.exec_module(tool)
tests, differences = 0, 0


# ---- a test

def expect(what, holds):
    global tests, differences
    tests += 1
    if not holds:
        differences += 1
        print('bdf: ' + what)
    return holds


def run(way, data):
    """Status, output and what was said, without a process of its own; `commands` has those."""
    try:
        output, said = {'to-font': tool.to_font, 'from-font': tool.from_font}[way](as_bytes(data))
        return 0, bytes(output), 'bdf: %s\n' % said
    except tool.Refused as refused:
        return 1, b'', 'bdf: %s\n' % refused
    except Exception as fault:
        return 2, b'', '%r\n' % fault


def run_command(words, data):
    end = subprocess.run([sys.executable, '-B', TOOL, *words], input=as_bytes(data), stdout=subprocess.PIPE, stderr=subprocess.PIPE)
    return end.returncode, end.stdout, end.stderr.decode()


def as_bytes(data):
    return data.encode() if isinstance(data, str) else bytes(data)


def taken(what, bdf, font, said=None):
    """to-font gives this font, and says so."""
    status, output, line = run('to-font', bdf)
    expect('%s: status %d' % (what, status), status == 0)
    expect(what + ': another font', output == bytes(font))
    expect('%s: said %r' % (what, line), line.count('\n') == 1 and said in (None, line))


def refused(what, way, data, *parts):
    """Nothing is written but one line on standard error, which has these parts."""
    status, output, line = run(way, data)
    expect('%s: status %d, %d bytes' % (what, status, len(output)), status == 1 and output == b'')
    expect('%s: said %r' % (what, line), line.startswith('bdf: ') and line.count('\n') == 1 and all(part in line for part in parts))


# ---- another reading of fonts and BDF: the pixels that are set, as (character, column, row)

def pixels_of_font(font):
    pixels = set()
    for k in range(128):
        for s in range(1, 19):
            low, high = font[36 * k + 2 * (s - 1)], font[36 * k + 2 * (s - 1) + 1]
            for px in range(12):
                if (high >> (px - 8) if px >= 8 else low >> px) & 1:
                    pixels.add((k, 11 - px, s - 1))
    return pixels


def pixels_of_bdf(text):
    def four(word, part):
        return map(int, re.search(r'^%s +(\S+) +(\S+) +(\S+) +(\S+)' % word, part, re.M).groups())

    head, *parts = re.split(r'^STARTCHAR ', text, flags=re.M)
    _, height, left, bottom = four('FONTBOUNDINGBOX', head)
    above, below = (re.findall(r'^FONT_%s +(-?\d+)$' % word, head, re.M) for word in ('ASCENT', 'DESCENT'))
    if above and below and int(above[0]) + int(below[0]) == 18:
        height, left, bottom = 18, 0, -int(below[0])
    pixels = set()
    for part in parts:
        k = int(re.search(r'^ENCODING .*?(-?\d+)$', part, re.M).group(1))
        if 0 <= k <= 127:
            w, h, x, y = four('BBX', part)
            rows = re.search(r'^BITMAP\n(.*?)^ENDCHAR', part, re.M | re.S).group(1).split()
            for i, row in enumerate(rows):
                bits = ''.join('{:04b}'.format(int(digit, 16)) for digit in row)[:w]
                # y counts upwards from the base line
                pixels |= {(k, x + j - left, (bottom + height - 1) - (y + h - 1 - i)) for j, bit in enumerate(bits) if bit == '1'}
    return pixels


def fits(pixels):
    return all(0 <= column < 12 and 0 <= row < 18 for _, column, row in pixels)


# ---- the small font

def small_font():
    font = [0] * 4608
    for i, k in enumerate(NUMBERS):
        rows = [line.split()[i] for line in PICTURES.strip().split('\n')]
        font[36 * k:36 * k + 36] = demo.packed(demo.rows_of(rows))
    return font


def edited(*changes):
    """The small font with lines changed: each is an old text, found once, and a new one."""
    text = SMALL
    for old, new in changes:
        assert text.count(old) == 1, old
        text = text.replace(old, new)
    return text


def moved(right, up):
    """The small font with all boxes moved, which gives the same characters."""
    def box(match):
        word, w, h, x, y = match.groups()
        return '%s %s %s %d %d' % (word, w, h, int(x) + right, int(y) + up)
    return re.sub(r'^(BBX|FONTBOUNDINGBOX) (\d+) (\d+) (-?\d+) (-?\d+)$', box, SMALL, flags=re.M)


def the_small_font():
    font, said = small_font(), 'bdf: 8 characters taken, 120 missing and so blank, 3 passed over\n'
    expect('small font: the reading of this test', pixels_of_bdf(SMALL) == pixels_of_font(font))
    for what, text in (
            ('small font', SMALL),
            ('CRLF', SMALL.replace('\n', '\r\n')),
            ('comments and empty lines', SMALL.replace('\n', '\nCOMMENT ENDFONT\n\n \nCOMMENT\n')),
            ('no end of the last line', SMALL.rstrip('\n')),
            ('empty lines at the end', SMALL + '\n\nCOMMENT\n\n'),
            ('lower-case digits', re.sub(r'^[0-9A-F]+$', lambda row: row.group().lower(), SMALL, flags=re.M)),
            ('more digits than needed', re.sub(r'^([0-9A-Fa-f]+)$', r'\1FFFF', SMALL, flags=re.M)),
            ('blanks around words', re.sub(r'^(.*)$', r' \1  ', SMALL.replace('BBX 2 2 3 0', 'BBX\t2  2 3\t0'), flags=re.M)),
            ('a SIZE of one bit a pixel', edited(('SIZE 14 72 72', 'SIZE 14 72 72 1'))),
            ('no properties', re.sub(r'STARTPROPERTIES.*ENDPROPERTIES\n', '', SMALL, flags=re.S)),
            ('properties of none', re.sub(r'STARTPROPERTIES.*ENDPROPERTIES', 'STARTPROPERTIES 0\nENDPROPERTIES', SMALL, flags=re.S)),
            ('words of version 2.2', edited(
                ('STARTFONT 2.1', 'STARTFONT 2.2\nCONTENTVERSION 1'),
                ('FONTBOUNDINGBOX', 'METRICSSET 2\nDWIDTH1 0 14\nSWIDTH1 0 1\nVVECTOR 4 9\nFONTBOUNDINGBOX'))),
            ('BBX before ENCODING', edited(('ENCODING 46\nSWIDTH 571 0\nDWIDTH 8 0\nBBX 2 2 3 0', 'BBX 2 2 3 0\nENCODING 46'))),
            ('-1 twice in ENCODING', edited(('ENCODING -1\nSWIDTH 571 0\nDWIDTH 8 0\nBBX 8 1 0 0\nBITMAP\nFF\nENDCHAR\nSTARTCHAR period',
                                             'ENCODING -1 -1\nBBX 8 1 0 0\nBITMAP\nFF\nENDCHAR\nSTARTCHAR period'))),
            ('space of rows without width', edited(('BBX 0 0 0 0\nBITMAP\n', 'BBX 0 3 0 0\nBITMAP\n\n\n\n'))),
            ('space of rows with digits', edited(('BBX 0 0 0 0\nBITMAP\n', 'BBX 0 3 0 0\nBITMAP\nFF\nFF\nFF\n'))),
            ('space of no rows', edited(('BBX 0 0 0 0', 'BBX 8 0 4 4'))),
            ('space far outside', edited(('BBX 0 0 0 0\nBITMAP\n', 'BBX 8 1 400 -400\nBITMAP\n00\n'))),
            ('boxes moved', moved(5, -9)), ('boxes moved the other way', moved(-30, 40))):
        taken(what, text, font, said)
    strange = SMALL.encode().replace(b'Small-Medium', b'Sm\xe4ll\x85\xa0-Medium').replace(b'font for', b'f\xc3\xb6nt\x0c for')
    taken('bytes that are not ASCII', strange, font, said)
    taken('no glyph', 'STARTFONT 2.1\nFONTBOUNDINGBOX 12 18 0 -4\nCHARS 0\nENDFONT\n', bytes(4608),
          'bdf: 0 characters taken, 128 missing and so blank, 0 passed over\n')
    for encoding, number in (('ENCODING -1 46', 46), ('ENCODING 47', 47), ('ENCODING 126', 126), ('ENCODING 1', 1)):
        other = list(font)
        other[36 * 46:36 * 47] = [0] * 36
        other[36 * number:36 * number + 36] = font[36 * 46:36 * 47]
        taken(encoding, edited(('ENCODING 46', encoding)), other, said)
    without = list(font)
    without[36 * 46:36 * 47] = [0] * 36
    for encoding in ('ENCODING 128', 'ENCODING -1 128', 'ENCODING 65536', 'ENCODING -1'):
        taken(encoding, edited(('ENCODING 46', encoding)), without, 'bdf: 7 characters taken, 121 missing and so blank, 4 passed over\n')


# ---- there and back

def from_font(what, font):
    """The BDF of a font, which has the lines that it should have and the font's pixels."""
    status, bdf, line = run('from-font', font)
    unused = sum(high > 15 for high in font[1::2])
    said = 'bdf: 128 characters written, unused bits dropped in %d slices\n' % unused
    expect('%s: status %d, said %r' % (what, status, line), status == 0 and line == said)
    text = bdf.decode('ascii')
    expect(what + ': other pixels', pixels_of_bdf(text) == pixels_of_font(font))
    form = re.fullmatch(
        r'STARTFONT 2\.1\n(?:COMMENT .*\n)*FONT (?:-[^-\n]*){14}\nSIZE 18 72 72\nFONTBOUNDINGBOX 12 18 0 -4\n'
        r'STARTPROPERTIES (\d+)\n((?:[A-Z_]+ (?:-?\d+|"[^"\n]*")\n)+)ENDPROPERTIES\nCHARS 128\n'
        r'((?:STARTCHAR \S+\nENCODING \d+\nSWIDTH 667 0\nDWIDTH 12 0\nBBX 12 18 0 -4\nBITMAP\n'
        r'(?:[0-9A-F]{3}0\n){18}ENDCHAR\n){128})ENDFONT\n', text)
    if expect(what + ': another form', form is not None):
        n, properties, glyphs = form.groups()
        expect(what + ': the count of properties', int(n) == properties.count('\n'))
        expect(what + ': ascent and descent', 'FONT_ASCENT 14\n' in properties and 'FONT_DESCENT 4\n' in properties)
        expect(what + ': the encodings', re.findall(r'^ENCODING (\d+)$', glyphs, re.M) == [str(k) for k in range(128)])
        expect(what + ': names twice', len(set(re.findall(r'^STARTCHAR (\S+)$', glyphs, re.M))) == 128)
    return bdf


def there_and_back():
    all_taken = 'bdf: 128 characters taken, 0 missing and so blank, 0 passed over\n'
    sample = demo.sample_font()
    taken('sample font there and back', from_font('sample font', sample), sample, all_taken)
    for what, font in (
            ('all 00', [0] * 4608), ('all FF', [255] * 4608), ('noise', script.noise(4608, 8)), ('other noise', script.noise(4608, 9)),
            ('unused bits only', [0, 0xF0] * 2304), ('one pixel in each slice', demo.packed(1 << i % 12 for i in range(2304)))):
        drawn = [x & 15 if i % 2 else x for i, x in enumerate(font)]
        bdf = from_font(what, font)
        taken(what + ' there and back', bdf, drawn, all_taken)
        expect(what + ': the same BDF again', from_font(what + ' drawn', drawn) == bdf)


# ---- where the cell is

def placed(text, ascent, descent, box=None):
    """A BDF with these values of the two properties and of FONTBOUNDINGBOX; without a property whose value is None."""
    for word, value in (('FONT_ASCENT', ascent), ('FONT_DESCENT', descent)):
        text, n = re.subn(r'^%s .*$' % word, 'X 0' if value is None else '%s %d' % (word, value), text, flags=re.M)
        assert n == 1, word
    return re.sub(r'^FONTBOUNDINGBOX .*$', 'FONTBOUNDINGBOX ' + box, text, flags=re.M) if box else text


def same_pixels(what, text, font):
    expect(what + ': the reading of this test', pixels_of_bdf(text) == pixels_of_font(font))
    taken(what, text, font)


def cells():
    sample, noise = demo.sample_font(), demo.packed(x * 15 % 4096 for x in script.noise(2304, 8))
    boxes = ('12 18 0 -4', '11 16 1 -4', '1 1 5 5', '0 0 0 0', '40 50 -9 -20')
    for what, font in (('sample font', sample), ('noise', noise)):
        bdf = run('from-font', font)[1].decode()
        for box in boxes:
            same_pixels('%s in %s' % (what, box), placed(bdf, 14, 4, box), font)
    bdf, moved_pixels = run('from-font', sample)[1].decode(), {(k, column - 1, row - 2) for k, column, row in pixels_of_font(sample)}
    for ascent, descent in ((14, 3), (14, None), (None, 4)):
        same_pixels('sample font of %s and %s rows' % (ascent, descent), placed(bdf, ascent, descent), sample)
        status, font, _ = run('to-font', placed(bdf, ascent, descent, '11 16 1 -4'))
        expect('sample font of %s and %s rows, moved' % (ascent, descent), status == 0 and pixels_of_font(font) == moved_pixels)

    # rows are moved out of the cell only if they are blank
    for rows, ascent, descent, at, row in ((1, 13, 5, 0, -1), (-1, 15, 3, 17, 18), (3, 11, 7, 2, -1), (-4, 18, 0, 14, 18)):
        out = range(rows) if rows > 0 else range(18 + rows, 18)
        blank = [0 if i % 36 // 2 in out else x for i, x in enumerate(noise)]
        shifted = [x for k in range(128) for x in rotated(blank[36 * k:36 * k + 36], 2 * rows)]
        what = 'noise of %d and %d rows' % (ascent, descent)
        for box in boxes:
            same_pixels(what, placed(run('from-font', blank)[1].decode(), ascent, descent, box), shifted)
        blank[36 * 65 + 2 * at] |= 1 << 5
        refused(what + ', a pixel outside', 'to-font', placed(run('from-font', blank)[1].decode(), ascent, descent),
                'character 65 (U+0041) has a pixel outside the cell, at column 6 of row %d,' % row)


def rotated(values, n):
    return values[n:] + values[:n]


def cells_of_the_small_font():
    # FONTBOUNDINGBOX has its left edge at -1 and its top at 11
    font = small_font()
    for ascent in (14, 9, 18, 20, 100, 1, 0, -1, -2, -100):
        what, text = 'small font of ascent %d' % ascent, placed(moved(1, ascent - 11), ascent, 18 - ascent, '10 14 -7 8')
        same_pixels(what, text, font)
        same_pixels(what + ', FONTBOUNDINGBOX last', re.sub(r'^(FONTBOUNDINGBOX.*\n)((?:.*\n)*?)CHARS', r'\2\1CHARS', text, flags=re.M), font)
        same_pixels(what + ', descent first', re.sub(r'^(FONT_ASCENT.*\n)(FONT_DESCENT.*\n)', r'\2\1', text, flags=re.M), font)
        refused(what + ', one column to the left', 'to-font', placed(moved(0, ascent - 11), ascent, 18 - ascent), 'column -1 of row 0,')
        text = re.sub('^FONTBOUNDINGBOX.*\n', '', text, flags=re.M)
        refused(what + ', no FONTBOUNDINGBOX', 'to-font', text, line_of(text, 'CHARS 11'), 'FONTBOUNDINGBOX')
    for ascent, descent in ((14, 3), (14, 5), (14, -4), (-14, -4), (0, 0), (18, 18), (-18, 0), (12, 2), (14, None), (None, 4), (18, None),
                            (None, 18), (None, None)):
        same_pixels('small font of %s and %s rows' % (ascent, descent), placed(SMALL, ascent, descent), font)
    for old, new in (('FONT_ASCENT 12', 'FONT_ASCENTS 16'), ('FONT_ASCENT 12', 'font_ascent 16'), ('NOTICE "', 'NOTICE "\tFONT_ASCENT 16 '),
                     ('FONT_ASCENT 12', 'COMMENT FONT_ASCENT 16\nX 0'), ('NOTICE "ENDPROPERTIES"', 'RAW_ASCENT 16')):
        same_pixels('%r for %r' % (new, old), edited((old, new)), font)


# ---- refusals

def line_of(text, at):
    """How a line is named: by its number, which is given, or is that of the one line with this text."""
    if isinstance(at, str):
        lines = text.split('\n')
        assert lines.count(at) == 1, at
        at = lines.index(at) + 1
    return 'line %d: ' % at


def refused_fonts():
    for n in (0, 1, 4607, 4609, 5120):
        refused('font of %d bytes' % n, 'from-font', bytes(n), '%d bytes' % n, '4608')


def refused_bdfs():
    refused('empty', 'to-font', b'', 'line 1: ')
    refused('a font as BDF', 'to-font', bytes(4608), 'line 1: ')
    refused('noise as BDF', 'to-font', bytes(script.noise(4608, 8)), 'line ')
    refused('more after the end', 'to-font', SMALL + '\n\nSTARTFONT 2.1\n', 'line %d: ' % (SMALL.count('\n') + 3), 'ENDFONT')
    refused('two fonts', 'to-font', SMALL + SMALL, 'line %d: ' % (SMALL.count('\n') + 1), 'ENDFONT')
    refused('CRLF does not change the numbers', 'to-font', edited(('CHARS 11', 'CHARS x')).replace('\n', '\r\n'), 'line 13: ', 'CHARS')

    # an old text and the new one, and the line that is named
    for old, new, at, *parts in (
            ('STARTFONT 2.1\n', '', 'FONT -Misc-Small-Medium-R-Normal--14-140-72-72-P-80-ISO10646-1', 'STARTFONT'),
            ('STARTFONT 2.1', 'startfont 2.1', 'startfont 2.1', 'STARTFONT'),
            ('SIZE 14 72 72', 'SIZE 14 72 72 8', 'SIZE 14 72 72 8', 'bit'),
            ('SIZE 14 72 72', 'SHOE 14', 'SHOE 14', 'SHOE'),
            ('FONTBOUNDINGBOX 10 14 -1 -3\n', '', 'CHARS 11', 'FONTBOUNDINGBOX'),
            ('FONTBOUNDINGBOX 10 14 -1 -3', 'FONTBOUNDINGBOX 10 14 -1', 'FONTBOUNDINGBOX 10 14 -1', '4 numbers'),
            ('FONTBOUNDINGBOX 10 14 -1 -3', 'FONTBOUNDINGBOX 10 14 -1 -3 0', 'FONTBOUNDINGBOX 10 14 -1 -3 0', '4 numbers'),
            ('FONTBOUNDINGBOX 10 14 -1 -3', 'FONTBOUNDINGBOX 10 14 -1 three', 'FONTBOUNDINGBOX 10 14 -1 three', '4 numbers'),
            ('FONTBOUNDINGBOX 10 14 -1 -3', 'FONTBOUNDINGBOX 10 14.5 -1 -3', 'FONTBOUNDINGBOX 10 14.5 -1 -3', '4 numbers'),
            ('FONTBOUNDINGBOX 10 14 -1 -3', 'FONTBOUNDINGBOX 10 -14 -1 -3', 'FONTBOUNDINGBOX 10 -14 -1 -3', 'negative'),
            ('FONTBOUNDINGBOX 10 14 -1 -3', 'FONTBOUNDINGBOX 10 14 -1 -3\nFONTBOUNDINGBOX 9 14 -1 -3', 'FONTBOUNDINGBOX 9 14 -1 -3', 'no place'),
            ('STARTPROPERTIES 4', 'STARTPROPERTIES 3', 'COPYRIGHT "CHARS 3 of ""Small"""', 'more than 3'),
            ('STARTPROPERTIES 4', 'STARTPROPERTIES 5', 'ENDPROPERTIES', '4 properties, not 5'),
            ('STARTPROPERTIES 4', 'STARTPROPERTIES', 'STARTPROPERTIES', '1 number'),
            ('STARTPROPERTIES 4', 'STARTPROPERTIES -4', 'STARTPROPERTIES -4', 'negative'),
            ('\nENDPROPERTIES', '', 'CHARS 11', 'more than 4'),
            *(('%s %d' % (word, n), line, line, word, '1 number') for word, n in (('FONT_ASCENT', 12), ('FONT_DESCENT', 2))
              for line in [word] + [word + ' ' + values for values in ('14 4', '"14"', '14.0', '0xE', '- 4', '+14', '1234567890', 'x')]),
            ('NOTICE "ENDPROPERTIES"', 'FONT_ASCENT 12', 10, 'FONT_ASCENT', 'twice'),
            ('NOTICE "ENDPROPERTIES"', 'FONT_DESCENT 6', 'FONT_DESCENT 6', 'FONT_DESCENT', 'twice'),
            ('\nENDPROPERTIES\n', '\nENDPROPERTIES\nSTARTPROPERTIES 1\nFONT_DESCENT 6\nENDPROPERTIES\n', 'FONT_DESCENT 6', 'twice'),
            ('STARTPROPERTIES 4', 'FONT_ASCENT 14\nSTARTPROPERTIES 4', 'FONT_ASCENT 14', 'no place'),
            ('CHARS 11\n', '', 'STARTCHAR frame, with nothing set outside the cell', 'STARTCHAR'),
            ('CHARS 11', 'CHARS 12', 'ENDFONT', '11 glyphs, not 12'),
            ('CHARS 11', 'CHARS 10', 'STARTCHAR corners of the cell', 'more than 10'),
            ('CHARS 11', 'CHARS', 'CHARS', '1 number'),
            ('CHARS 11', 'CHARS -1', 'CHARS -1', 'negative'),
            ('CHARS 11', 'CHARS 1_1', 'CHARS 1_1', '1 number'),
            ('CHARS 11', 'CHARS ' + '9' * 5000, 'CHARS ' + '9' * 5000, '1 number'),
            ('STARTCHAR period\n', '', 'ENCODING 46', 'STARTCHAR'),
            ('ENCODING 46\n', 'COMMENT a\n', 103, 'ENCODING'),
            ('ENCODING 46', 'ENCODING', 'ENCODING', '1 number or 2 numbers'),
            ('ENCODING 46', 'ENCODING 46 46', 'ENCODING 46 46', 'ENCODING'),
            ('ENCODING 46', 'ENCODING -2', 'ENCODING -2', 'ENCODING'),
            ('ENCODING 46', 'ENCODING -1 -2', 'ENCODING -1 -2', 'ENCODING'),
            ('ENCODING 46', 'ENCODING -1 4 6', 'ENCODING -1 4 6', '1 number or 2 numbers'),
            ('ENCODING 46', 'ENCODING 0x2E', 'ENCODING 0x2E', '1 number or 2 numbers'),
            ('ENCODING 46', 'ENCODING 46\nENCODING 47', 'ENCODING 47', 'no place'),
            ('BBX 2 2 3 0', 'BBX 2 2 3 0\nBBX 2 2 4 0', 'BBX 2 2 4 0', 'no place'),
            ('BBX 2 2 3 0', 'BBX 2 2 3', 'BBX 2 2 3', '4 numbers'),
            ('BBX 2 2 3 0', 'BBX -2 2 3 0', 'BBX -2 2 3 0', 'negative'),
            ('BBX 2 2 3 0', 'BBY 2 2 3 0', 'BBY 2 2 3 0', 'BBY'),
            ('BBX 2 2 3 0\nBITMAP\n', 'BBX 2 2 3 0\nC0 COMMENT\n', 'C0 COMMENT', 'C0'),
            ('C0\nC0\nENDCHAR', 'C0\nC0\n00\nENDCHAR', 106, 'more than 2 rows'),
            ('C0\nC0\nENDCHAR', 'C0\nENDCHAR', 105, '1 rows, not 2'),
            ('C0\nC0\nENDCHAR', 'C0\nG0\nENDCHAR', 'G0', 'hexadecimal'),
            ('C0\nC0\nENDCHAR', 'C0\n0x\nENDCHAR', '0x', 'hexadecimal'),
            ('C0\nC0\nENDCHAR', 'C0\n-C0\nENDCHAR', '-C0', 'hexadecimal'),
            ('C0\nC0\nENDCHAR', 'C0\nC_0\nENDCHAR', 'C_0', 'hexadecimal'),
            ('C0\nC0\nENDCHAR', 'C0\nC 0\nENDCHAR', 'C 0', 'hexadecimal'),
            ('C0\nC0\nENDCHAR', 'C0\nC\nENDCHAR', 'C', '1 digits', 'needs 2'),
            ('8010\nENDCHAR', '801\nENDCHAR', '801', '3 digits', 'needs 4'),
            ('C0\nC0\nENDCHAR\n', 'C0\nC0\n', 'STARTCHAR j', 'hexadecimal'),
            ('ENCODING 46', 'ENCODING 65', 98, 'period', '65', 'A'),
            ('ENCODING 106', 'ENCODING -1 65', 107, 'j', '65', 'A'),
            ('ENCODING 46', 'ENCODING 5', 135, 'heart', '5', 'period'),
            ('ENCODING 46', 'ENCODING 228', 98, 'period', '228', 'adieresis'),
            ('ENDCHAR\nENDFONT\n', 'ENDCHAR\n', 171, 'ENDFONT'),
            ('ENDCHAR\nENDFONT\n', 'ENDFONT\n', 'ENDFONT', 'hexadecimal')):
        text = edited((old, new))
        refused('%r for %r' % (new[:60], old), 'to-font', text, line_of(text, at), *parts)


def cut_bdfs():
    """A BDF that is cut after any line is refused at its end."""
    lines = SMALL.split('\n')
    for n in range(1, len(lines) - 1):
        refused('cut after line %d' % n, 'to-font', '\n'.join(lines[:n]) + '\n', 'line %d: the BDF ends' % (n + 1))


def pixels_outside():
    # period has two columns and two rows
    inside, outside = [], []
    for x, column in ((-2, -1), (-1, 0), (9, 10), (10, 11)):
        for y, row in ((10, -1), (9, 0), (-7, 16), (-8, 17)):
            (inside if 0 <= column <= 10 and 0 <= row <= 16 else outside).append(edited(('BBX 2 2 3 0', 'BBX 2 2 %d %d' % (x, y))))
    assert len(inside) == 4 and len(outside) == 12
    for text in inside:
        status, font, _ = run('to-font', text)
        expect('period in a corner', status == 0 and pixels_of_font(font) == pixels_of_bdf(text))
    for text in outside:
        assert not fits(pixels_of_bdf(text))
        refused('period across the edge', 'to-font', text, 'line 98: ', 'character 46 (period)', 'outside')
    for what, old, new in (
            ('left', '3FFC\n0000\nENDCHAR', '7FFC\n0000\nENDCHAR'), ('right', '3FFC\n0000\nENDCHAR', '3FFE\n0000\nENDCHAR'),
            ('top', 'BITMAP\n0000\n3FFC', 'BITMAP\n2000\n3FFC'), ('bottom', '3FFC\n0000\nENDCHAR', '3FFC\n0004\nENDCHAR')):
        refused('a pixel outside, ' + what, 'to-font', edited((old, new)), 'line 14: character 0 (frame, with nothing', 'outside')
    refused('wide box', 'to-font', edited(('BBX 2 2 3 0\nBITMAP\nC0\nC0', 'BBX 100 1 0 0\nBITMAP\n' + '0' * 24 + '10')), 'character 46 (period)')
    refused('above 127 made 126', 'to-font', edited(('ENCODING 228', 'ENCODING 126')), 'character 126 (adieresis)')


def commands():
    """The command itself: what it writes, says and ends with."""
    noise = script.noise(4608, 8)
    for way, data in (
            ('to-font', SMALL), ('to-font', SMALL.replace('\n', '\r\n')), ('to-font', b''), ('to-font', noise), ('to-font', SMALL + SMALL),
            ('to-font', edited(('CHARS 11', 'CHARS 12'))), ('to-font', edited(('BBX 2 2 3 0', 'BBX 2 2 30 0'))), ('from-font', noise),
            ('from-font', demo.sample_font()), ('from-font', b''), ('from-font', bytes(4607)), ('from-font', bytes(5120))):
        status, output, line = run_command([way], data)
        expect('%s as a command: status %d, said %r' % (way, status, line), (status, output, line) == run(way, data))
    for words in ((), ('to_font',), ('to-font', 'x')):
        status, output, line = run_command(words, b'')
        expect('command %s' % (words,), status == 1 and output == b'' and line.startswith('usage: ') and line.count('\n') == 1)


# ---- fonts of X11

def installed():
    """Names and BDF of the fonts that are installed."""
    for path in sorted(X11.rglob('*.bdf')):
        yield path.name, path.read_bytes()
    for path in sorted(X11.rglob('*.bdf.gz')):
        yield path.name, gzip.decompress(path.read_bytes())
    if shutil.which('pcf2bdf'):
        for name in ('9x18.pcf.gz', '6x13.pcf.gz', '10x20.pcf.gz'):
            for path in sorted(X11.rglob(name)):
                yield name, subprocess.run(['pcf2bdf'], input=gzip.decompress(path.read_bytes()), stdout=subprocess.PIPE, check=True).stdout


def fonts_of_x11():
    names = []
    for name, bdf in installed():
        names.append(name)
        pixels = pixels_of_bdf(bdf.decode('latin-1').replace('\r', ''))
        if fits(pixels):
            status, font, line = run('to-font', bdf)
            expect('%s: status %d, said %r' % (name, status, line), status == 0 and len(font) == 4608)
            if status == 0:
                expect(name + ': other pixels', pixels_of_font(font) == pixels and max(font[1::2]) < 16)
                taken(name + ' there and back', from_font(name, font), font)
                if name.startswith('9x18.'):
                    taken(name + ' placed by FONTBOUNDINGBOX', re.sub(rb'^FONT_(?=ASCENT|DESCENT)', b'NO_', bdf, flags=re.M), font)
        else:
            refused(name, 'to-font', bdf, 'outside')
    return ' '.join(names) or 'none that can be read here'


def compiler():
    """What from-font writes is taken by bdftopcf, and has the same pixels after it."""
    if not shutil.which('bdftopcf'):
        return 'not installed'
    for what, font in (('sample font', demo.sample_font()), ('noise', demo.packed(x * 15 % 4096 for x in script.noise(2304, 8)))):
        bdf = from_font(what, font)
        end = subprocess.run(['bdftopcf'], input=bdf, stdout=subprocess.PIPE, stderr=subprocess.PIPE)
        expect('%s: bdftopcf said %r' % (what, end.stderr), end.returncode == 0 and end.stdout and end.stderr == b'')
        if shutil.which('pcf2bdf') and end.returncode == 0:
            back = subprocess.run(['pcf2bdf'], input=end.stdout, stdout=subprocess.PIPE, check=True).stdout
            expect(what + ': bdftopcf: other pixels', pixels_of_bdf(back.decode('latin-1')) == pixels_of_font(font))
            taken(what + ' after bdftopcf', back, font)
    return 'run'


for part in (the_small_font, there_and_back, cells, cells_of_the_small_font, refused_fonts, refused_bdfs, cut_bdfs, pixels_outside, commands):
    part()
fonts, compiled = fonts_of_x11(), compiler()
print('bdf: %d tests, %d differences (fonts of X11: %s; bdftopcf: %s)' % (tests, differences, fonts, compiled))
sys.exit(differences > 0)
