#!/usr/bin/env python3
"""Runs the depot's three programs over good and bad fonts and files, and compares all that they write with tests/depot.py.

Run as `python3 -B tests/depot_runs.py [FOLDER]`; FOLDER has the programs, and is target/bin of the repository unless it is given. Prints a
line for each difference, and one with the counts.
"""
import concurrent.futures
import pathlib
import subprocess
import sys
import tempfile
import time

import demo
import depot
import font_file
import script

PROGRAMS = {'font_pack': depot.font_pack, 'font_check': depot.font_check, 'font_unpack': depot.font_unpack}
READERS = ('font_check', 'font_unpack')
FOLDER = pathlib.Path(sys.argv[1] if len(sys.argv) > 1 else pathlib.Path(__file__).parent / '../target/bin').resolve()
LONGEST = 20                            # seconds that a run may take

runs = []                               # program, what it is given, in words and in bytes, and how
differences = 0


# ---- a run: what was written, and the status. What goes to standard error counts as written too

def through_a_pipe(program, data):
    end = subprocess.run([FOLDER / program], input=data, stdout=subprocess.PIPE, stderr=subprocess.STDOUT, timeout=LONGEST)
    return end.stdout, end.returncode


def from_a_file(program, data):
    with tempfile.TemporaryFile() as source:
        source.write(data)
        source.seek(0)
        end = subprocess.run([FOLDER / program], stdin=source, stdout=subprocess.PIPE, stderr=subprocess.STDOUT, timeout=LONGEST)
    return end.stdout, end.returncode


def in_pieces(program, data):
    """The input as a slow card gives it: a byte, then 1,000, then the rest."""
    started = subprocess.Popen([FOLDER / program], bufsize=0, stdin=subprocess.PIPE, stdout=subprocess.PIPE, stderr=subprocess.STDOUT)
    try:
        for piece in (data[:1], data[1:1001]):
            started.stdin.write(piece)
            time.sleep(0.02)
    except BrokenPipeError:             # it ended before it had all
        pass
    try:
        written, _ = started.communicate(data[1001:], timeout=LONGEST)
    finally:
        started.kill()
    return written, started.returncode


def run(program, what, data, way=through_a_pipe):
    runs.append((program, what, data, way))


def run_all():
    """Four at a time, since a run is mostly waiting."""
    with concurrent.futures.ThreadPoolExecutor(4) as pool:
        ends = pool.map(lambda one: one[3](one[0], one[2]), runs)
        try:
            for (program, what, data, way), (written, status) in zip(runs, ends):
                compare('%s: %s, %s' % (program, what, way.__name__.replace('_', ' ')), written, PROGRAMS[program](data), status)
        except subprocess.TimeoutExpired as late:
            pool.shutdown(cancel_futures=True)
            sys.exit('%s did not end' % late.cmd[0])


def compare(what, written, expected, status):
    global differences
    if written != expected:
        differences += 1
        at = next((i for i, (x, y) in enumerate(zip(written, expected)) if x != y), min(len(written), len(expected)))
        print('%s: wrote %s and not %s, from byte %d on' % (what, shown(written), shown(expected), at))
    elif status != 0:
        differences += 1
        print('%s: ended with status %d' % (what, status))


def shown(data):
    """What was written, short enough for a line."""
    return repr(data) if len(data) <= 60 else '%d bytes, %r ...' % (len(data), data[:20])


# ---- files that are changed

def put(file, at, *data):
    return file[:at] + bytes(data) + file[at + len(data):]


def exchanged(file, i, j):
    """The bytes at i and j exchanged; they must not be equal."""
    assert file[i] != file[j]
    return put(put(file, i, file[j]), j, file[i])


def blocks_of(file):
    return [file[512 * place:512 * place + 512] for place in range(10)]


def right_again(file, place):
    """The checks of one block made right again."""
    blocks = blocks_of(file)
    blocks[place] = blocks[place][:508] + font_file.checks(blocks[place][:508])
    return b''.join(blocks)


def bad(what, file, number, place):
    """Both readers refuse the file with this number and place: so says the request, and so must the model."""
    assert font_file.read(file) == (number, place), what
    for program in READERS:
        run(program, what, file)


def good(what, file):
    """Both readers take the file, and what it holds is packed into the same file."""
    font = font_file.read(file)
    assert font_file.written(font) == file, what
    for program in READERS:
        run(program, what, file)
    run('font_pack', what, font)


# ---- the runs

SAMPLE = bytes(demo.sample_font())
NOISE = bytes(script.noise(4608, 8))
NOISE_FILE = font_file.written(NOISE)


def fonts():
    for what, font in (
            ('sample font', SAMPLE), ('all 00', bytes(4608)), ('all FF', b'\xFF' * 4608), ('noise', NOISE),
            ('other noise', bytes(script.noise(4608, 9))), ('bytes that count up', bytes(i % 256 for i in range(4608)))):
        good(what, font_file.written(font))
    for number in range(10):
        for at in (504 * number, 504 * number + font_file.used_length(number) - 1):
            good('only byte %d of the font' % at, font_file.written(put(bytes(4608), at, 0xFF)))


def other_ways_of_input():
    """A program that stops at a short read, or looks for more after the end, is found here."""
    for way in (from_a_file, in_pieces):
        for program in PROGRAMS:
            for what, data in (
                    ('a font', NOISE), ('a font and a byte', NOISE + b'\0'), ('a file', NOISE_FILE), ('a file and a byte', NOISE_FILE + b'\0')):
                run(program, what, data, way)


def lengths():
    for program, data in (('font_pack', NOISE), ('font_check', NOISE_FILE), ('font_unpack', NOISE_FILE)):
        n = len(data)
        many = data * 25
        for length in (0, 1, 511, 512, 513, 4095, 4096, 4097, n - 512, n - 1, n + 1, n + 512, 8192, 2 * n, 20000, 65536, 65536 + n, 100000):
            run(program, '%d bytes' % length, many[:length])
        run(program, 'all 00 and one byte short', bytes(n - 1))
        run(program, 'all 00 and one byte long', bytes(n + 1))
        run(program, 'one byte long at the front', b'\0' + data)
        run(program, 'a refusal as input', b'refused 15: not %d bytes\n' % n)
    run('font_pack', 'a file', NOISE_FILE)
    run('font_check', 'a font', NOISE)
    run('font_unpack', 'a font', NOISE)


def one_flipped_bit():
    places = {
        'number, low byte': 0, 'number, high byte': 1, 'used length, low byte': 2, 'used length, high byte': 3,
        'first byte of payload': 4, 'middle of payload': 40, 'last byte used': None, 'last byte of payload': 507,
        'sum, low byte': 508, 'sum, high byte': 509, 'second check, low byte': 510, 'second check, high byte': 511}
    bit = 0
    for place in range(10):
        for what, at in places.items():
            if at is None:
                at = 3 + font_file.used_length(place)
            bad('bit %d flipped: block %d, %s' % (bit, place, what), depot.flipped(NOISE_FILE, 512 * place + at, bit), 16, place)
            bit = (bit + 3) % 8
    for at in (76, 200, 506):
        bad('bit flipped: block 9, padding at %d' % at, depot.flipped(NOISE_FILE, 512 * 9 + at, 7), 16, 9)


def unequal_neighbours(file, place, at):
    """The next two neighbouring bytes of a block from this position on that are not equal."""
    start = 512 * place
    return next((start + i, start + i + 1) for i in range(at, 507) if file[start + i] != file[start + i + 1])


def exchanged_bytes():
    for place in range(10):
        for at in sorted({0, 2, 4, 40, 74, 2 + font_file.used_length(place)}):
            i, j = unequal_neighbours(NOISE_FILE, place, at)
            bad('block %d: bytes %d and %d exchanged' % (place, i - 512 * place, j - 512 * place), exchanged(NOISE_FILE, i, j), 16, place)
        for at in (507, 508, 509, 510):
            i = 512 * place + at
            if NOISE_FILE[i] != NOISE_FILE[i + 1]:
                bad('block %d: bytes %d and %d exchanged' % (place, at, at + 1), exchanged(NOISE_FILE, i, i + 1), 16, place)
        if place < 9:
            last, first = 512 * place + 507, 512 * place + 516
            bad('last byte of block %d and first of the next exchanged' % place, exchanged(NOISE_FILE, last, first), 16, place)
    bad('block 9: the last byte used and the first unused exchanged', exchanged(NOISE_FILE, 512 * 9 + 75, 512 * 9 + 76), 16, 9)


def only_one_check_wrong():
    """Bytes are changed so that one of the two checks still holds; then so that both do, and the file is a good one of another font."""
    plain = font_file.written(b'\x50' * 4608)
    for place in range(10):
        at = 512 * place + 30
        bad('block %d: only the second check wrong' % place, put(plain, at, 0x51, 0x50, 0x4F), 16, place)
        # positions 31 and 62 counted from 1: twice the one is the other
        bad('block %d: only the sum wrong' % place, put(put(plain, at, 0x4E), at + 31, 0x51), 16, place)
        good('block %d: both checks hold' % place, put(plain, at, 0x51, 0x4E, 0x51))
        start = 512 * place
        sums = plain[start + 508:start + 512]
        bad('block %d: the two checks exchanged' % place, put(plain, start + 508, *sums[2:], *sums[:2]), 16, place)
        bad('block %d: checks 0' % place, put(NOISE_FILE, start + 508, 0, 0, 0, 0), 16, place)
        second = sum(i * x for i, x in enumerate(NOISE_FILE[start:start + 508]))
        bad('block %d: positions counted from 0' % place, put(NOISE_FILE, start + 510, *font_file.two_bytes(second)), 16, place)


def blocks_moved():
    blocks = blocks_of(NOISE_FILE)
    for i, j in [(i, i + 1) for i in range(9)] + [(0, 9), (2, 7), (4, 8)]:
        moved = list(blocks)
        moved[i], moved[j] = blocks[j], blocks[i]
        bad('blocks %d and %d exchanged' % (i, j), b''.join(moved), 17, i)
    for place in range(10):
        other = (place + 1) % 10
        doubled = list(blocks)
        doubled[place] = blocks[other]
        bad('block %d at place %d too' % (other, place), b''.join(doubled), 17, place)
    bad('all blocks turned round', b''.join(reversed(blocks)), 17, 0)
    bad('one block later', b''.join(blocks[-1:] + blocks[:-1]), 17, 0)


def other_format():
    """Number, used length or padding is another, and the checks are right."""
    for place in range(10):
        start, length = 512 * place, font_file.used_length(place)
        numbers = {place + 1, abs(place - 1), place + 10, place + 16, place + 128, place + 256, place + 32768, 256 * place + 1, 65535}
        lengths = {576 - length, length - 1, length + 1, length % 256, length + 256, length + 32768, length ^ 128, 0, 65535}
        for what, at, values in (('number', 0, numbers - {place}), ('used length', 2, lengths - {length})):
            for x in sorted(values):
                changed = put(NOISE_FILE, start + at, x % 256, x // 256)
                bad('block %d: %s %d' % (place, what, x), right_again(changed, place), 17, place)
    for at in (76, 77, 200, 506, 507):
        for x in (1, 128, 255):
            bad('block 9: padding %d at %d' % (x, at), right_again(put(NOISE_FILE, 512 * 9 + at, x), 9), 17, 9)
    bad('block 9: all padding FF', right_again(put(NOISE_FILE, 512 * 9 + 76, *[255] * 432), 9), 17, 9)
    bad('block 9: padding that sums to 0', right_again(put(NOISE_FILE, 512 * 9 + 76, 128, 128), 9), 17, 9)


def two_bad_blocks():
    """The first is named; of one block, 16."""
    def wrong_checks(file, place):
        return depot.flipped(file, 512 * place + 60, 4)

    def wrong_number(file, place):
        return right_again(put(file, 512 * place, place ^ 64), place)

    for first, second in [(i, i + 1) for i in range(9)] + [(0, 9), (1, 8), (3, 6)]:
        places = 'blocks %d and %d: ' % (first, second)
        bad(places + '16 and 16', wrong_checks(wrong_checks(NOISE_FILE, first), second), 16, first)
        bad(places + '16 and 17', wrong_number(wrong_checks(NOISE_FILE, first), second), 16, first)
        bad(places + '17 and 16', wrong_checks(wrong_number(NOISE_FILE, first), second), 17, first)
        bad(places + '17 and 17', wrong_number(wrong_number(NOISE_FILE, first), second), 17, first)
    for place in range(10):
        bad('block %d: 16 and 17' % place, wrong_checks(wrong_number(NOISE_FILE, place), place), 16, place)
        bad('block %d: 17 in number and used length' % place,
            right_again(put(NOISE_FILE, 512 * place, 77, 0, 77, 0), place), 17, place)
    bad('block 9: padding and checks', put(NOISE_FILE, 512 * 9 + 100, 1), 16, 9)
    for what, file, number in (('all 00', bytes(5120), 17), ('all FF', b'\xFF' * 5120, 16), ('noise', bytes(script.noise(5120, 3)), 16)):
        bad('no file at all: ' + what, file, number, 0)
    every = NOISE_FILE
    for place in range(10):
        every = wrong_checks(every, place)
    bad('every block', every, 16, 0)


for name in PROGRAMS:
    if not (FOLDER / name).is_file():
        sys.exit('depot: no program %s' % (FOLDER / name))
for part in (fonts, other_ways_of_input, lengths, one_flipped_bit, exchanged_bytes, only_one_check_wrong, blocks_moved, other_format,
             two_bad_blocks):
    part()
run_all()
print('depot: %d runs, %d differences' % (len(runs), differences))
sys.exit(differences > 0)
