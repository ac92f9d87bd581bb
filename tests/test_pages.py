#!/usr/bin/env python3
"""Makes stdin and stdout of crates/test_pages: its script, and the answers of tests/model.py.

A step goes into the input and to the model at once; crates/test_pages/src/main.rt says what each kind of step does.
"""
import copy
import itertools

import model
import script
from script import reads, writes

KINDS = {'start': 0, 'byte': 1, 'fetch': 2, 'stop': 3, 'frame': 4, 'draw': 5, 'ask': 6, 'draws': 7, 'ask_with': 8, 'reset': 9,
         'noise': 10, 'font': 11, 'cell': 12, 'say': 13, 'bitmap': 14, 'report': 15, 'list': 16}
steps, out = [], []


def mix(total, data):
    return script.mixed(total, data, 65599)


def noise(n, seed):
    return [x >> 24 for x in itertools.islice(script.numbers(seed, 1664525, 1013904223, 2 ** 32), n)]


def settings(registers):
    return registers[0] & 63, registers[1], registers[2], registers[3] & 0xF0


class Host:
    def __init__(self):
        self.device, self.ram, self.font = model.Device(), [0] * 1024, [0] * 4608
        self.clear()
        self.answer = (0, 0)

    def clear(self):
        self.sums = {'draw': 1, 'ask': 1, 'event': 1}

    def answered(self, kind, answer, data):
        self.answer = answer
        self.sums[kind] = mix(self.sums[kind], data)

    def play(self, kind, n=0, c=0):
        d = self.device
        if kind in script.EVENTS:
            answer = d.event(self.ram, kind, n)
            self.answered('event', answer, answer)
        elif kind == 'frame':
            self.answer = (d.start(n), 0)
        elif kind == 'draw':
            line = [c] * n
            refusal, cells = d.draw(self.ram, self.font, line)
            self.answered('draw', (refusal, cells), [refusal, cells >> 8, cells & 255] + line)
        elif kind == 'draws':
            for _ in range(n):
                self.play('draw', 768, 170)
        elif kind in ('ask', 'ask_with'):
            answer = d.ask(self.ram, n) if kind == 'ask' else d.ask([0] * n, 1020 + c)
            self.answered('ask', answer, answer)
        elif kind == 'reset':
            d.reset()
            self.answer = (0, 0)
        elif kind == 'noise':
            self.ram = noise(1024, n)
        elif kind == 'font':
            self.font = noise(4608, n)
        elif kind == 'cell':
            self.ram[n] = c
        elif kind == 'say':
            out.append('%X %03X\n' % self.answer)
        elif kind == 'bitmap':
            cells = d.cells_left(self.ram)
            digits = ''.join('%X' % sum((a + k in cells) << 3 - k for k in range(4)) for a in range(0, 1024, 4))
            out.extend(digits[i:i + 64] + '\n' for i in range(0, 256, 64))
        else:
            out.append(self.digests() + '\n')
            self.clear()

    def digests(self):
        sums = [self.sums['draw'], self.sums['ask'], self.sums['event'], mix(1, self.ram), mix(1, self.device.registers)]
        return ' '.join('%08X' % x for x in sums)

    def quiet(self, step):
        """Plays a step of a list, and says if it is no bus event or a quiet one: it changes no setting that a line is drawn by, and
        no cell that the frame's remaining lines read as things stand before it."""
        left = self.device.cells_left(self.ram) if step[0] == 'byte' else set()
        ram, before = list(self.ram), settings(self.device.registers)
        self.play(*step)
        changed = {a for a in range(1024) if self.ram[a] != ram[a]}
        return not changed & left and settings(self.device.registers) == before


host = Host()


def emit(kind, n=0, c=0):
    b = (n & 255, n >> 8) if kind != 'list' else (n, c)
    steps.append((KINDS[kind], *b, c if kind != 'list' else 0))


def do(kind, n=0, c=0):
    emit(kind, n, c)
    host.play(kind, n, c)


def write(address, *data):
    for step in writes(address, *data):
        do(*step)


def draws(n, fill=7):
    return [('draw', 768, fill)] * n


# What shows the state behind a list: the bus by what it takes and fetches, the registers, the rest of the frame, the next frame.
END = ([('fetch',), ('byte', 3), ('byte', 0xFE), ('byte', 0x55), ('start',), ('byte', 0xBB)] + [('fetch',)] * 4
       + reads(0x3FF0, 16) + [('draws', 70), ('ask', 5), ('frame', 20), ('draws', 20)])
lists = {'quiet': 0, 'control': 0}


def both(claim, calls):
    """A list in both orders. A quiet one has only quiet events, and its digests agree; a control has another event, and they differ."""
    emit('list', len(calls), len(END))
    for step in calls + END:
        emit(*step)
    host.clear()
    saved, runs = (copy.deepcopy(host.device), list(host.ram), host.answer), []
    assert all(k in script.EVENTS + ('draw', 'ask') for k, *_ in calls) and len(calls) < 256 and len(END) < 256
    first = [s for s in calls if s[0] in ('draw', 'ask')]
    events = [s for s in calls if s[0] not in ('draw', 'ask')]
    for order in (calls, first + events):
        host.device, host.ram = copy.deepcopy(saved[0]), list(saved[1])
        host.clear()
        if order is calls:
            assert host.device.left
            quiet = [host.quiet(step) for step in order]
        else:
            for step in order:
                host.play(*step)
        run = [host.digests()]
        host.clear()
        for step in END:
            host.play(*step)
        run.append(host.digests())
        runs.append(run)
        out.extend(x + '\n' for x in run)
    assert all(quiet) == (claim == 'quiet'), (claim, quiet)
    assert (runs[0] == runs[1]) == (claim == 'quiet'), (claim, runs)
    host.device, host.ram, host.answer = saved
    host.clear()
    lists[claim] += 1


# ---- pages

def code(number, look=0x70, user=False):
    return [look, number | (0x80 if user else 0)]


def characters(address, shown=1, zoom=0):
    return [address & 255, 0x80 | shown << 6 | zoom << 5 | address >> 8]


END_OF_LINE = [0x00, 0xFF]
ROW1 = code(65) + code(66, 0xF1) + code(5, 0x2A, True) + code(67, 0x9B) + END_OF_LINE
ROW2 = code(20, 0xC2, True) + code(100, 0x3B, True) + code(70) + code(5, 0x70, True) + END_OF_LINE
ROW3 = code(71) * 12
PAGE = [3, 0] + characters(0x200) + characters(0x221, zoom=1) + [0, 0] + characters(0x240, shown=0) + characters(0x240) + [200, 0]
PASSED_OVER = 0x0006    # its spacing of 0 lines
OTHER = [1, 0] + characters(0x280) + characters(0x2A0, zoom=1) + [99, 0]
CONTROL = 0xA0  # OSD 1, FBK 0, flashing mode 2, P 0


def page(seed, ld=20, dd=5, ch=10, control=CONTROL):
    do('reset')
    do('noise', seed)
    do('font', seed + 1)
    write(0x0000, *PAGE)
    write(0x0200, *ROW1)
    write(0x0220, *ROW2)
    write(0x0240, *ROW3)
    write(0x0080, *OTHER)
    write(0x3FF0, ld, dd, ch, control)


def frame(lines, drawn):
    do('frame', lines)
    do('draws', drawn)


# ---- lists that are quiet

def shuffled(events, every=3, questions=(2, 0x200, 0x206, 0x228, 1023)):
    """The events with draws and questions between them."""
    calls, q = [], 0
    for i, e in enumerate(events):
        calls.append(e)
        if i % every == every - 1:
            calls += draws(1, i)
        if i % every == 0:
            calls.append(('ask', questions[q % len(questions)]))
            q += 1
    return calls


def wild(seed, n):
    """n random draws, questions and writes; a write that would not be quiet is left out."""
    r, trial, calls = iter(noise(100000, seed)), copy.deepcopy(host), []
    while len(calls) < n:
        x = next(r)
        if x < 90:
            new = [('draw', (252, 768, 100)[x % 3], next(r))]
        elif x < 140:
            new = [('ask', next(r) << 2 | x & 3)]
        elif x < 235:
            new = writes((x & 3) << 8 | next(r), *[next(r) for _ in range(x % 3)])
        else:
            new = writes(0x3FF0 + x % 16, next(r))
        next_trial = copy.deepcopy(trial)
        if all([next_trial.quiet(s) for s in new]):
            trial, calls = next_trial, calls + new
    return calls


# spacings of 0 lines alone (request K9): the RAM as it is made. The first line reads them all, and the rest of the frame nothing: a
# whole page is written meanwhile, and the next frame shows it
NEW_PAGE = writes(0x0000, *PAGE) + writes(0x0200, *ROW1) + writes(0x0220, *ROW2) + writes(0x0240, *ROW3)
assert host.ram == [0] * 1024
do('font', 2)
write(0x3FF0, 20, 5, 10, CONTROL)
frame(60, 0)
do('bitmap')
both('control', NEW_PAGE + draws(5))    # before that line
do('draws', 1)
do('bitmap')
both('quiet', shuffled(NEW_PAGE))
both('quiet', NEW_PAGE + writes(0x0000, *[0] * len(PAGE)) + draws(4) + writes(0x0000, 0x00, 0xC2) + draws(54) + [('ask', 0)])    # and taken away
both('quiet', wild(5, 160))
both('control', writes(0x3FF3, CONTROL | 0x40) + draws(2))    # FBK in the rest
both('control', writes(0x3FF0, 21) + draws(2))    # LD
for step in NEW_PAGE:
    do(*step)
do('bitmap')
do('draws', 30)
do('report')
frame(60, 0)
do('bitmap')
do('draws', 40)
do('report')
write(0x0000, *[0] * len(PAGE))
for row in (0x0200, 0x0220, 0x0240):
    write(row, *[0] * len(ROW3))
assert not any(host.ram)
# one row of ten lines among them: shown again and again, as long as its descriptor stands there when the next one is due
write(0x0000, *characters(0x240))
frame(10, 4)
both('quiet', shuffled(writes(0x0000, 0, 0) + writes(0x0002, *characters(0x240)), 2))    # the frame ends with it: nothing is read ahead
frame(12, 4)
do('bitmap')
both('control', draws(2) + writes(0x0000, 0, 0) + draws(6))    # taken away: 512 behind it
both('control', draws(2) + writes(0x0002, *characters(0x240)) + draws(6))    # another
both('quiet', draws(7) + writes(0x0000, 0, 0) + [('ask', 0)] + draws(1))    # taken away once it is read again
# one that is passed over between rows
page(1)
frame(60, 30)
both('quiet', shuffled(writes(0x0000, 9, 9, 9, 0x80, 9, 9)))    # descriptors before it
both('control', writes(PASSED_OVER, 1) + draws(4))    # it gets a line
both('control', writes(PASSED_OVER + 1, 0x80) + draws(4))    # it becomes a row
both('control', writes(PASSED_OVER + 6, 0) + draws(30))    # a spacing behind it loses its lines
frame(60, 34)
both('quiet', shuffled(writes(PASSED_OVER, 1, 0x80)))    # it has been passed over

page(1)
frame(60, 4)
both('quiet', shuffled(writes(0x0080, *range(30)) + writes(0x0280, *range(40, 70))))    # the other page
both('quiet', shuffled(writes(0x3FF3, CONTROL | 2) + writes(0x3FF0, 0x80 | 20) + writes(0x3FF0, 0x40 | 20)
                       + writes(0x3FF3, CONTROL | 7) + writes(0x3FF3, CONTROL | 8 | 1)))    # P, VSP, HSP, an unused bit
both('quiet', shuffled(writes(0x3FF4, *range(0xF0, 0xFC)) + reads(0x3FF3, 14)))    # all registers behind, PWM
both('quiet', shuffled(writes(0x03FE, 1, 2, 3) + writes(0x2000, 9) + writes(0x3FEE, 8, 7) + writes(0x3FFF, 5, 6, 7)))    # empty, round
both('quiet', shuffled(reads(0x0200, 12) + reads(0x3FF0, 17), 2))    # fetches
both('quiet', shuffled([('start',), ('byte', 0xB8), ('byte', 0xBA), ('fetch',), ('stop',), ('byte', 0xBA), ('fetch',), ('start',),
                        ('byte', 0xBB), ('fetch',), ('byte', 1), ('start',), ('fetch',), ('byte', 0)], 2))    # not acknowledged; ends deaf
for cut in (1, 2, 3, 4):
    both('quiet', shuffled(writes(0x0100, 1)[:cut], 1))    # ends in mid-address
both('quiet', shuffled(reads(0x0100, 3)[:-1], 2))    # ends reading
refused = [('draw', 251, 3), ('draw', 0, 0), ('ask', 1024), ('ask', 65535), ('byte', 1), ('fetch',)]
both('quiet', refused + draws(1) + writes(0x0090, 4, 5) + refused + [('draw', 252, 9), ('draw', 1000, 8)] + refused)
both('quiet', shuffled(writes(0x0200, *ROW1) + writes(0x0002, *PAGE[2:]) + writes(0x3FF0, 20, 5, 10, CONTROL)))    # the same bytes
both('quiet', draws(10) + writes(0x0000, 1, 2, 3, 4) + writes(0x0200, 9, 9, 9, 9) + shuffled(writes(0x0206, 1, 2), 1))    # shown already
both('quiet', draws(55) + writes(0x0000, *range(20)) + writes(0x0200, *range(60)) + draws(3) + [('ask', 0)])    # only the last line left
both('quiet', draws(58) + writes(0x0000, *range(20)) + draws(2) + [('ask', 0), ('ask', 1024)])    # no line left
frame(60, 40)
both('quiet', shuffled(writes(0x0200, *range(32)), 4))    # the first rows
both('quiet', shuffled(writes(38 * 5, *range(38)) + writes(38 * 20, *range(38)), 6))    # user characters of rows that are over
both('quiet', [])
frame(60, 4)
both('quiet', shuffled(writes(38 * 5 + 2, 0x55, 0xAA) + writes(38 * 20 + 12, 1, 2)))    # slices 1 and 6, which CH 10 never shows
page(1, ch=63)
frame(60, 3)
both('quiet', shuffled(writes(38 * 5, 0x55, 0xAA), 6))    # the first two cells, of no slice, before the top line of a tall strip
frame(4, 3)
both('control', writes(38 * 5 + 3, host.ram[193] ^ 15) + draws(1))    # slice 1, which that line shows
page(1, control=0x20)
frame(60, 4)
both('quiet', shuffled(writes(0x0200, *range(32)) + writes(38 * 5, *range(38)), 6))    # OSD 0: codes and slices are not read
both('control', writes(0x3FF3, 0xA0) + draws(3))


def rows(first, n):
    """Makes the noise in n descriptors rows of characters, two in three of them shown."""
    for a in range(first, first + 2 * n, 2):
        do('cell', a + 1, host.ram[a + 1] | (0x80 if a % 3 == 0 else 0xC0))


for seed in range(5):
    do('reset')
    do('noise', 300 + seed)
    do('font', 400 + seed)
    rows(64 * seed, 16)
    write(0x3FF0, 20, 5, (18, 7, 1, 30, 63)[seed], 0xC0 | seed)
    frame(60, 3 * seed)
    both('quiet', wild(seed, 160))

# ---- controls: one event is not quiet

page(2)
frame(60, 4)
both('control', draws(1) + writes(0x0202, 0x70, 0x42) + draws(3))    # a code still to be shown
both('control', draws(1) + writes(0x3FF3, CONTROL | 0x40) + draws(3))    # FBK
both('control', draws(1) + writes(0x3FF2, 7) + draws(10))    # CH, before the next strip
both('control', draws(1) + writes(0x3FF3, CONTROL & 0x7F) + draws(3))    # OSD
both('control', draws(1) + writes(0x3FF0, 21) + draws(3))    # LD
both('control', draws(1) + writes(0x3FF1, 6) + draws(3))    # DD
both('control', draws(1) + writes(0x0004, 0, 0) + draws(20))    # a descriptor to come
both('control', draws(1) + writes(38 * 5 + 36, *[x ^ 255 for x in host.ram[226:228]]) + draws(9))    # a user slice to come
both('control', [('ask', 0x202)] + writes(0x0200, 0, 0xFF) + [('ask', 0x202)])    # an end of line, seen by a question alone

# ---- the cell question about every cell

do('bitmap')
do('reset')
for n, c in ((1024, 3), (1024, 4), (1023, 3), (1023, 4), (0, 255), (1025, 3)):    # refusals 8 and 1, 1 first
    do('ask_with', n, c)
    do('say')
for cell in (0, 1023, 1024, 65535):
    do('ask', cell)
    do('say')
for lines in (0, 2049, 65535):
    do('frame', lines)
    do('say')
do('draws', 1)
do('say')
do('bitmap')    # no frame

page(3)
frame(60, 0)
do('bitmap')
for n in (2, 1, 1, 9, 1, 6, 8, 20, 10, 1, 1, 1):    # rows end behind 13, 33 (zoom), 43 and 53 lines; 59: one is left
    do('draws', n)
    do('bitmap')
do('say')
for lines, drawn in ((13, 12), (33, 31), (33, 32)):    # the last line of a frame shows characters
    frame(lines, drawn)
    do('bitmap')
for ch in (1, 18, 63, 0, 37):
    page(4, ch=ch)
    frame(40, 5)
    do('bitmap')
    do('draws', 11)
    do('bitmap')
page(5, ch=18)
frame(60, 8)
do('bitmap')
write(0x3FF2, 5)    # CH changed in mid-strip
do('bitmap')
do('draws', 5)
do('bitmap')
write(0x3FF2, 60)
do('draws', 12)
do('bitmap')
page(6, control=0x20)    # OSD 0
frame(60, 4)
do('bitmap')
write(0x3FF3, 0x80)
do('bitmap')
for ld, dd in ((0, 4), (0, 0), (2, 0), (3, 4), (63, 4), (63, 255), (63, 248), (63, 247), (20, 255)):
    page(7, ld, dd)
    write(0x03F0, *ROW3)
    write(0x0002, *characters(0x3FC), *characters(0x3F1, zoom=1))    # rows over cell 1023
    frame(30, 4)
    do('bitmap')
for seed in range(6):
    do('reset')
    do('noise', 500 + seed)
    do('font', 9)
    if seed % 3:
        rows(64 * seed, 32)
    write(0x3FF0, (63, 30, 20)[seed % 3], 8, (18, 9, 63)[seed % 3], 0x80 | seed)
    frame((312, 100, 2048)[seed // 2], 0)
    do('bitmap')
    do('draws', 25)
    do('bitmap')
    do('report')

# ---- reset: in mid-frame, in mid-address, while deaf


def hidden_frame():
    for _ in range(20):
        do('frame', 60)
    do('draws', 14)


page(8)
frame(60, 14)
shown = host.sums['draw']
do('report')
hidden_frame()
assert host.sums['draw'] != shown
do('report')
for before in ([], [('start',), ('byte', 0xBA), ('byte', 0x01)], [('start',), ('byte', 0xBA), ('byte', 0x01), ('byte', 0x23)],
               [('start',), ('byte', 0x42)], [('start',), ('byte', 0xBB)]):
    hidden_frame()
    for step in before:
        do(*step)
    do('reset')
    for step in (('draw', 768, 1), ('ask', 0), ('ask', 2), ('byte', 0x23), ('fetch',), ('start',), ('byte', 0xBB), ('fetch',)):
        do(*step)
        do('say')
    do('bitmap')
    write(0x3FF0, 20, 5, 10, CONTROL)
    do('report')
    frame(60, 14)
    assert host.sums['draw'] == shown    # it flashes as frame 0
    do('report')

data = bytes(x for step in steps for x in step)
assert len(data) <= 65536    # what the program reads
script.store({'crates/test_pages/stdin': data, 'crates/test_pages/stdout': ''.join(out)})
print('%d steps, %d quiet lists, %d controls' % (len(steps), lists['quiet'], lists['control']))
