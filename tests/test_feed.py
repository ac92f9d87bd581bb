#!/usr/bin/env python3
"""Makes stdin and stdout of crates/test_feed: its steps, and the answers of tests/model.py.

The first byte of a step says which it is:

    0              a fresh device, RAM all zero, a feed made anew; 1,024 bytes of RAM are lent from here on
    1              a feed made anew
    2 c            the RAM lent from here on: 1,024 bytes (c is 0), none (1), 1,023 (2) or 1,025 (3)
    3 r n BYTES    a chunk of n bytes; its output has r bytes, each EE before the call
    4 lo hi BYTES  a capture of lo + 256 * hi bytes, on a fresh device: whole, and then cut at every place with an empty chunk between.
                   All is fresh again behind it
"""
import demo
import model
import script

LENT = {1024: 0, 0: 1, 1023: 2, 1025: 3}
SHOWN_CUTS = 40
data, lines = [], []


class Host:
    def __init__(self):
        self.device, self.feed, self.ram, self.lent = model.Device(), model.Feed(), [0] * 1025, 1024

    def needs(self, chunk):
        return (len(self.feed.half) + len(chunk)) // 2 * 2

    def take(self, chunk, room):
        """Refusal and value, and the output."""
        out, ram = [0xEE] * room, self.ram[:self.lent]
        refusal, value = self.feed.chunk(self.device, ram, chunk, out)
        self.ram[:self.lent] = ram
        return refusal, value, out

    def state(self):
        half = self.feed.half
        return '2 00' if self.feed.shut else '1 %02X' % half[0] if half else '0 00'


def digest(values):
    return '%08X' % script.mixed(0, values, 65599)


host = Host()


def fresh():
    global host
    host = Host()
    data.append(0)


def anew():
    host.feed = model.Feed()
    data.append(1)


def lend(n):
    host.lent = n
    data.extend((2, LENT[n]))


def chunk(*some, room=None, more=0):
    """A chunk, with just the room that it needs and `more` bytes, which may be negative."""
    room = host.needs(some) + more if room is None else room
    refusal, value, out = host.take(some, room)
    data.extend((3, room, len(some), *some))
    lines.append('chunk %d room %d: refusal %d value %d feed %s out %s\n' % (
        len(some), room, refusal, value, host.state(), bytes(out).hex().upper()))


def left(host, out):
    return host.state(), digest(out), digest(host.ram[:1024])


def capture(some):
    global host
    n, same = len(some), 0
    data.extend((4, n & 255, n >> 8, *some))
    host = Host()
    refusal, value, out = host.take(some, n - n % 2)
    whole = left(host, out[:value])
    lines.append('capture %d: refusal %d value %d feed %s out %s ram %s\n' % (n, refusal, value, *whole))
    for c in range(n + 1):
        host, answers, joined = Host(), [], []
        for part, room in (some[:c], c - c % 2), ([], 0), (some[c:], n - c + c % 2 - n % 2):
            refusal, value, out = host.take(part, room)
            answers.append('%d %d' % (refusal, value))
            joined += out[:value]
        if n <= SHOWN_CUTS:
            lines.append('cut %d: %s\n' % (c, ', '.join(answers)))
        same += left(host, joined) == whole
    assert same == n + 1
    lines.append('cuts %d: %d as the whole\n' % (n + 1, same))
    host = Host()


def logged(events, spare=0):
    """Two bytes an event; a logger has some byte where an event has none."""
    return [x for kind, byte in events for x in (script.EVENTS.index(kind), byte if kind == 'byte' else spare)]


def wrote(address, *some):
    return logged(script.writes(address, *some), spare=0x5A)


def fetched(address, n):
    return logged(script.reads(address, n), spare=0xA5)


START, STOP, FETCH = [0, 0], [3, 0], [2, 0]

# whole transfers, and what they stored: in RAM, over its end, in registers, over 3FFF
fresh()
chunk(*wrote(0x0123, 0x55, 0x66))
chunk(*fetched(0x0123, 3))
chunk(*wrote(0x03FF, 0x77, 0x88), *fetched(0x03FF, 2))
chunk(*wrote(0x3FF0, *[0xFF] * 17))
chunk(*fetched(0x3FF0, 17))
chunk(*wrote(0x0010, *range(112)))
chunk(*fetched(0x0010, 112))

# nothing, half an event, its other half, one and a half
fresh()
chunk()
chunk(0)
chunk()
chunk(9)
chunk(1, 0xBA, 1)
chunk(0x01, 1, 0x23, 1)
chunk(0x42)
for x in wrote(0x0124, 0x43) + fetched(0x0123, 2):
    chunk(x)

# every event that is not acknowledged: 0 and 255, and the feed goes on; the bus tells them apart, the output does not
fresh()
chunk(1, 0xBA, *FETCH, *STOP, *FETCH)                               # 5
chunk(*START, *FETCH, 1, 0xBA, *FETCH, 1, 0x02, *FETCH, 1, 0x10, *FETCH, 1, 0x99, *START, 1, 0xBB, 1, 0x12, *FETCH)     # 14, then 13
chunk(*START, 1, 0xB8, 1, 0xBA, *FETCH, *START, 1, 0xBB, *FETCH)    # 12
chunk(*fetched(0x0210, 1))

# room: one byte short, two short, none; the same chunk again, as nothing was taken; more than it needs
fresh()
for more in (-1, -2, -14, 0):
    chunk(*wrote(0x0040, 1, 2), more=more)
for more in (1, 2, 40):
    chunk(*fetched(0x0040, 2), more=more)
chunk(room=5)
# a half costs no room before it is finished, and then two bytes
chunk(0, room=0)
chunk(0, room=0)
chunk(0, room=1)
chunk(0, room=2)
chunk(1, 0xBA, 1, room=1)
chunk(1, 0xBA, 1, room=2)
chunk(0x00, 1, room=1)
chunk(0x00, 1, room=3)
chunk(0x41, 3, 0, 3, room=3)
chunk(0x41, 3, 0, 3, room=4)
chunk(0, *[0, 0] * 127, room=255)               # the 256th byte of output has no room
chunk(0, *[0, 0] * 126, 0, room=255)
chunk(0, *fetched(0x0041, 1))

# a bad kind first, in the middle and last; what follows it is dropped, what stands before it was done
for kind in (4, 5, 128, 255):
    fresh()
    chunk(kind, 0, *wrote(0x0050, 1))
    anew()
    chunk(*wrote(0x0050, 2), kind, 0, *wrote(0x0050, 3), more=3)
    anew()
    chunk(*wrote(0x0051, 4), kind, 0)
    anew()
    chunk(*fetched(0x0050, 2))

# across a cut: it is held as any other half, and noticed when its event is complete
fresh()
chunk(*START, 1, 0xBA, 7)
chunk()
chunk(0, room=1)
chunk(0)
anew()
chunk(7)
chunk(1, 0x01, 1, 0x60)
anew()
chunk(1, 0x01, 1, 0x60, 1, 0x61, 7)             # the device goes on where it stood
chunk(0, 1, 0x62)
anew()
chunk(*fetched(0x0160, 2))
# room is tested before kinds are looked at
chunk(4, 0, more=-1)
chunk(*START, 4, 0, *START, more=-1)
chunk(4, 0, 0)

# shut: whatever comes, with any room, until the feed is made anew
chunk()
chunk(room=9)
chunk(3)
chunk(0)
chunk(*START)
chunk(*START, room=0)
chunk(*START, room=1)
chunk(*wrote(0x0070, 7), more=2)
lend(1023)
chunk(*START)
lend(1024)
anew()
chunk(*fetched(0x0070, 1))
# made anew with a half held: the half is gone; so is that of a feed made anew twice
chunk(1)
anew()
chunk(0)
anew()
anew()
chunk(*wrote(0x0070, 8), 1)
anew()
chunk(*fetched(0x0070, 1))

# RAM of another length comes first, and changes nothing: with a feed open, half held and shut, short of room, empty, with a bad kind
for n in (0, 1023, 1025):
    fresh()
    chunk(*wrote(0x0080, 1), *START, 1, 0xBA, 1)
    lend(n)
    chunk(0x00, 1, 0x80)
    chunk(0x00, 1, 0x80, room=1)
    chunk(room=0)
    chunk(4, 4, 4)
    lend(1024)
    chunk(0x00, 1, 0x80, 1, 2)
    lend(n)
    chunk(*START)
    chunk(4, 0)
    chunk(4, 0, room=1)
    lend(1024)
    chunk(4, 0)
    lend(n)
    chunk()
    chunk(*START)
    anew()
    chunk()
    lend(1024)
    chunk(*fetched(0x0080, 1))

# captures, whole and in every cut: with a read-back; with events that are not acknowledged; bad kinds; odd ones; hardly any bytes
small = wrote(0x0123, 0x55, 0x66) + fetched(0x0123, 2)
capture(small)
capture(logged([('byte', 0xBA), ('start', 0), ('byte', 0xBC), ('byte', 0xBA), ('fetch', 0)] + script.reads(0x3FF0, 3)))
capture(wrote(0x0123, 0x55) + [4, 0] + wrote(0x0123, 0x66))
capture(wrote(0x0123, 0x55) + [255, 1])
capture([4, 0, *wrote(0x0123, 0x55)])
capture(small[:-1])
capture(wrote(0x0123, 0x55) + [4])
capture(wrote(0x0123, 0x55) + [4, 0, 4])
capture([])
capture([0])
capture([4])
capture([4, 4])
chunk(1)
capture(START)
chunk(1, 0xBA)          # idle again, and no half is held
# longer ones: transfers with any event between them, without a bad kind and with one; and the demo's page
transfers = []
for x in script.noise(9, 5):
    transfers += wrote(4 * x, *script.noise(x % 5, x)) + [x % 4, x] + fetched(4 * x, x % 4)
capture(transfers)
capture(transfers[:200] + [9] + transfers[200:])
capture(list(demo.traffic))
chunk(*fetched(0x0100, 4))

assert len(data) <= 8192
script.store({'crates/test_feed/stdin': data, 'crates/test_feed/stdout': ''.join(lines)})
