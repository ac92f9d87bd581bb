#!/usr/bin/env python3
"""Makes stdin and stdout of crates/test_bus: the script of its traffic, and the answers of tests/model.py.

Where the numbers of request K6 are shown, the answers are written out by hand too, and the model is held to them.
"""
import model
import script

LENT = {1024: 0, 0: 1, 1023: 2, 1025: 3}
traffic, answers = [], {}       # answers: those by hand, by their event's place in the traffic


def start():
    traffic.append(('start', 0))


def stop():
    traffic.append(('stop', 0))


def send(*data):
    traffic.extend(('byte', x) for x in data)


def fetch():
    traffic.append(('fetch', 0))


def lend(n):
    traffic.append(('lend', n))


def write(address, *data):
    traffic.extend(script.writes(address, *data))


def read(address, n):
    traffic.extend(script.reads(address, n))


def by_hand(words):
    """Events with their answers, by the rules' words: start, stop, fetch or a host byte, with `=xx` for the byte that a fetch reads and
    `/n` for refusal n, whose byte is 255 (0 with 1)."""
    for word in words.split():
        event, _, refusal = word.partition('/')
        event, _, fetched = event.partition('=')
        refusal = int(refusal or 0)
        answers[len(traffic)] = (refusal, 255 if refusal > 1 else int(fetched or '0', 16))
        traffic.append((event, 0) if event in script.EVENTS else ('byte', int(event, 16)))


# every wrong state, from power-up on
by_hand('BA/5 fetch/5 stop BB/5')                               # a byte while idle, a fetch while idle
by_hand('start fetch/14 BA fetch/14 00 fetch/14 10 fetch/14')   # a fetch while an address is due: slave, high, low; while data is due
by_hand('55 start BB 12/13 fetch=00 stop fetch/5')              # a byte while reading

# wrong slave addresses: deaf until start or stop
for x in (0x00, 0xB8, 0xB9, 0xBC, 0xFF):
    start()
    send(x, 0xBA, 0xBB, 0x00)
    fetch()
start()
send(0x42)
stop()
send(0xBA)
fetch()

# each state with every event that it does not acknowledge. Nothing changes, but that an unknown slave address makes it deaf: what
# comes behind the event is answered as the state was, and the next fetch reads where the counter stood
by_hand('start BA 02 F8 01 02 03 04 05 06 07 08 start BA 02 F8 stop')
by_hand('BA/5 BB/5 3A/5 fetch/5 BA/5 start BB fetch=01')                            # idle
by_hand('start BE/12 BA/12 BB/12 BE/12 fetch/12 BA/12 start BB fetch=02')           # deaf, until start
by_hand('start fetch/14 fetch/14 BB fetch=03')                                      # slave address due
by_hand('start fetch/14 3B/12 fetch/12 BA/12 stop fetch/5 BA/5 start BB fetch=04')  # and an unknown one: deaf, until stop
by_hand('start BA fetch/14 start BB fetch=05')                                      # high byte due
by_hand('start BA 3F fetch/14 start BB fetch=06')                                   # low byte due
by_hand('start BA fetch/14 02 fetch/14 F9 fetch/14 92 fetch/14 93 fetch/14')        # both, and writing: the transfer goes on
by_hand('start BB 77/13 fetch=04 BA/13 BB/13 fetch=05 77/13 fetch=06 stop')         # reading
by_hand('start BA 02 F8 start BB fetch=01 fetch=92 fetch=93 fetch=04 fetch=05 fetch=06 fetch=07 fetch=08 stop')
# a start lost before BB, which is stored; the slave addresses as address bytes; start and stop where an address is due
by_hand('start BA 02 10 BB fetch/14 BA fetch/14 stop start BA 02 10 start BB fetch=BB fetch=BA stop')
by_hand('start start BA BB BA fetch/14 start BA BA BB fetch/14 stop start stop start BA stop fetch/5')
# nor is a host byte stored with the counter at a register: idle, unknown slave address, deaf, reading
by_hand('start BA 3F FC 01 02 03 start BA 3F FC stop')
by_hand('BA/5 start 3A/12 BA/12 start BB fetch=01 77/13 fetch=02 BA/13 fetch=03 stop')
by_hand('start BA 3F FC start BB fetch=01 fetch=02 fetch=03 stop')

# a host's page download and read-back: document 01's example page and its registers
write(0x0000, 0x04, 0xC0, 0x00, 0x00, 0x71, 0x41, 0x00, 0xFF)
write(0x3FF0, 0x04, 0x04, 0x12, 0x80)
read(0x0000, 8)
read(0x3FF0, 16)

# addresses cut short leave the counter: by a start, by a stop, after the high byte and before it
write(0x0123, 0xA5)
start()
send(0xBA, 0x02)
start()
send(0xBB)
fetch()
stop()
start()
send(0xBA, 0x03)
stop()
start()
send(0xBB)
fetch()
stop()
start()
send(0xBA)
start()
send(0xBB)
fetch()
stop()
read(0x0123, 2)

# the high byte counts modulo 64
start()
send(0xBA, 0xC1, 0x23)
start()
send(0xBB)
fetch()
stop()

# over the end of RAM, over 3FFF
write(0x03FE, 1, 2, 3, 4)
read(0x03FE, 4)
write(0x3FFE, 0x11, 0x22, 0x33, 0x44)
read(0x3FFE, 4)

# empty addresses: stores are acknowledged and dropped, fetches answer 0
write(0x0400, 0x99)
write(0x2000, 0x99)
write(0x3FEF, 0x99, 0x77)
read(0x0400, 1)
read(0x2000, 1)
read(0x3FEF, 2)

# unused register bits read 0
write(0x3FF0, *[0xFF] * 16)
read(0x3FF0, 16)

# RAM of another length: every event is refused 1, and nothing changes
for n in (0, 1023, 1025):
    start()
    send(0xBA, 0x01)
    lend(n)
    start()
    send(0xBB)
    fetch()
    stop()
    lend(1024)
    send(0x23)          # still the low byte
    send(0x5A)
    stop()
    read(0x0123, 1)

# and 1 stands before the other refusals; where a row has no way to its state, the row before leads to it
for way, refused, onward in (
        ('', 'BA/1 fetch/1', 'BA/5'),                           # idle
        ('start AB/12', 'BA/1 fetch/1', 'BA/12'),               # deaf
        ('start', '42/1 fetch/1', 'BA'),                        # slave address due
        ('', 'fetch/1', '01'),                                  # high byte due
        ('', 'fetch/1', '23'),                                  # low byte due
        ('', 'fetch/1', '5D'),                                  # writing
        ('start BA 01 23 start BB', 'BA/1', 'fetch=5D stop')):  # reading
    by_hand(way)
    lend(1023)
    by_hand(refused)
    lend(1024)
    by_hand(onward)

device, ram = model.Device(), [0] * 1024
lent, data, lines = 1024, [], []
for n, (kind, x) in enumerate(traffic):
    if kind == 'lend':
        lent = x
        data += [4, LENT[x]]
        continue
    data += [script.EVENTS.index(kind), x]
    answer = device.event(ram if lent == 1024 else [0] * lent, kind, x)
    name = 'byte %02X' % x if kind == 'byte' else kind
    assert answers.get(n, answer) == answer, (n, name, answer, answers[n])
    lines.append('%s: %d %02X\n' % (name, *answer))

assert len(data) <= 8192     # the program's buffer for the script
script.store({'crates/test_bus/stdin': data, 'crates/test_bus/stdout': ''.join(lines)})
