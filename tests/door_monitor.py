#!/usr/bin/env python3
"""Makes examples/door_monitor.stdout, what the C example must print: its calls, answered by tests/model.py and tests/font_file.py."""
import font_file
import model
import script

LINES = 20
O = (0x0F0, 0x198, 0x30C, 0x30C, 0x30C, 0x30C, 0x30C, 0x30C, 0x198, 0x0F0)
K = (0x30C, 0x318, 0x330, 0x360, 0x3C0, 0x3C0, 0x360, 0x330, 0x318, 0x30C)
LOOK_FOR = {5: 'a start that was lost', 12: 'a slave address other than BA and BB', 13: 'BB where BA was meant, or a start that was lost',
            14: 'BA where BB was meant, or a start that was lost before BB'}
WRONG = {0: 'nothing', 15: 'its length', 16: 'a byte', 17: 'a block that is no block of this place'}
device, ram, font, output = model.Device(), [0] * 1024, [0] * 4608, []


def host_writes(address, data):
    answers = [device.event(ram, kind, x) for kind, x in script.writes(address, *data)]
    return sum(refusal != 0 for refusal, _ in answers)


def letter(number, slices):
    for s, bits in enumerate(slices):
        font[36 * number + 2 * (s + 4)] = bits & 255
        font[36 * number + 2 * (s + 4) + 1] = bits >> 8


def show(what, refusal, value=0):
    output.append('%s: refusal %d, value %d' % (what, refusal, value))


def not_heard(what, kind, x=0):
    refusal, value = device.event(ram, kind, x)
    show(what, refusal, value)
    output[-1] += ': look for ' + LOOK_FOR.get(refusal, 'another cause')


def read_card(what, file):
    read = font_file.read(file)
    number, place = (0, 0) if read == bytes(font) else read
    show(what, number, place)
    output[-1] += ': wrong is ' + WRONG[number]


def draw(times):
    for _ in range(times):
        line = [0] * 768
        refusal, cells = device.draw(ram, font, line)
        if refusal:
            show('draw', refusal)
            continue
        shown = ''.join(('#' if x & 4 else '-') if x & 8 else '.' for x in line[:84])
        output.append('%s %d' % (shown, cells))


def still_read(first, n):
    return sum(device.ask(ram, cell)[1] for cell in range(first, first + n))


letter(ord('O'), O)
letter(ord('K'), K)
show('a font file for the card', 0)
file = font_file.written(font)
read_card('the card', file)
show('fresh', 0)
refused = host_writes(0x3FF0, [6, 4, 18, 0x80]) + host_writes(0, [1, 0, 0, 0xC2, 255, 0])
refused += host_writes(512, [0x71, ord('O'), 0x71, ord('K'), 0, 0xFF])
output.append('events refused: %d' % refused)
show('frame start', device.start(LINES))
draw(LINES // 2)
output.append('cells still read of the old text: %d' % still_read(512, 6))
output.append('cells still read of the new page: %d' % (still_read(600, 6) + still_read(64, 6)))
refused += host_writes(600, [0x71, ord('K'), 0x71, ord('O'), 0, 0xFF]) + host_writes(64, [1, 0, 0x58, 0xC2, 255, 0])
refused += host_writes(0x3FF3, [0x81])
output.append('events refused: %d' % refused)
draw(LINES - LINES // 2 + 1)
show('frame start', device.start(LINES))
draw(LINES)
not_heard('a byte while idle', 'byte', 0x00)
not_heard('a fetch while idle', 'fetch')
device.event(ram, 'start')
not_heard('a fetch before the slave address', 'fetch')
not_heard('an unknown slave address', 'byte', 0x42)
not_heard('a byte to a deaf device', 'byte', 0xBA)
not_heard('a fetch from a deaf device', 'fetch')
device.event(ram, 'start')
device.event(ram, 'byte', 0xBB)
not_heard('a byte while reading', 'byte', 0x00)
device.event(ram, 'start')
device.event(ram, 'byte', 0xBA)
not_heard('a fetch before the internal address', 'fetch')
device.event(ram, 'byte', 0x02)
device.event(ram, 'byte', 0x10)
device.event(ram, 'byte', 0xBB)
not_heard('a fetch after a start was lost', 'fetch')
device.event(ram, 'stop')
show('a record of another length', 255)      # the interface's own refusal
read_card('a card that was cut short', file[:-1])
flipped = list(file)
flipped[6 * 512 + 100] ^= 0x10
read_card('a flipped bit', flipped)
read_card('two blocks exchanged', file[512:1024] + file[:512] + file[1024:])
script.store({'examples/door_monitor.stdout': '\n'.join(output) + '\n'})
