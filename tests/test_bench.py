#!/usr/bin/env python3
"""Makes stdin and stdout of crates/test_bench: a bench input, and what tests/model.py says the bench prints at the edges. Makes those
of crates/bench too: the example of document 01."""
import model
import script


def bench(data):
    """What the bench prints: the lines of text."""
    if len(data) != 5650:
        return ['refused 7\n']
    ram, registers, font = list(data[:1024]), data[1024:1040], list(data[1040:5648])
    device = model.Device()
    device.registers = [x & k for x, k in zip(registers, model.KEPT)]
    lines = data[5648] | data[5649] << 8
    refusal = device.start(lines)
    if refusal:
        return ['refused %d\n' % refusal]
    width = 12 * ((device.registers[0] & 63) + 1)
    out = ['lines %d width %d\n' % (lines, width)]
    for _ in range(lines):
        line = [0] * width
        _, cells = device.draw(ram, font, line)
        out.append('%s %d\n' % (''.join('%X' % x for x in line), cells))
    return out


def shown(data):
    """What the program prints of that: a refusal, or the heading, the first and the last line, and a digest of all lines."""
    out = bench(data)
    if len(out) == 1:
        return out[0]
    digest = script.mixed(0, ''.join(out[1:]).encode(), 31, 0, 65521)
    return out[0] + out[1] + out[-1] + '%d\n' % digest


source = script.noise(1024 + 4608, 1)
ram, font = source[:1024], source[1024:]
ram[:8] = [0x04, 0xC0, 0x20, 0xE0, 0x71, 0x41, 0x00, 0xFF]      # a row that ends, then one with zoom
registers = [0xFF, 0x04, 0xD2, 0xA8, 0xFF, 0xFF, 0xFF, 0xFF] + [0xFF] * 8       # unused bits set: W 768, CH 18, OSD, FL 2, P 0
data = bytes(ram + registers + font + [0, 0] + [0])

# a bad length: 0, 5,649 and 5,651 bytes
stdout = ''.join(shown(data[:n]) for n in (0, 5649, 5651))
for lines in (0, 2048, 2049, 65535):
    stdout += shown(data[:5648] + lines.to_bytes(2, 'little'))

ram, registers, font = [0] * 1024, [0x04, 0x04, 0x12, 0x80] + [0] * 12, [0] * 4608
ram[:8] = [0x04, 0xC0, 0x00, 0x00, 0x71, 0x41, 0x00, 0xFF]
font[2340:2342] = [0x0F, 0x08]
example = bytes(ram + registers + font + [1, 0])

script.store({
    'crates/test_bench/stdin': data, 'crates/test_bench/stdout': stdout,
    'crates/bench/stdin': example, 'crates/bench/stdout': ''.join(bench(example))})
