#!/usr/bin/env python3
"""Makes stdin and stdout of the depot's programs by tests/font_file.py: crates/font_pack (the sample font, and its file), crates/font_check
(that file with one flipped bit in block 6, and its refusal) and crates/font_unpack (the file, and the font)."""
import demo
import font_file
import script


def refusal(refused, length):
    """A refusal's line; the length is the one that the input should have."""
    number, place = refused
    if number == 15:
        return b'refused 15: not %d bytes\n' % length
    return b'refused %d: block %d: %s\n' % (number, place, {16: b'checks wrong', 17: b'other number, length or padding'}[number])


# ---- what each program writes for what it reads

def font_pack(font):
    file = font_file.written(font)
    return refusal(file, 4608) if isinstance(file, font_file.Refused) else file


def font_unpack(file):
    font = font_file.read(file)
    return refusal(font, 5120) if isinstance(font, font_file.Refused) else font


def font_check(file):
    font = font_file.read(file)
    return refusal(font, 5120) if isinstance(font, font_file.Refused) else b'good\n'


def flipped(file, at, bit):
    return file[:at] + bytes([file[at] ^ 1 << bit]) + file[at + 1:]


if __name__ == '__main__':         # the runs of tests/depot_runs.py use the rest
    font = bytes(demo.sample_font())
    file = font_pack(font)
    bad = flipped(file, 512 * 6 + 300, 2)
    script.store({
        'crates/font_pack/stdin': font, 'crates/font_pack/stdout': file,
        'crates/font_check/stdin': bad, 'crates/font_check/stdout': font_check(bad),
        'crates/font_unpack/stdin': file, 'crates/font_unpack/stdout': font_unpack(file)})
