"""A second implementation of request K8, the font files that can be checked, as tests/model.py is one of the requests before it.

It was written from the request's words alone. A font or a file is bytes; a refusal is its number and the block's place in the file, which is
0 with refusal 15.
"""
import collections

Refused = collections.namedtuple('Refused', 'number place')


def two_bytes(x):
    """Low first, modulo 65,536."""
    return bytes((x % 256, x // 256 % 256))


def used_length(number):
    return 72 if number == 9 else 504


def checks(front):
    """The two checks over bytes 0 to 507 of a block: the sum, and the sum of each byte times its position counted from 1."""
    assert len(front) == 508
    return two_bytes(sum(front)) + two_bytes(sum(position * x for position, x in enumerate(front, 1)))


def written(font):
    if len(font) != 4608:
        return Refused(15, 0)
    file = b''
    for number in range(10):
        used = bytes(font[504 * number:504 * number + 504])
        assert len(used) == used_length(number)
        front = two_bytes(number) + two_bytes(len(used)) + used + bytes(504 - len(used))
        file += front + checks(front)
    return file


def read(file):
    if len(file) != 5120:
        return Refused(15, 0)
    font = b''
    for place in range(10):
        block = bytes(file[512 * place:512 * place + 512])
        number, used, payload = block[:2], block[2:4], block[4:508]
        if block[508:] != checks(block[:508]):
            return Refused(16, place)
        length = used_length(place)
        if number != two_bytes(place) or used != two_bytes(length) or any(payload[length:]):
            return Refused(17, place)
        font += payload[:length]
    return font
