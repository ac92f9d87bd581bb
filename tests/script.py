"""What the scripts beside it share: transfers over the bus, noise and digests, and where the stored files go.

Each of them is run as `python3 tests/NAME.py FOLDER` and writes its files below FOLDER, each at its path in the repository: `make
stored` runs them all at the repository's root, `make stored-check` below target/.
"""
import itertools
import pathlib
import sys

EVENTS = ('start', 'byte', 'fetch', 'stop')     # by their numbers


def writes(address, *data):
    """The events of a transfer that stores: start, slave address, address high and low, data, stop."""
    return [('start', 0)] + [('byte', x) for x in (0xBA, address >> 8, address & 255, *data)] + [('stop', 0)]


def reads(address, n):
    """The events of a transfer that fetches n bytes: the address, a repeated start, fetches, stop."""
    return writes(address)[:-1] + [('start', 0), ('byte', 0xBB)] + [('fetch', 0)] * n + [('stop', 0)]


def numbers(x, factor, more, modulus):
    """Numbers that look random, the same in every Python."""
    while True:
        x = (x * factor + more) % modulus
        yield x


def noise(n, seed):
    """n bytes that look random."""
    return [x & 255 for x in itertools.islice(numbers(seed, 75, 74, 65537), n)]


def mixed(total, values, factor, more=1, modulus=4294967291):
    """A digest with more values."""
    for x in values:
        total = (total * factor + x + more) % modulus
    return total


def side_by_side(kinds):
    """A row in which each of these kinds stands once just to the right of each."""
    row = []
    for i, left in enumerate(kinds):
        row.append(left)
        for right in kinds[i + 1:]:
            row += (left, right)
    return row + kinds[:1]


def store(files):
    """Writes the files, bytes or text, below the folder that the command names."""
    if len(sys.argv) != 2:
        sys.exit('usage: python3 %s FOLDER' % sys.argv[0])
    for name, data in files.items():
        path = pathlib.Path(sys.argv[1], name)
        path.parent.mkdir(parents=True, exist_ok=True)
        path.write_bytes(data.encode() if isinstance(data, str) else bytes(data))
        print('%s: %d bytes' % (path, path.stat().st_size))
