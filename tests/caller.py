"""One call of the unit from outside, by the program `calls`: its input as words, what it prints, and the way of a host from a book to its results."""
import struct
import subprocess

import orders

WORDS = 2**32


def packed(words):
    return struct.pack(f"<{len(words)}I", *(word % WORDS for word in words))


def call(number, numbers, *slices):
    return packed([number, *numbers] + [word for entries in slices for word in [len(entries), *entries]])


def flat(rows):
    return [v for row in rows for v in row]


def ran(program, data):
    return subprocess.run([program], input=data, stdout=subprocess.PIPE, check=True).stdout.decode("ascii")


def asked(program, name, *words):
    """The entries of one line that an accepted call prints."""
    lines = ran(program, call(*words)).splitlines()
    assert lines[0] == "accepted", lines[0]
    return next([int(entry) for entry in line.split(" ")[1:]] for line in lines if line.split(" ")[0] == name)


def opened(program, n, m, bids, capacities):
    """The opened results of a book that was cleared."""
    sheet = asked(program, "sheet", 4, [n, m], flat(bids), flat(capacities), [0] * orders.CELLS)
    return asked(program, "results", 3, [n, m], sheet, [9] * orders.result_count(n, m))
