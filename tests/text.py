"""Settle's input read apart from the unit, from document 01's words, and texts to try it on."""
import re

import solver

BLANKS = re.compile(rb"[ \n]+")
NUMBER = re.compile(rb"-?[0-9]+\Z")


def number(word):
    if not NUMBER.match(word):
        return None
    digits = word.lstrip(b"-").lstrip(b"0") or b"0"
    if len(digits) > 10:
        return None
    v = -int(digits) if word[:1] == b"-" else int(digits)
    return v if -2**31 <= v < 2**31 else None


def read(text):
    """'unreadable', ('refused', number, place), or (n, m, bids, capacities)."""
    words = [w for w in BLANKS.split(text) if w]
    if len(words) < 2:
        return "unreadable"
    n, m = number(words[0]), number(words[1])
    if n is None or m is None or n < 0 or m < 0:
        return "unreadable"
    if n > solver.BIDS:
        return "refused", 1, 0
    if m == 0 or m > solver.POOLS:
        return "refused", 2, 0
    values = [number(w) for w in words[2:]]
    lines = solver.BID_NUMBERS * n
    if len(values) != lines + m * m or None in values:
        return "unreadable"
    bids = [tuple(values[i:i + solver.BID_NUMBERS]) for i in range(0, lines, solver.BID_NUMBERS)]
    capacities = [values[lines + m * a:lines + m * (a + 1)] for a in range(m)]
    refused = solver.refusal(n, m, bids, capacities)
    return ("refused",) + refused if refused else (n, m, bids, capacities)


def damaged(draw, text):
    """A text with some bytes changed, taken out or put in."""
    text = bytearray(text)
    for _ in range(draw.randint(1, 3)):
        at = draw.randrange(len(text) + 1)
        piece = draw.choice([b" ", b"\n", b"-", b"0", b"9", b"+", b"x", b"\t", b"\r", b"\0", b"--", b" - ", b"99999999999", b"000", b"2147483648", b" 7 ", b"."])
        if draw.random() < 0.5 and at < len(text):
            text[at:at + 1] = piece if draw.random() < 0.6 else b""
        else:
            text[at:at] = piece
    return bytes(text)


# texts at the edges of what is readable
EDGES = [
    b"", b" ", b"\n\n", b"0", b"0 1", b"0 1 0", b" 0\n1  0 \n", b"0 1 0 0", b"0 1 -0", b"00 01 000", b"0 1 1", b"0 1 -1", b"0 1 x",
    b"999 1 x", b"999 1x", b"999 -1", b"999 99999999999", b"999", b"65 1", b"64 5", b"0 0", b"0 5 x", b"-0 1 0", b"-1 1 0", b"0 -0",
    b"0 1 2147483647", b"0 1 -2147483648", b"0 1 2147483648", b"0 1 -2147483649", b"0 1 +5", b"0 1 -", b"0 1 --3", b"0 1\t0", b"0 1\r\n0",
    b"0 1 0\0", b"0 1 5 x", b"1 1 1 20-10 5 0 0", b"1 1 1 20 -10 0 0", b"1 1 2 30001 65536 100 7", b"1 1 1 30001 65536 100 7", b"1 1 1 0 65536 0 7",
    b"1 1 1 0 0 0 7", b"0 2 0 1000000 1000000 0", b"0 2 0 1000001 -1 0", b"0 2 0 0 -1 3", b"0 2 0 0 0 3", b"2147483647 2147483647",
    b"2147483648 1", b" " * 600_000 + b"0 1" + b"\n" * 600_000 + b"0", b"0 1 " + b"0" * 70_000, b"0" * 70_000 + b"1 1 1 5 -3 25 0",
    b"0 1 " + b"9" * 70_000, b"1 " * 5_000,
]

# three numbers a bid, which was the form once, and five; then as many numbers as are called for, in another order or not whole
EDGES += [
    b"1 1 1 20 -10 0", b"2 2 1 20 -10 2 30 6 0 3 0 0", b"2 1 1 20 -10 0 1 30 6 0", b"1 1 1 20 -10 0 0 0", b"1 1 1 20 -10", b"1 1 1 20",
    b"1 1 1 20 0 -10 0", b"1 1 1 20.25 -10 0", b"1 1 1 20.25 -10 0 0", b"1 1 1 20 -10 .25 0", b"1 1 1 20 -10 25. 0", b"1 1 1 20 25 -10 0",
]

# one bid's price and hundredths, at and beyond the ends of both and of the two together, and as the numbers may be written
EDGES += [b"1 1 1 %s -5 %s 0" % tuple(parts.split()) for parts in [
    b"30000 0", b"30000 1", b"30000 99", b"30000 100", b"30000 -1", b"30001 0", b"30001 -1", b"30001 -100", b"29999 99", b"29999 100", b"29999 101",
    b"-30000 99", b"-30000 1", b"-30000 0", b"-30000 -1", b"-30000 100", b"-30001 0", b"-30001 99", b"-30001 100", b"-30001 101", b"-29999 -100",
    b"0 100", b"0 99", b"0 1", b"0 0", b"0 -1", b"0 -99", b"-1 50", b"-1 99", b"-1 100", b"-3 25", b"0 -0", b"-0 050", b"0 0099", b"0 +1", b"0 --1", b"0 -",
    b"0 2147483647", b"0 -2147483648", b"2147483647 0", b"2147483647 2147483647", b"-2147483648 99", b"-2147483648 -2147483648", b"0 2147483648",
    b"21474836 48", b"42949673 4", b"0 256", b"0 65536", b"65536 0", b"4294967296 0",
]]

# which of several faults is told: 4, then 5, then 6, of the first faulty bid
EDGES += [
    b"1 1 0 0 0 100 0", b"1 1 2 30000 0 1 0", b"1 1 0 0 65536 -1 0", b"1 1 1 0 65536 100 0", b"1 1 1 30000 -65536 1 0", b"1 1 1 30000 -65536 0 0",
    b"2 1 1 0 65536 0 1 0 5 100 0", b"2 1 1 0 5 100 0 0 65536 0 0", b"2 1 1 30000 5 0 1 30000 5 1 0", b"1 1 1 0 5 100 -1", b"1 1 1 0 5 99 -1",
    b"1 1 1 0 65536 -1 0",
]

# as many numbers as a text may have, one too few and one too many
EDGES += [b"64 4" + b" 1 0 0 0" * 64 + b" 0" * k for k in (15, 16, 17)]
