"""Holds every call of the unit to tests/answers.py, which is written apart: python3 tests/calls.py CALLS DUMP [INPUTS] [SEED]

CALLS is the program that makes one call on the words of its input, DUMP the program of tests/dump.c. Sound and faulty input is drawn for each call,
with one fault or two, and input that is no call's; every printed line is compared. A bid alone is tried with its numbers at all ends of their ranges
and beyond. Then the stored inputs and lines of tests/calls.txt."""
import collections
import functools
import itertools
import pathlib
import struct
import subprocess

import answers
import arguments
import books
import clearings
import damaged
import orders
from caller import WORDS, call, flat, packed
from solver import BID_NUMBERS, BIDS, CAPACITY, GREATEST, HUNDRED, LEAST, POOLS, PRICE, QUANTITY

STORED = pathlib.Path(__file__).parent / "calls.txt"
COUNTS = [(0, 1), (1, 1), (2, 2), (3, 3), (5, 4), (12, 2), (BIDS, 1)]  # their plans are few and short enough to be run here
CELLS = [0, 1, orders.P - 1, orders.P // 2, orders.P // 2 + 1]
HOLDERS = [0, 1, 7, 9, 2**31 - 1, 2**31, 2**31 + 7, WORDS - 2, WORDS - 1]  # every number of 32 bits is a holder's
HIGH = [orders.P, orders.P + 1, 2**31, WORDS - 1]  # no residues


def bad_counts(draw, n, m):
    return draw.choice([(BIDS + 1, m), (2**31, m), (WORDS - 1, m), (n, 0), (n, POOLS + 1), (n, 2**31), (n, WORDS - 1), (BIDS + 1, 0), (BIDS + 1, POOLS + 1)])


def other_length(draw, entries):
    """A slice one longer or shorter, empty, or of quite another length."""
    kind = draw.randrange(5)
    if kind == 0:
        return entries[:-1] if entries else [1]
    if kind == 1:
        return entries + [draw.choice([0, 1, 5])]
    if kind == 2:
        return [] if entries else [0]
    return entries[:draw.randrange(len(entries) + 1)] if kind == 3 else entries + [3] * draw.randint(1, 300)


def sheet(draw):
    """A sheet of residues."""
    kind = draw.randrange(3)
    few = [draw.randrange(orders.P) for _ in range(8)] + CELLS
    return [draw.choice(few) for _ in range(orders.CELLS)] if kind else [draw.randrange(9)] * orders.CELLS


def high_cell(draw, cells):
    cells = list(cells)
    for _ in range(draw.randint(1, 2)):
        if cells:
            cells[draw.choice([0, len(cells) - 1, draw.randrange(len(cells))])] = draw.choice(HIGH)
    return cells


def beyond(draw, k):
    """A bid's pool, price, quantity or hundredths beyond its limits, by one or by all that 32 bits allow."""
    return draw.choice([[0, POOLS + 1, -1], [-PRICE - 1, PRICE + 1], [-QUANTITY - 1, QUANTITY + 1], [-1, HUNDRED]][k] + [LEAST, GREATEST])


def put_above(draw, bids, first):
    """The price of the bid whose numbers begin there is above 30,000.00 by its hundredths alone."""
    bids[first + 1], bids[first + 3] = PRICE, draw.choice([1, HUNDRED - 1])


# ---- One input of each call, with so many faults

def bid(draw, plans, faults):
    m = draw.randint(1, POOLS)
    whole, hundredths = draw.choice(books.ENDS + [(0, 0), (-1, 50)])
    values = [draw.choice([1, m]), whole, draw.choice([-QUANTITY, QUANTITY, 0]), hundredths]
    for _ in range(faults):
        k = draw.randrange(BID_NUMBERS + 2)
        if k == BID_NUMBERS:
            m = draw.choice([0, POOLS + 1, 2**31, WORDS - 1])
        elif k > BID_NUMBERS:
            put_above(draw, values, 0)
        else:
            values[k] = draw.choice([beyond(draw, k), m + 1 if k == 0 else beyond(draw, k)])
    return call(1, [m, *values])


def lodged(number, draw, faults, n, m, bids, capacities, *further):
    """A call on a book and the slices that go with it."""
    slices = [flat(bids), flat(capacities), *further]
    for _ in range(faults):
        bids, capacities, *_ = slices
        kind = draw.randrange(len(slices) + 8)
        if kind < len(slices):
            slices[kind] = other_length(draw, slices[kind])
        elif kind == len(slices):
            n, m = bad_counts(draw, n, m)
        elif kind < len(slices) + 4 and bids:
            at = draw.randrange(len(bids))
            bids[at] = beyond(draw, at % BID_NUMBERS)
        elif kind == len(slices) + 4 and len(bids) >= BID_NUMBERS:
            put_above(draw, bids, BID_NUMBERS * draw.randrange(len(bids) // BID_NUMBERS))
        elif capacities:
            capacities[draw.randrange(len(capacities))] = draw.choice([-1, CAPACITY + 1, 1, LEAST, GREATEST])
    return call(number, [n, m], *slices)


def book(number, draw, plans, faults):
    cells = [draw.choice(CELLS + HIGH) for _ in range(orders.CELLS)]  # any contents
    counts = draw.choice(COUNTS) if number == 4 else []  # clearing alone runs a plan
    return lodged(number, draw, faults, *books.sound(draw, *counts), cells)


def opened(draw, plans, faults):
    n, m = draw.randint(0, BIDS), draw.randint(1, POOLS)
    cells, results = sheet(draw), [draw.choice([LEAST, GREATEST, -1, 0, 7]) for _ in range(orders.result_count(n, m))]
    for _ in range(faults):
        kind = draw.randrange(4)
        if kind == 0:
            n, m = bad_counts(draw, n, m)
        elif kind == 1:
            cells = other_length(draw, cells)
        elif kind == 2:
            results = other_length(draw, results)
        else:
            cells = high_cell(draw, cells)
    return call(3, [n, m], cells, results)


def run(draw, plans, faults):
    cells, data = sheet(draw), b"".join(orders.encoded(damaged.order(draw)) for _ in range(draw.randint(0, 9)))
    for _ in range(faults):
        kind = draw.randrange(4)
        if kind == 0:
            cells = other_length(draw, cells)
        elif kind == 1:
            cells = high_cell(draw, cells)
        else:
            data = damaged.damaged(draw, data)
    return call(5, [], cells, data)


def moved(plans, n, m):
    """The positions of the orders that are others by columns; with none, of the first."""
    return [at for at, (row, column) in enumerate(zip(plans(n, m), plans.by_columns(n, m))) if row != column] or [0]


def asked(draw, plans, faults):
    """Counts and a position within the plan, or at its end."""
    n, m = draw.choice(COUNTS)
    total = len(plans(n, m))
    at = draw.choice([0, 1, total - 1, total, draw.randrange(total), draw.choice(moved(plans, n, m))])
    for _ in range(faults):
        if draw.random() < 0.5:
            n, m = bad_counts(draw, n, m)
        else:
            at = draw.choice([total + 1, total + draw.randint(2, 10**6), 2**31, WORDS - 1])
    return [n, m, at]


def ask(number, draw, plans, faults):
    return call(number, asked(draw, plans, faults))


def total(draw, plans, faults):
    n, m = draw.choice(COUNTS)
    return call(7, bad_counts(draw, n, m) if faults else (n, m))


def write(number, draw, plans, faults):
    lent = [draw.randrange(256) for _ in range(draw.choice([8, 9, 15, 16, 64, 300, 4_096, draw.randint(8, 99)]))]
    if faults and draw.random() < 0.4:
        lent, faults = lent[:draw.choice([0, 1, 7])], faults - 1
    return call(number, asked(draw, plans, faults), lent)


def view(draw, plans, faults):
    n, m = draw.randint(0, BIDS), draw.randint(1, POOLS)
    few = draw.sample(HOLDERS, draw.randint(1, 4)) + [draw.randrange(WORDS)]
    table = [draw.choice(few) for _ in range(n)]
    holder = draw.choice(table + few[:1])
    results, lent = ([draw.choice([LEAST, GREATEST, -1, 0, draw.randint(1, QUANTITY)]) for _ in range(orders.result_count(n, m))] for _ in range(2))
    for _ in range(faults):
        kind = draw.randrange(5)
        if kind == 0:
            n, m = bad_counts(draw, n, m)
        elif kind == 1:
            table = other_length(draw, table)
        elif kind == 2:
            results = other_length(draw, results)
        elif kind == 3:
            lent = other_length(draw, lent)
        else:
            holder = draw.choice([0, holder ^ 1, holder ^ 2**31, (holder + 1) % WORDS, WORDS - 1])
    return call(9, [n, m, holder], table, results, lent)


def check(draw, plans, faults):
    sound = books.sound(draw)
    amounts, flows = clearings.drawn(draw, sound)
    return lodged(10, draw, faults, *sound, amounts, flat(flows))


# ---- Input that is no call's

def unreadable(draw, data):
    """Words cut off, put in or changed; some of it may still be read."""
    words = list(struct.unpack(f"<{len(data) // 4}I", data))
    kind = draw.randrange(7)
    if kind == 0:
        return data[:draw.randrange(len(data))]
    if kind == 1:
        return data + bytes(draw.randrange(256) for _ in range(draw.randint(1, 8)))
    if kind == 2:
        return packed(words[:draw.randrange(len(words))])
    if kind == 3:
        return packed([draw.choice([0, *range(1, 20), 104, 106, 107, 108, 112, 113, 2**31, WORDS - 1]), *words[1:]])
    if kind == 4:
        return packed(words + [0] * (answers.ROOM + draw.choice([0, 1]) - len(words)))
    at = draw.randrange(min(len(words), 12)) if kind == 5 else len(words) - 1 - draw.randrange(min(len(words), 12))
    words[at] = draw.choice([words[at] + 1, words[at] - 1, 256, 2**30, 2**31, WORDS - 1])
    return packed(words)


# the least and the most that is read: no word, words alone, slices that fill the room, one word more than that
EDGES = [b"", b"\0", b"\1\0\0", *(packed([number]) for number in range(0, 20)), packed([WORDS - 1]), call(3, [0, 1], [], []), call(5, [], [], []),
         *(call(number, [0, 1, 0], lent) for number in [8, 13] for lent in [[255] * (answers.ROOM - 5), [255] * (answers.ROOM - 4), [256] * 9]),
         *(call(number, [0, 1], [], [0], [9] * (answers.ROOM - left)) for number in [2, 11] for left in [7, 6]), call(3, [0, 1], [0] * 4_096, [0] * 4_091),
         call(9, [0, 1, 0], [], [], [9] * (answers.ROOM - 7)), call(9, [0, 1, 0], [], [], [9] * (answers.ROOM - 6)),
         call(10, [0, 1], [], [0], [], [9] * (answers.ROOM - 8)), call(10, [0, 1], [], [0], [], [9] * (answers.ROOM - 7)),
         call(8, [0, 1, 0], [7] * 9)[:-1], packed([8, 0, 1, 0, WORDS - 1, 7]), packed([2, 0, 1, 2**31, 0, 0]), bytes(4 * answers.ROOM), bytes(4 * answers.ROOM + 1)]

# a bid alone: each of its numbers at the ends of its range and one beyond, price and hundredths at the ends of 32 bits too
ALONE = [call(1, [POOLS, *values]) for values in itertools.product(
    [0, 1, POOLS, POOLS + 1], [LEAST, -PRICE - 1, -PRICE, PRICE - 1, PRICE, PRICE + 1, GREATEST],
    [-QUANTITY - 1, -QUANTITY, QUANTITY, QUANTITY + 1], [LEAST, -1, 0, 1, HUNDRED - 1, HUNDRED, GREATEST])]


# each call's inputs, and what it has to be seen to answer: 0 for accepted, or what is said then, and each of its refusals
CALLS = {
    1: (bid, {0, 2, 4, 5, 6}),
    2: (functools.partial(book, 2), set(range(9))),
    3: (opened, {0, 1, 2, 3, 15}),
    4: (functools.partial(book, 4), {"sales below 0", "sales 0", "sales above 0", *range(1, 9)}),
    5: (run, {0, 3, 9, 10, 11, 12, 15}),
    6: (functools.partial(ask, 6), {0, 1, 2, 13}),
    7: (total, {0, 1, 2}),
    8: (functools.partial(write, 8), {0, 1, 2, 13, 14}),
    9: (view, {0, 1, 2, 3, 16}),
    10: (check, {"yes 0", "yes 1", *range(1, 9)}),
    11: (functools.partial(book, 11), set(range(9))),
    12: (functools.partial(ask, 12), {0, 1, 2, 13}),
    13: (functools.partial(write, 13), {0, 1, 2, 13, 14}),
}


def drawn(draw, plans, count):
    """Inputs of each call in turn."""
    for k in range(count):
        number = list(CALLS)[k % len(CALLS)]
        data = CALLS[number][0](draw, plans, draw.choice([0, 1, 1, 2]))
        yield number, unreadable(draw, data) if draw.random() < 0.15 else data


def outcome(output):
    """0 for accepted, or what is said then: yes or no, the sign of the sales' welfare; the refusal's number; None for unreadable."""
    first, *lines = output.split("\n")
    if first.startswith("refused"):
        return int(first.split(" ")[1])
    if first == "unreadable":
        return None
    found = dict(line.partition(" ")[::2] for line in lines)
    if "yes" in found:
        return "yes " + found["yes"]
    if "sales" in found:
        return "sales " + ("0" if found["sales"] == "0" else "below 0" if found["sales"].startswith("-") else "above 0")
    return 0


def stored():
    """The inputs and the lines of tests/calls.txt: a name, words in hexadecimal or `-` for none, then the lines; `V*K` is K times V."""
    def spelled(text):
        return [word for part in text.split(" ") for word in [part.split("*")[0]] * int(part.split("*")[1] if "*" in part else 1)]
    for block in STORED.read_text().split("\n\n")[1:]:
        name, words, *lines = block.strip("\n").split("\n")
        yield name, packed([int(word, 16) for word in spelled(words) if word != "-"]), "".join(" ".join(spelled(text)) + "\n" for text in lines)


def main():
    program, dump, count, draw = arguments.taken(2, 3000)
    plans = answers.Plans(dump)
    seen = collections.defaultdict(set)

    def ran(data):
        done = subprocess.run([program], input=data, stdout=subprocess.PIPE, stderr=subprocess.PIPE, check=True)
        assert not done.stderr, done.stderr
        return done.stdout.decode("ascii")
    for number, data in itertools.chain([(None, data) for data in EDGES + ALONE], drawn(draw, plans, count)):
        found, expected = ran(data), answers.answer(plans, data)
        assert found == expected, (number, data.hex()[:2000], found[:500], expected[:500])
        seen[number].add(outcome(found))
    missed = {number: wanted - seen[number] for number, (_, wanted) in CALLS.items() if wanted - seen[number]}
    assert not missed and None in seen[None], missed
    vectors = list(stored())
    for name, data, lines in vectors:
        assert ran(data) == answers.answer(plans, data) == lines, (name, ran(data)[:500], lines[:500])
    print(f"{len(EDGES) + len(ALONE) + count} inputs and {len(vectors)} stored ones: every call answers, and leaves its slices, as written apart; "
          "each of its refusals was seen")


if __name__ == "__main__":
    main()
