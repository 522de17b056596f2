"""The program `calls` written apart from the unit, from the documents' words: what it prints for the words of its input.

The list of a plan's orders is the one thing that is not computed here: document 01 leaves it open. It is read from the bytes that the program of
tests/dump.c writes, and the column plan's orders are these orders with each cell number replaced by its new one. What a plan leaves is computed by
the machine written apart, and held to the solver."""
import collections
import struct
import subprocess

import orders
import solver

ROOM = 8_192  # words
BYTE = 256
LONGEST_ORDER = 8


class Unreadable(Exception):
    pass


class Refused(Exception):
    pass


class Plans:
    """The plans' orders as the C host gives them, each read once, and the column plans' orders."""

    def __init__(self, dump):
        self.dump, self.known, self.renumbered = dump, {}, {}

    def __call__(self, n, m):
        if (n, m) not in self.known:
            self.known[n, m] = orders.orders(subprocess.run([self.dump, str(n), str(m)], stdout=subprocess.PIPE, check=True).stdout)
        return self.known[n, m]

    def by_columns(self, n, m):
        if (n, m) not in self.renumbered:
            self.renumbered[n, m] = orders.renumbered(n, self(n, m))
        return self.renumbered[n, m]


class Words:
    """The words of an input, taken one after another."""

    def __init__(self, data):
        if not data or len(data) % 4 or len(data) > 4 * ROOM:
            raise Unreadable
        self.left = list(struct.unpack(f"<{len(data) // 4}I", data))

    def number(self):
        if not self.left:
            raise Unreadable
        return self.left.pop(0)

    def signed(self):
        return two(self.number())

    def slice(self):
        length = self.number()
        if length > len(self.left):
            raise Unreadable
        taken, self.left = self.left[:length], self.left[length:]
        return taken

    def signed_slice(self):
        return [two(word) for word in self.slice()]

    def bytes(self):
        taken = self.slice()
        if any(word >= BYTE for word in taken):
            raise Unreadable
        return taken

    def ended(self):
        if self.left:
            raise Unreadable


def two(word):
    """A word of 32 bits by two's complement."""
    return word - 2**32 if word >= 2**31 else word


def line(name, entries):
    return " ".join([name, *map(str, entries)])


def rows(m, entries):
    return [entries[a * m:a * m + m] for a in range(m)]


# ---- Refusals

def counts(n, m):
    if n > solver.BIDS:
        raise Refused(1, 0)
    if m == 0 or m > solver.POOLS:
        raise Refused(2, 0)


def lengths(*pairs):
    if any(len(found) != stated for found, stated in pairs):
        raise Refused(3, 0)


def book(n, m, bids, capacities, *further):
    """The bids and the rows of a book that is not refused; further slices with the lengths stated for them."""
    counts(n, m)
    lengths((bids, solver.BID_NUMBERS * n), (capacities, m * m), *further)
    bids = [tuple(bids[i:i + solver.BID_NUMBERS]) for i in range(0, len(bids), solver.BID_NUMBERS)]
    capacities = rows(m, capacities)
    refusal = solver.refusal(n, m, bids, capacities)
    if refusal:
        raise Refused(*refusal)
    return bids, capacities


def residues(cells):
    for c, cell in enumerate(cells):
        if cell >= orders.P:
            raise Refused(15, c)


def position(plans, n, m, at):
    counts(n, m)
    if at > len(plans(n, m)):
        raise Refused(13, 0)


# ---- The calls

def answered(made, numbers, slices):
    """The first line, and the call's own lines; after a refusal its numbers are 0 and its slices are as they were lent."""
    try:
        return ["accepted"] + made()
    except Refused as refusal:
        return ["refused %d %d" % refusal.args] + [line(name, [0]) for name in numbers] + [line(name, entries) for name, entries in slices]


def bid(plans, words):
    m, alone = words.number(), tuple(words.signed() for _ in range(solver.BID_NUMBERS))
    words.ended()

    def made():
        counts(0, m)
        refusal = solver.refusal(1, m, [alone], [[0] * m] * m)
        if refusal:
            raise Refused(refusal[0], 0)
        return []
    return answered(made, [], [])


def seal(sealed, words):
    """By rows or by columns: `sealed` gives a book's sealed sheet."""
    n, m, bids, capacities, sheet = words.number(), words.number(), words.signed_slice(), words.signed_slice(), words.slice()
    words.ended()
    return answered(lambda: [line("sheet", sealed(*book(n, m, bids, capacities, (sheet, orders.CELLS))))], [], [("sheet", sheet)])


def opened(plans, words):
    n, m, sheet, results = words.number(), words.number(), words.slice(), words.signed_slice()
    words.ended()

    def made():
        counts(n, m)
        lengths((sheet, orders.CELLS), (results, orders.result_count(n, m)))
        residues(sheet)
        first = orders.first_result(n, m)
        return [line("results", map(orders.signed, sheet[first:first + len(results)]))]
    return answered(made, [], [("results", results)])


def clear(plans, words):
    n, m, bids, capacities, sheet = words.number(), words.number(), words.signed_slice(), words.signed_slice(), words.slice()
    words.ended()

    def made():
        tables = book(n, m, bids, capacities, (sheet, orders.CELLS))
        found = plans(n, m)
        cells = orders.run(found, orders.sealed(*tables))
        flows = orders.flows(n, m, cells)
        accepted, prices = solver.clear(n, m, *tables)
        assert cells == orders.cleared(*tables, accepted, flows, prices) and not solver.faults(n, m, *tables, accepted, flows), (n, m, tables)
        figures = [line("welfare", [solver.welfare(tables[0], accepted)]), line("sales", [solver.sales_welfare(tables[0], accepted)])]
        return [line("orders", [len(found)]), *figures, line("sheet", cells)]
    return answered(made, ["orders", "welfare", "sales"], [("sheet", sheet)])


def run(plans, words):
    sheet, data = words.slice(), words.bytes()
    words.ended()

    def made():
        lengths((sheet, orders.CELLS))
        residues(sheet)
        try:
            found = orders.orders(data)
        except orders.Refused as refusal:
            raise Refused(*refusal.args) from None
        return [line("orders", [len(found)]), line("sheet", orders.run(found, list(sheet)))]
    return answered(made, ["orders"], [("sheet", sheet)])


def ask(plans, words):
    n, m, at = words.number(), words.number(), words.number()
    words.ended()

    def made():
        position(plans, n, m, at)
        found = plans(n, m)
        return [line("order", found[at]), line("next", [at + 1])] if at < len(found) else ["ended"]
    return answered(made, [], [])


def total(plans, words):
    n, m = words.number(), words.number()
    words.ended()

    def made():
        counts(n, m)
        return [line("orders", [len(plans(n, m))])]
    return answered(made, ["orders"], [])


def write(plans, words):
    n, m, at, lent = words.number(), words.number(), words.number(), words.bytes()
    words.ended()

    def made():
        position(plans, n, m, at)
        if len(lent) < LONGEST_ORDER:
            raise Refused(14, 0)
        data, count = [], 0
        for order in plans(n, m)[at:]:
            encoded = orders.encoded(order)
            if len(data) + len(encoded) > len(lent):
                break
            data += encoded
            count += 1
        return [line("bytes", [len(data)]), line("orders", [count]), line("next", [at + count]), line("slice", data + lent[len(data):])]
    return answered(made, ["bytes", "orders", "next"], [("slice", lent)])


def view(plans, words):
    n, m, holder, table, results, lent = words.number(), words.number(), words.number(), words.slice(), words.signed_slice(), words.signed_slice()
    words.ended()

    def made():
        counts(n, m)
        lengths((table, n), (results, orders.result_count(n, m)), (lent, orders.result_count(n, m)))
        bids = collections.defaultdict(list)
        for i, owner in enumerate(table):
            bids[owner].append(i)
        if holder not in bids:
            raise Refused(16, 0)
        shown = [0] * n + results[n:]
        for i in bids[holder]:
            shown[i] = results[i]
        return [line("view", shown)]
    return answered(made, [], [("view", lent)])


def check(plans, words):
    n, m, bids, capacities = words.number(), words.number(), words.signed_slice(), words.signed_slice()
    amounts, flows = words.signed_slice(), words.signed_slice()
    words.ended()

    def made():
        tables = book(n, m, bids, capacities, (amounts, n), (flows, m * m))
        return [line("yes", [int(solver.right(n, m, *tables, amounts, rows(m, flows)))])]
    return answered(made, ["yes"], [])


CALLS = {
    1: bid, 2: lambda plans, words: seal(orders.sealed, words), 3: opened, 4: clear, 5: run, 6: ask, 7: total, 8: write, 9: view, 10: check,
    # by columns: the same on the column sheet or with the column plans
    11: lambda plans, words: seal(orders.column_sealed, words), 12: lambda plans, words: ask(plans.by_columns, words),
    13: lambda plans, words: write(plans.by_columns, words),
}


def answer(plans, data):
    """What is printed for some bytes of input."""
    try:
        words = Words(data)
        call = words.number()
        if call not in CALLS:
            raise Unreadable
        lines = CALLS[call](plans, words)
    except Unreadable:
        lines = ["unreadable"]
    return "".join(line + "\n" for line in lines)
