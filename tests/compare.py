"""Holds settle to the solver and the reader written apart: python3 tests/compare.py SETTLE [BOOKS] [SEED]

SETTLE is the program. The stored books of tests/exhaustive.py, sound books of every n and m, faulty books, damaged texts and the texts at the edges
of what is readable are run through it, and its whole output is checked: amounts, flows, prices, welfare, refusals. The prices are also taken by the
words of request 4 of document 02 from the lines that are printed. A tenth of the books, sound and faulty, are of three numbers a bid and read with
hundredths 0: their accepted amounts and refusals are held to tests/earlier.py too, as request 5 has it."""
import collections
import subprocess

import arguments
import books
import earlier
import exhaustive
import solver
import text

# sound books, those that traded, those in which some line carried all it could; prices, those that come from another pool, those with hundredths;
# books of three numbers a bid, those that traded
TALLY = collections.Counter()


def ran(program, data):
    done = subprocess.run([program], input=data, stdout=subprocess.PIPE, stderr=subprocess.PIPE, timeout=60)
    assert done.returncode == 0 and not done.stderr, (done.returncode, done.stderr)
    return done.stdout.decode("ascii")


def price_lines(prices):
    return [f"price {p + 1} {'none' if v is None else v}" for p, v in enumerate(prices)]


def listed(n, m, bids, capacities, output):
    """The faults of a listing, checked line by line."""
    accepted, prices = solver.clear(n, m, bids, capacities)
    lines = output.split("\n")
    if lines.pop() != "":
        return ["the last line has no end"]
    flows = [[0] * m for _ in range(m)]
    rest = [line for line in lines if not line.startswith("line ")]
    expected = [f"bid {i + 1} {x}" for i, x in enumerate(accepted)]
    expected += price_lines(prices) + [f"welfare {solver.welfare(bids, accepted)}"]
    found = [] if rest == expected else [f"{rest} for {expected}"]
    carried = [line for line in lines if line.startswith("line ")]
    if lines[n:n + len(carried)] != carried:
        found.append("lines out of place")
    last = -1
    for line in carried:
        _, a, b, flow = line.split(" ")
        a, b, flow = int(a) - 1, int(b) - 1, int(flow)
        if not (0 <= a < m and 0 <= b < m and flow > 0 and last < a * m + b) or line != f"line {a + 1} {b + 1} {flow}":
            found.append(f"bad {line}")
            continue
        last = a * m + b
        flows[a][b] = flow
    own = price_lines(exhaustive.prices(n, m, bids, capacities, accepted, flows))
    if own != [line for line in rest if line.startswith("price ")]:
        found.append(f"{own} by the printed lines")
    TALLY["sound"] += 1
    TALLY["traded"] += any(accepted)
    TALLY["bound"] += any(0 < capacities[a][b] == flows[a][b] for a in range(m) for b in range(m))
    TALLY["prices"] += m - prices.count(None)
    TALLY["imported"] += exhaustive.imported(n, m, bids, accepted, prices)
    TALLY["hundredths"] += sum(v is not None and v % solver.HUNDRED > 0 for v in prices)
    return found + solver.faults(n, m, bids, capacities, accepted, flows)


def faults(data, output):
    """The faults of settle's output for one text."""
    expected = text.read(data)
    if expected == "unreadable":
        return [] if output == "unreadable\n" else [f"{output!r} for an unreadable text"]
    if expected[0] == "refused":
        line = f"refused {expected[1]} {expected[2]}\n"
        return [] if output == line else [f"{output!r} for {line!r}"]
    return listed(*expected, output)


def before(n, m, bids, capacities, output):
    """The faults of what is printed for a book of three numbers a bid: another refusal, or other accepted amounts, than these had."""
    refused = earlier.refusal(n, m, bids, capacities)
    accepted = [] if refused else earlier.accepted(n, m, bids, capacities)
    expected = ["refused %d %d" % refused] if refused else [f"bid {i + 1} {x}" for i, x in enumerate(accepted)]
    TALLY["three"] += 1
    TALLY["three traded"] += any(accepted)
    return [] if output.split("\n")[:len(expected)] == expected else [f"{output!r}, and {expected} for three numbers a bid"]


def drawn(draw):
    """A text; and if it is that of a book of three numbers a bid, read with hundredths 0, that book."""
    kind = draw.random()
    if kind >= 0.75:
        return text.damaged(draw, books.text(*books.sound(draw, n=draw.randint(0, 5))).encode()), None
    n, m, bids, capacities = books.sound(draw) if kind < 0.6 else books.faulty(draw)
    if draw.random() < 0.9:
        return books.text(n, m, bids, capacities).encode(), None
    three = [bid[:3] for bid in bids]
    return books.text(n, m, books.widened(three), capacities).encode(), (n, m, three, capacities)


def texts(draw, count):
    for data in text.EDGES:
        yield data, None
    for book, _ in exhaustive.stored():
        yield books.text(*book).encode(), None
    for n in range(solver.BIDS + 1):
        for m in range(1, solver.POOLS + 1):
            yield books.text(*books.sound(draw, n, m)).encode(), None
    for _ in range(count):
        yield drawn(draw)


def main():
    program, count, draw = arguments.taken(1, 2000)
    tried = 0
    for data, three in texts(draw, count):
        output = ran(program, data)
        found = faults(data, output) + (before(*three, output) if three else [])
        assert not found, (data[:2000], found)
        tried += 1
    assert TALLY["traded"] > TALLY["sound"] / 2 and TALLY["bound"] > TALLY["sound"] / 5 and TALLY["imported"] > TALLY["prices"] / 6, TALLY
    assert TALLY["hundredths"] > TALLY["prices"] / 3 and TALLY["three traded"] >= TALLY["three"] / 4, TALLY
    print(f"{tried} texts: settle answers as the solver and the reader written apart; "
          f"of {TALLY['sound']} sound books {TALLY['traded']} traded, in {TALLY['bound']} some line carried all it could; "
          f"of {TALLY['prices']} prices {TALLY['imported']} come from another pool and {TALLY['hundredths']} have hundredths; "
          f"{TALLY['three']} books of three numbers a bid, of which {TALLY['three traded']} traded, are refused or accepted as before")


if __name__ == "__main__":
    main()
