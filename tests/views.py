"""Holds views to what request 1 of document 02 says of them, on the way that a host goes: python3 tests/views.py CALLS [BOOKS] [SEED]

CALLS is the program that makes one call. Each drawn book is cleared, its sheet opened, and the view made for each of its table's holders. The
views add up to the opened amounts, and each shows all flows and prices. From the opened results and a copy of them changed in one place or two a
holder has the same view exactly if the two agree on what it is shown."""
import arguments
import books
from caller import asked, opened
from calls import HOLDERS
from solver import BIDS, POOLS


def main():
    program, count, draw = arguments.taken(1, 150)

    views = same = 0
    for _ in range(count):
        n, m, bids, capacities = books.sound(draw, draw.randint(1, BIDS), draw.randint(1, POOLS))
        table = [draw.choice(HOLDERS[:draw.randint(1, len(HOLDERS))]) for _ in range(n)]
        results = opened(program, n, m, bids, capacities)
        other = list(results)
        for _ in range(draw.randint(1, 2)):
            other[draw.randrange(len(other)) if draw.random() < 0.2 else draw.randrange(n)] += 1
        sums = [0] * n
        for holder in set(table):
            shown, changed = (asked(program, "view", 9, [n, m, holder], table, numbers, [9] * len(results)) for numbers in (results, other))
            assert shown[n:] == results[n:], (n, m, bids, capacities, table, holder)
            sums = [a + b for a, b in zip(sums, shown)]
            agree = other[n:] == results[n:] and all(other[i] == results[i] for i in range(n) if table[i] == holder)
            assert agree == (shown == changed), (n, m, bids, capacities, table, holder, other)
            views, same = views + 1, same + agree
        assert sums == results[:n], (n, m, bids, capacities, table)
    assert 0 < same < views
    print(f"{count} cleared books and {views} views, {same} of them the same for changed results: the views add up, and show what they have to")


if __name__ == "__main__":
    main()
