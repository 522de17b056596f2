"""Holds checks to what request 2 of document 02 says of them, on the way that a host goes: python3 tests/checks.py CALLS SETTLE [BOOKS] [SEED]

CALLS is the program that makes one call, SETTLE the one that settles a text. Each drawn book is cleared and its sheet opened: a yes for the opened
amounts and flows, and for those that settle prints. Then these are changed, in each of the ways of tests/clearings.py, and the answer has to be the
one of tests/answers.py. That one is held to two others: nothing is gained by moving gas round a ring of bids and lines; and every other book is
small, so that every clearing of it can be tried for greater welfare."""
import collections
import math

import answers
import arguments
import books
import clearings
import exhaustive
from caller import call, flat, opened, ran


def gainful(m, bids, capacities, amounts, flows):
    """Whether a feasible clearing can be bettered: a unit more of one bid used and one less of another, brought over lines that have room."""
    cost = [[math.inf] * (m + 1) for _ in range(m + 1)]  # of a unit more from place to place: the pools, and last where bids bring it from and take it to
    for a in range(m):
        for b in range(m):
            if flows[a][b] < capacities[a][b] or flows[b][a] > 0:
                cost[a][b] = 0
    for bid, amount in zip(bids, amounts):
        (pool, _, quantity, _), price, used = bid, exhaustive.price(bid), clearings.used(bid, amount)
        if used < abs(quantity):
            cost[m][pool - 1] = min(cost[m][pool - 1], price)
        if used > 0:
            cost[pool - 1][m] = min(cost[pool - 1][m], -price)
    for c in range(m + 1):
        for a in range(m + 1):
            for b in range(m + 1):
                cost[a][b] = min(cost[a][b], cost[a][c] + cost[c][b])
    return any(cost[a][a] < 0 for a in range(m + 1))


def right(book, greatest, amounts, flows):
    """Whether a clearing is right, by what could be gained; and, where the greatest welfare is known, by that."""
    _, m, bids, capacities = book
    if not exhaustive.feasible(*book, amounts, flows):
        return False
    found = not gainful(m, bids, capacities, amounts, flows)
    assert greatest is None or found == (exhaustive.welfare(bids, amounts) == greatest), (book, amounts, flows, greatest)
    return found


def printed(m, output):
    """The amounts and the flows of settle's listing."""
    lines = [line.split(" ") for line in output.split("\n")]
    flows = [[0] * m for _ in range(m)]
    for _, a, b, flow in (words for words in lines if words[0] == "line"):
        flows[int(a) - 1][int(b) - 1] = int(flow)
    return [int(words[2]) for words in lines if words[0] == "bid"], flows


def main():
    program, settle, count, draw = arguments.taken(2, 150)

    def cleared(n, m, bids, capacities):
        results = opened(program, n, m, bids, capacities)
        return results[:n], answers.rows(m, results[n:n + m * m])

    def said(n, m, bids, capacities, amounts, flows):
        data = call(10, [n, m], flat(bids), flat(capacities), amounts, flat(flows))
        output = ran(program, data)
        assert output == answers.answer(None, data), (n, m, bids, capacities, amounts, flows, output)
        return output == "accepted\nyes 1\n"

    changes = clearings.RIGHT + clearings.WRONG + clearings.EITHER
    seen = collections.Counter()
    for k in range(count):
        book = exhaustive.small(draw) if k % 2 else books.sound(draw)
        _, m, bids, _ = book
        greatest = exhaustive.best(*book)[1] if k % 2 else None
        clearing = cleared(*book)
        welfare = exhaustive.welfare(bids, clearing[0])
        for own in clearing, printed(m, ran(settle, books.text(*book).encode())):
            assert right(book, greatest, *own) and said(*book, *own), (book, own)
        for change in changes:
            sent = clearings.changed(draw, change, book, *clearing)
            if sent is None:
                continue
            answer = right(book, greatest, *sent)
            assert said(*book, *sent) == answer, (book, sent, answer)
            assert change in clearings.EITHER or answer == (change in clearings.RIGHT), (book, sent, change.__name__)
            seen[change] += 1
            seen["yes" if answer else "no"] += 1
            seen["greater"] += exhaustive.welfare(bids, sent[0]) > welfare
            if change in clearings.RIGHT and draw.random() < 0.5:
                clearing = sent  # the next change is made to this one
    missed = [change.__name__ for change in changes if not seen[change]]
    assert not missed and seen["greater"], missed
    print(f"{count} cleared books, as opened and as settle prints them, get a yes; of their clearings changed {seen['yes']} get a yes and {seen['no']} a no, "
          f"{seen['greater']} of these with greater welfare")


if __name__ == "__main__":
    main()
