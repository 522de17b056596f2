"""Clearings drawn from a right one, which is feasible and has the greatest welfare: others that are right too, and wrong ones, most of them wrong in
one thing alone.

A change takes a book and the amounts and flows of a right clearing of it, alters these in place, and tells whether the book has a place for it."""
import itertools
import math

import solver


# ---- Gas brought round a ring of lines, which changes no pool's balance; one pool alone is its diagonal entry, two are both ways on a pair

def rings(draw, m, pools):
    """The rings over so many pools, each the list of its lines, in any order."""
    found = [list(zip(ring, ring[1:] + ring[:1])) for ring in itertools.permutations(range(m), pools)]
    return draw.sample(found, len(found))


def brought_round(flows, lines, more):
    for a, b in lines:
        flows[a][b] += more
    return True


def within_lines(draw, book, flows, pools):
    _, m, _, capacities = book
    for lines in rings(draw, m, pools):
        room = min(capacities[a][b] - flows[a][b] for a, b in lines)
        if room > 0:
            return brought_round(flows, lines, draw.choice([1, room, draw.randint(1, room)]))
    return False


def both_ways(draw, book, amounts, flows):
    return within_lines(draw, book, flows, 2)


def longer_ring(draw, book, amounts, flows):
    return any(within_lines(draw, book, flows, pools) for pools in draw.sample([3, 4], 2))


def ring_above_line(draw, book, amounts, flows):
    _, m, _, capacities = book
    lines = rings(draw, m, draw.randint(1, m))[0]
    return brought_round(flows, lines, min(capacities[a][b] - flows[a][b] for a, b in lines) + 1)


def ring_below_zero(draw, book, amounts, flows):
    _, m, _, _ = book
    lines = rings(draw, m, draw.randint(1, m))[0]
    return brought_round(flows, lines, -min(flows[a][b] for a, b in lines) - 1)


# ---- Gas taken from one bid in place of another, by the line between their pools: the first bid's used amount grows, the other's falls

def used(bid, amount):
    return bid[2] - amount if bid[2] > 0 else amount


def equal(bid, other):
    """Prices are equal only if both parts are."""
    return bid[1] == other[1] and bid[3] == other[3]


def apart_by_hundredths(bid, other):
    return bid[1] == other[1] and bid[3] != other[3]


def pairs(draw, book, amounts, flows):
    """Two bids at a time, in any order: whether their prices are equal, how much the first can take over from the other, and how much the lines can carry."""
    n, _, bids, capacities = book
    for i in draw.sample(range(n), n):
        for j in draw.sample(range(n), n):
            if i != j:
                a, b = bids[i][0] - 1, bids[j][0] - 1
                both = min(abs(bids[i][2]) - used(bids[i], amounts[i]), used(bids[j], amounts[j]))
                yield i, j, equal(bids[i], bids[j]), both, capacities[a][b] - flows[a][b] + flows[b][a] if a != b else math.inf


def taken_from(book, amounts, flows, i, j, more):
    _, _, bids, _ = book
    amounts[i] += -more if bids[i][2] > 0 else more
    amounts[j] -= -more if bids[j][2] > 0 else more
    a, b = bids[i][0] - 1, bids[j][0] - 1
    if a != b:
        back = min(more, flows[b][a])
        flows[b][a] -= back
        flows[a][b] += more - back
    return True


def taken_over(draw, book, amounts, flows, wanted):
    _, _, bids, _ = book
    for i, j, _, both, lines in pairs(draw, book, amounts, flows):
        if wanted(bids[i], bids[j]) and min(both, lines) > 0:
            return taken_from(book, amounts, flows, i, j, draw.choice([1, min(both, lines)]))
    return False


def exchanged(draw, book, amounts, flows):
    """At equal prices, so that the welfare stays: equal bids exchanged, or traded more or less where nothing is gained by it."""
    return taken_over(draw, book, amounts, flows, equal)


def dearer(draw, book, amounts, flows):
    """At other prices: traded less, traded more at a loss, or a dearer bid in place of a cheaper one. Feasible, but not the greatest welfare."""
    return taken_over(draw, book, amounts, flows, lambda bid, other: not equal(bid, other))


def dearer_by_hundredths(draw, book, amounts, flows):
    """The same at prices that are equal but for their hundredths."""
    return taken_over(draw, book, amounts, flows, apart_by_hundredths)


def beyond_size(draw, book, amounts, flows):
    """An amount one above its bid's size or one below 0, and all in balance; half the time with the same welfare, if there are bids for that."""
    for same in draw.choice([[True, False], [False]]):
        for i, j, at_equal_prices, both, lines in pairs(draw, book, amounts, flows):
            if (at_equal_prices or not same) and both < lines:
                return taken_from(book, amounts, flows, i, j, both + 1)
    return False


def above_line(draw, book, amounts, flows):
    """A flow one above its line, and all in balance; with greater welfare if it was the line that bound."""
    for i, j, _, both, lines in pairs(draw, book, amounts, flows):
        if lines < both:
            return taken_from(book, amounts, flows, i, j, lines + 1)
    return False


# ---- Single numbers, and all of them

def one_amount(draw, book, amounts, flows):
    """Half the time at price 0, if there is such a bid: then the welfare stays."""
    n, _, bids, _ = book
    free = [i for i in range(n) if bids[i][1] == bids[i][3] == 0]
    if n:
        amounts[draw.choice(free if free and draw.random() < 0.5 else range(n))] += draw.choice([-1, 1])
    return n > 0


def one_flow(draw, book, amounts, flows):
    draw.choice(flows)[draw.randrange(len(flows))] += draw.choice([-1, 1])
    return True


def far(draw, book, amounts, flows):
    """Amounts or flows at the ends of 32 bits; two of one end add up to 0 or -2 in 32 bits."""
    numbers = draw.choice([amounts, *flows])
    for k in draw.sample(range(len(numbers)), min(len(numbers), draw.randint(1, 2))):
        numbers[k] = draw.choice([solver.LEAST, solver.GREATEST])
    return bool(numbers)


def negated(draw, book, amounts, flows):
    """What would be right by size alone."""
    for numbers in draw.sample([amounts, *flows], 1 + len(flows)):
        if any(numbers):
            numbers[:] = [-x for x in numbers]
            return True
    return False


def not_carried(draw, book, amounts, flows):
    """No flows, where some are called for: sales and purchases are equal over all pools, and not in each."""
    _, m, _, _ = book
    moved = any(sum(flows[p]) != sum(row[p] for row in flows) for p in range(m))
    flows[:] = [[0] * m for _ in range(m)]
    return moved


def nothing(draw, book, amounts, flows):
    amounts[:] = [0] * len(amounts)
    flows[:] = [[0] * len(flows) for _ in flows]
    return True


def wandered(draw, book, amounts, flows):
    """Gas taken from one bid in place of another some times over, at any price: feasible, and right only by chance."""
    for _ in range(draw.randint(1, 4)):
        for i, j, _, both, lines in pairs(draw, book, amounts, flows):
            if min(both, lines) > 0:
                taken_from(book, amounts, flows, i, j, draw.randint(1, min(both, lines)))
                break
    return True


def unlike(draw, book, amounts, flows):
    """Any amounts and flows within their limits, feasible by chance alone."""
    _, m, bids, capacities = book
    amounts[:] = [draw.randint(0, abs(quantity)) for _, _, quantity, _ in bids]
    flows[:] = [[draw.randint(0, capacities[a][b]) for b in range(m)] for a in range(m)]
    return True


RIGHT = [both_ways, longer_ring, exchanged]
WRONG = [ring_above_line, ring_below_zero, dearer, dearer_by_hundredths, beyond_size, above_line, one_amount, one_flow, far, negated, not_carried]
EITHER = [nothing, wandered, unlike]


def changed(draw, change, book, amounts, flows):
    """The clearing after a change, or None where the book has no place for it."""
    amounts, flows = list(amounts), [list(row) for row in flows]
    return (amounts, flows) if change(draw, book, amounts, flows) else None


def drawn(draw, book):
    """A clearing of a book, right or not: the solver's, changed in ways that keep it right, then in one more way or not."""
    amounts, _ = solver.clear(*book)
    clearing = amounts, solver.flows_of(*book, amounts)
    for change in draw.sample(RIGHT, draw.randint(0, 2)) + draw.choice([[], [draw.choice(WRONG)], [draw.choice(EITHER)]]):
        clearing = changed(draw, change, book, *clearing) or clearing
    return clearing
