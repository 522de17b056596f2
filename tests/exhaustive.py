"""Tries every clearing of small books, and holds tests/solver.py to document 01's own words: greatest used amounts in
dictionary order along the merit order, and greatest welfare; and to its examples. The welfare is held to request 3 of document 02, summed sales
first, and a further clearing of each book, right or wrong, to request 2: feasible, and none has greater welfare. The prices are held to request 4:
its words give them by all the flows that make the best clearing's amounts feasible, the same by each; and they are what one more unit costs. Prices
and welfare are whole hundredths, by request 5; and each book with hundredths 0 is cleared as tests/earlier.py cleared it with three numbers a bid.
One command: python3 tests/exhaustive.py [BOOKS] [SEED]"""
import collections
import itertools

import arguments
import clearings
import earlier
import solver
from books import ENDS, HUNDREDTHS, widened

# document 01's examples 1 to 7 and the book of its costly mistakes, with hundredths 0: m, lines, bids, and as much of the result as it prints, with the
# prices by request 4, and welfare and prices as whole hundredths
EXAMPLES = [
    (1, {}, [(1, 20, -10, 0), (1, 30, 6, 0)], {"accepted": [6, 6], "welfare": 6_000, "prices": [2_000]}),
    (2, {(1, 2): 3}, [(1, 20, -10, 0), (2, 30, 6, 0)], {"accepted": [3, 3], "welfare": 3_000, "prices": [2_000, 3_000]}),
    (1, {}, [(1, 25, -5, 0), (1, 25, 5, 0)], {"accepted": [5, 5], "welfare": 0, "prices": [2_500]}),
    (1, {}, [(1, 10, -5, 0), (1, 30, 4, 0), (1, 30, 4, 0)], {"accepted": [5, 4, 1], "prices": [3_000]}),
    (1, {}, [(1, -10, -4, 0), (1, -20, 4, 0)], {"accepted": [0, 0], "prices": [-1_000]}),
    (3, {(1, 2): 5, (2, 3): 2}, [(1, 10, -9, 0), (2, 15, 4, 0), (3, 40, 6, 0)],
     {"accepted": [5, 3, 2], "welfare": 7_500, "prices": [1_000, 1_500, 4_000]}),
    (2, {(1, 2): 7, (2, 1): 7}, [], {"accepted": [], "welfare": 0, "prices": [None, None]}),
    (4, {(1, 2): 4, (2, 4): 4, (1, 3): 4, (3, 4): 4}, [(1, 10, -4, 0), (2, 20, -4, 0), (4, 30, 8, 0)],
     {"accepted": [4, 4, 8], "prices": [3_000, 3_000, 3_000, 3_000]}),
]

# further books for the prices, worked out by hand in the same form
PRICED = [
    # line 1 to 2 has capacity 0, which is full, and line 2 to 1 is open: gas can be had from pool 2 in pool 1, and not the other way
    (2, {(2, 1): 5}, [(1, 20, -4, 0), (2, 10, -4, 0)], {"accepted": [0, 0], "prices": [1_000, 1_000]}),
    (2, {(2, 1): 5}, [(1, 10, -4, 0), (2, 20, -4, 0)], {"accepted": [0, 0], "prices": [1_000, 2_000]}),
    # the same with gas on the full line: only pool 1 can take from pool 2, and finds nothing cheaper there
    (2, {(1, 2): 3, (2, 1): 4}, [(1, 20, -9, 0), (2, 30, -1, 0), (2, 40, 6, 0)], {"accepted": [3, 1, 4], "prices": [2_000, 4_000]}),
    # the sale is used up, and a purchase in another pool sets the price, back along the line that serves it
    (2, {(1, 2): 5}, [(1, 10, -3, 0), (2, 15, 8, 0)], {"accepted": [3, 3], "prices": [1_500, 1_500]}),
    # three lines in a row, in every order of the pools: the cheap sale is had up to the other end, although the pools there have sales of their own
    *((4, {(a, b): 5, (b, c): 5, (c, d): 5}, [(a, 10, -9, 0), (b, 20, -1, 0), (c, 20, -1, 0), (d, 20, -1, 0), (d, 40, 3, 0)],
       {"accepted": [3, 0, 0, 0, 3], "prices": [1_000, 1_000, 1_000, 1_000]}) for a, b, c, d in itertools.permutations(range(1, 5))),
    # such a row from pool 3 by 1 and 4 to 2, with the middle line full and the dearer sale behind it used up
    (4, {(3, 1): 9, (1, 4): 3, (4, 2): 9}, [(3, 10, -9, 0), (4, 20, -2, 0), (2, 40, 6, 0)],
     {"accepted": [3, 2, 5], "prices": [1_000, 4_000, 1_000, 4_000]}),
    # the same with the only sale used up: the purchase sets all prices, back along three lines, two of which are full
    (4, {(3, 1): 3, (1, 4): 9, (4, 2): 3}, [(3, 10, -3, 0), (2, 40, 6, 0)], {"accepted": [3, 3], "prices": [4_000, 4_000, 4_000, 4_000]}),
    # the same with no gas on the lines: nothing can be had at their upper end
    (4, {(3, 1): 5, (1, 4): 5, (4, 2): 5}, [(2, 20, -1, 0), (4, 30, -1, 0)], {"accepted": [0, 0], "prices": [None, 2_000, None, 3_000]}),
    # lines both ways: the same amounts are feasible with flows both ways on the pair, and then one of the lines may be full
    (2, {(1, 2): 5, (2, 1): 3}, [(1, 10, -2, 0), (2, 40, -1, 0), (2, 30, 2, 0)], {"accepted": [2, 0, 2], "prices": [3_000, 3_000]}),
    (2, {(1, 2): 3, (2, 1): 2}, [(1, 10, -9, 0), (2, 40, -1, 0), (2, 30, 2, 0)], {"accepted": [2, 0, 2], "prices": [1_000, 1_000]}),
    # all at one price
    (2, {(1, 2): 4}, [(1, 25, -5, 0), (2, 25, -5, 0), (2, 25, 5, 0)], {"accepted": [4, 1, 5], "prices": [2_500, 2_500]}),
    # nothing is left of the cheaper bids: a withdrawn one, a sale accepted in full, a purchase not accepted
    (1, {}, [(1, -5, 0, 0), (1, 5, -6, 0), (1, 10, 4, 0), (1, 20, -9, 0), (1, 30, 8, 0)], {"accepted": [0, 6, 0, 2, 8], "prices": [2_000]}),
    # the least and the greatest price, and 0, which is a price
    (1, {}, [(1, -30_000, -1, 0)], {"accepted": [0], "prices": [-3_000_000]}),
    (2, {(1, 2): 1}, [(1, 30_000, -1, 0), (2, -30_000, 1, 0)], {"accepted": [0, 0], "prices": [3_000_000, 3_000_000]}),
    (2, {(1, 2): 1}, [(1, 0, -2, 0), (2, 30_000, 1, 0)], {"accepted": [1, 1], "prices": [0, 3_000_000]}),
    # a withdrawn bid alone
    (2, {(1, 2): 1, (2, 1): 1}, [(1, 20, 0, 0)], {"accepted": [0], "prices": [None, None]}),
]

# books for the hundredths, worked out by hand in the same form
PARTED = [
    # two offers at 25 whose owners meant 25.40 and 25.10: the cheaper one first, though it was lodged later; two that did mean the same, by number
    (1, {}, [(1, 25, -5, 40), (1, 25, -5, 10), (1, 30, 6, 0)], {"accepted": [1, 5, 6], "welfare": 2_910, "prices": [2_540]}),
    (1, {}, [(1, 25, -5, 40), (1, 25, -5, 40), (1, 30, 6, 0)], {"accepted": [5, 1, 6], "welfare": 2_760, "prices": [2_540]}),
    # two purchases: the dearer one first; at equal parts the lower number
    (1, {}, [(1, 25, -5, 0), (1, 30, 4, 10), (1, 30, 4, 40)], {"accepted": [5, 1, 4], "welfare": 2_670, "prices": [3_010]}),
    (1, {}, [(1, 25, -5, 0), (1, 30, 4, 40), (1, 30, 4, 40)], {"accepted": [5, 4, 1], "welfare": 2_700, "prices": [3_040]}),
    # equal whole parts: a hundredth too little and nothing is traded, none or one more and all of it
    (1, {}, [(1, 25, -5, 10), (1, 25, 5, 9)], {"accepted": [0, 0], "welfare": 0, "prices": [2_510]}),
    (1, {}, [(1, 25, -5, 10), (1, 25, 5, 10)], {"accepted": [5, 5], "welfare": 0, "prices": [2_510]}),
    (1, {}, [(1, 25, -5, 10), (1, 25, 5, 11)], {"accepted": [5, 5], "welfare": 5, "prices": [2_511]}),
    # below 0 the hundredths are added too: -3 with 25 is -2.75, dearer than -3 with 0 and cheaper than -2 with 0
    (1, {}, [(1, -3, -4, 25)], {"accepted": [0], "prices": [-275]}),
    (1, {}, [(1, -3, -4, 25), (1, -3, -4, 0), (1, -2, 5, 0)], {"accepted": [1, 4, 5], "welfare": 475, "prices": [-275]}),
    (1, {}, [(1, -2, -4, 0), (1, -3, -4, 99), (1, -2, 5, 50)], {"accepted": [1, 4, 5], "welfare": 254, "prices": [-200]}),
    # beside 0: -0.50, 0.00, 0.50, and -0.01, which trades with what is bought at 0.00
    (2, {}, [(1, -1, -2, 50), (2, 0, -2, 50)], {"accepted": [0, 0], "prices": [-50, 50]}),
    (2, {(1, 2): 1}, [(1, -1, -2, 99), (2, 0, 2, 0)], {"accepted": [1, 1], "welfare": 1, "prices": [-1, 0]}),
    # the hundredths are those of the price's own bid: greater ones stand at lower whole parts, in other pools, and at bids used up
    (2, {(1, 2): 9}, [(1, 7, -3, 99), (1, 8, -9, 1), (2, 8, -9, 98), (2, 9, 5, 97)], {"accepted": [3, 2, 0, 5], "prices": [801, 801]}),
    (2, {(2, 1): 1}, [(1, 8, -9, 2), (2, 8, -9, 1)], {"accepted": [0, 0], "prices": [801, 801]}),
    (2, {(1, 2): 1}, [(1, 8, -9, 2), (2, 8, -9, 1)], {"accepted": [0, 0], "prices": [802, 801]}),
    # some bids have the least price, in two pools
    (2, {(1, 2): 9}, [(1, -8, -9, 2), (2, -8, -9, 2), (2, -8, 3, 2)], {"accepted": [3, 0, 3], "welfare": 0, "prices": [-798, -798]}),
    # both ends of the range: the hundredths next to them
    (1, {}, [(1, -30_000, -1, 1), (1, -30_000, 1, 0)], {"accepted": [0, 0], "prices": [-2_999_999]}),
    (1, {}, [(1, -30_000, -1, 99), (1, -29_999, 2, 0)], {"accepted": [1, 1], "welfare": 1, "prices": [-2_999_900]}),
    (1, {}, [(1, 29_999, -2, 99), (1, 30_000, 1, 0)], {"accepted": [1, 1], "welfare": 1, "prices": [2_999_999]}),
    (1, {}, [(1, 30_000, -2, 0), (1, 29_999, 1, 99)], {"accepted": [0, 0], "prices": [3_000_000]}),
    # a price of 0.00 beside a pool that has none
    (2, {}, [(1, 0, -1, 0), (2, 7, 0, 77)], {"accepted": [0, 0], "prices": [0, None]}),
]


def stored():
    """The books of EXAMPLES, PRICED and PARTED, and what is known of each."""
    for m, lines, bids, printed in EXAMPLES + PRICED + PARTED:
        yield (len(bids), m, bids, [[lines.get((a, b), 0) for b in range(1, m + 1)] for a in range(1, m + 1)]), printed


def precedes(bids, i, j):
    """Whether bid i comes before bid j in the merit order."""
    (_, price, quantity, hundredths), (_, other_price, other_quantity, other_hundredths) = bids[i], bids[j]
    purchase, other_purchase = quantity > 0, other_quantity > 0
    if price != other_price:
        return price < other_price  # lower limit price first
    if hundredths != other_hundredths:
        return hundredths < other_hundredths  # which are added to the price
    if purchase != other_purchase:
        return other_purchase  # at equal price sales before purchases
    if not purchase:
        return i < j  # equal sales by lower bid number
    return i > j  # equal purchases by higher bid number


def price(bid):
    """A bid's limit price in hundredths."""
    _, whole, _, hundredths = bid
    return 100 * whole + hundredths


def welfare(bids, accepted):
    """The sum of price x accepted over purchases less that over sales."""
    purchases = sum(price(bid) * x for bid, x in zip(bids, accepted) if bid[2] > 0)
    return purchases - sum(price(bid) * x for bid, x in zip(bids, accepted) if bid[2] <= 0)


def running_sums(bids, accepted):
    """The sums before and after each sale and then after each purchase, by bid number; and how many sales there are."""
    sales = [-price(bid) * x for bid, x in zip(bids, accepted) if bid[2] <= 0]
    purchases = [price(bid) * x for bid, x in zip(bids, accepted) if bid[2] > 0]
    return list(itertools.accumulate(sales + purchases, initial=0)), len(sales)


def steps(m, capacities, flows):
    """One step goes from a to b where line a to b is not full or line b to a carries something."""
    return [[flows[a][b] < capacities[a][b] or flows[b][a] > 0 for b in range(m)] for a in range(m)]


def prices(n, m, bids, capacities, accepted, flows):
    """Each pool's price, None if it is missing: the least limit price among bids with used amount below their size, in a pool from which the pool in
    question can be reached."""
    step = steps(m, capacities, flows)
    reached = [{p} for p in range(m)]  # from where each pool can be reached: a pool reaches itself, then what reaches it by one step more
    for _ in range(m):
        reached = [reached[b].union(*(reached[a] for a in range(m) if step[a][b])) for b in range(m)]
    used = [quantity - x if quantity > 0 else x for (_, _, quantity, _), x in zip(bids, accepted)]
    left = [bid for bid, x in zip(bids, used) if x < abs(bid[2])]
    return [min((price(bid) for bid in left if bid[0] - 1 in reached[p]), default=None) for p in range(m)]


def imported(n, m, bids, accepted, found):
    """How many of some prices come from another pool: with no lines they would be others."""
    none = [[0] * m for _ in range(m)]
    return sum(price != own for price, own in zip(found, prices(n, m, bids, none, accepted, none)))


def feasible(n, m, bids, capacities, accepted, flows):
    """Amounts between 0 and the size of the quantity, flows between 0 and the capacity, and each pool in balance."""
    if any(x not in range(abs(quantity) + 1) for (_, _, quantity, _), x in zip(bids, accepted)):
        return False
    if any(flows[a][b] not in range(capacities[a][b] + 1) for a in range(m) for b in range(m)):
        return False
    more = [sum(row[p] for row in flows) - sum(flows[p]) for p in range(m)]  # that comes into the pool than goes out of it
    for (pool, _, quantity, _), x in zip(bids, accepted):
        more[pool - 1] += -x if quantity > 0 else x
    return not any(more)


def carrying(m, capacities):
    """All flows that the lines can carry, both ways on a pair too: for what they bring each pool more than it sends, the flows that do so."""
    lines = [(a, b) for a in range(m) for b in range(m) if capacities[a][b] > 0]
    found = collections.defaultdict(list)
    for loads in itertools.product(*(range(capacities[a][b] + 1) for a, b in lines)):
        flows, brought = [[0] * m for _ in range(m)], [0] * m
        for (a, b), load in zip(lines, loads):
            flows[a][b] = load
            brought[a] -= load
            brought[b] += load
        found[tuple(brought)].append(flows)
    return found


def best(n, m, bids, capacities):
    """The amounts of the best clearing, the greatest welfare, and all flows that make these amounts feasible."""
    order = sorted(range(n), key=lambda i: sum(precedes(bids, j, i) for j in range(n)))
    carried = carrying(m, capacities)
    greatest, most = None, None
    for accepted in itertools.product(*(range(abs(q) + 1) for _, _, q, _ in bids)):
        need = [0] * m
        for (pool, _, q, _), x in zip(bids, accepted):
            need[pool - 1] += x if q > 0 else -x
        if tuple(need) not in carried:
            continue
        used = [bids[i][2] - accepted[i] if bids[i][2] > 0 else accepted[i] for i in order]
        if greatest is None or used > greatest[0]:
            greatest = used, list(accepted), carried[tuple(need)]
        w = welfare(bids, accepted)
        most = w if most is None else max(most, w)
    return greatest[1], most, greatest[2]


def one_more(n, m, bids, capacities, most, p):
    """What one more unit costs in pool p, where the greatest welfare is known: what is lost of it if the unit is bought there at a price above all others.
    None if it can't be had."""
    above = (p + 1, solver.PRICE + 1, 1, 0)
    wanted = bids + [above]
    gained = solver.welfare(wanted, solver.clear(n + 1, m, wanted, capacities)[0]) - most
    return price(above) - gained if gained else None


def small(draw):
    """Few bids, small numbers; few hundredths, so that prices are equal, or apart by these alone; the prices of the two sides apart in some books, a few
    at the ends of the range; at most six lines."""
    m, n, apart = draw.choice([1, 2, 3, 3, 4]), draw.randint(0, 6), draw.randint(0, 2)
    few, parts = draw.choice([0, 0, 1, 2]), draw.sample(HUNDREDTHS + [draw.randrange(100)], draw.randint(1, 3))
    bids = []
    for _ in range(n):
        quantity = draw.randint(-3, 3)
        whole, hundredths = draw.randint(-few, few) + (apart if quantity > 0 else -apart), draw.choice(parts)
        if draw.random() < 0.05:
            whole, hundredths = draw.choice(ENDS)
        bids.append((draw.randint(1, m), whole, quantity, hundredths))
    capacities = [[0] * m for _ in range(m)]
    pairs = [(a, b) for a in range(m) for b in range(m) if a != b]
    for a, b in draw.sample(pairs, min(len(pairs), draw.randint(0, 6))):
        capacities[a][b] = draw.randint(1, 2)
    return n, m, bids, capacities


def solved(n, m, bids, capacities):
    """Tries every clearing of a book and holds the solver to them. What it gives, and with which flows the amounts are feasible."""
    accepted, found = solver.clear(n, m, bids, capacities)
    merited, most, carried = best(n, m, bids, capacities)
    assert accepted == merited, (n, m, bids, capacities, accepted, merited)
    assert solver.welfare(bids, accepted) == welfare(bids, accepted) == most, (n, m, bids, capacities, most)
    own = solver.flows_of(n, m, bids, capacities, accepted)
    assert own in carried and feasible(n, m, bids, capacities, accepted, own), (n, m, bids, capacities, accepted, own)
    for flows in carried:
        assert prices(n, m, bids, capacities, accepted, flows) == found, (n, m, bids, capacities, accepted, found, flows)
    assert found == [one_more(n, m, bids, capacities, most, p) for p in range(m)], (n, m, bids, capacities, found)
    sums, sales = running_sums(bids, accepted)
    assert sums[sales] == solver.sales_welfare(bids, accepted) and sums[-1] == most, (bids, accepted, sums, most)
    return {"accepted": accepted, "welfare": most, "prices": found}, carried


def main():
    books, draw = arguments.taken(0, 2000)
    for book, printed in stored():
        found, _ = solved(*book)
        assert printed == {part: found[part] for part in printed}, (book, found, printed)
    seen = collections.Counter()
    for _ in range(books):
        n, m, bids, capacities = small(draw)
        found, carried = solved(n, m, bids, capacities)
        seen["traded"] += any(found["accepted"])
        seen["several"] += len(carried) > 1
        seen["stepped"] += any(steps(m, capacities, flows) != steps(m, capacities, carried[0]) for flows in carried)
        seen["prices"] += m - found["prices"].count(None)
        seen["imported"] += imported(n, m, bids, found["accepted"], found["prices"])
        three = [bid[:3] for bid in bids]
        before = earlier.accepted(n, m, three, capacities)
        assert before == solver.clear(n, m, widened(three), capacities)[0], (n, m, three, capacities, before)
        seen["decided"] += found["accepted"] != before
        amounts, flows = clearings.drawn(draw, (n, m, bids, capacities))
        yes = feasible(n, m, bids, capacities, amounts, flows) and welfare(bids, amounts) == found["welfare"]
        assert solver.right(n, m, bids, capacities, amounts, flows) == yes, (n, m, bids, capacities, amounts, flows, yes)
        seen["right"] += yes
    assert 0 < seen["right"] < books
    assert seen["several"] > books / 4 and seen["stepped"] > books / 20 and seen["imported"] > seen["prices"] / 5, seen
    assert seen["decided"] > books / 30, seen
    print(f"document 01's {len(EXAMPLES)} books as it prints them, {len(PRICED)} for the prices and {len(PARTED)} for the hundredths; {books} small books, "
          f"of which {seen['traded']} trade and {seen['decided']} are cleared otherwise than with hundredths 0: every clearing tried, all as solved; "
          f"{seen['several']} are feasible with several flows, {seen['stepped']} of them with other steps between pools, and the prices are the same by each; "
          f"of {seen['prices']} prices {seen['imported']} come from another pool; a further clearing of each, {seen['right']} of them right, told as tried")


if __name__ == "__main__":
    main()
