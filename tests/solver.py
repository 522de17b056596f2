"""The best clearing of a book, written apart from the unit: by augmenting paths, with no cuts and no plan.

A book is (n, m, bids, capacities): bids a list of (pool, price, quantity, hundredths), pools from 1, capacities an m by m list of rows.
`refusal` gives document 01's number and place, or None. `clear` gives accepted amounts and pool prices, by request 4 of document 02, `flows_of`
some flows that go with such amounts. `right` tells whether a clearing from elsewhere is feasible and has the greatest welfare. Prices and welfare
are whole hundredths, by request 5.
"""
from collections import deque

BIDS, POOLS, PRICE, QUANTITY, CAPACITY = 64, 4, 30_000, 65_535, 1_000_000
HUNDRED = 100  # hundredths make one
LEAST, GREATEST = -2**31, 2**31 - 1  # of signed 32 bits
BID_NUMBERS, POOL_RESULTS = 4, 3  # pool, price, quantity, hundredths; price, hundredths, presence


def limit_price(bid):
    """A bid's limit price: the hundredths are added to the price, below 0 too, so that -3 with 25 is -275."""
    _, price, _, hundredths = bid
    return HUNDRED * price + hundredths


def priced(price, hundredths):
    """Whether both parts are in range, and together not above 30,000.00."""
    return -PRICE <= price <= PRICE and 0 <= hundredths < HUNDRED and (price, hundredths) <= (PRICE, 0)


def refusal(n, m, bids, capacities):
    if n > BIDS:
        return 1, 0
    if m == 0 or m > POOLS:
        return 2, 0
    for number, (pool, price, quantity, hundredths) in enumerate(bids, 1):
        if not 1 <= pool <= m:
            return 4, number
        if not priced(price, hundredths):
            return 5, number
        if not -QUANTITY <= quantity <= QUANTITY:
            return 6, number
    for a in range(m):
        for b in range(m):
            entry = capacities[a][b]
            if a == b:
                if entry != 0:
                    return 8, a * m + b + 1
            elif not 0 <= entry <= CAPACITY:
                return 7, a * m + b + 1
    return None


def merit_order(bids):
    """Indices of the bids: lower price first, sales before purchases, sales by lower number, purchases by higher number."""
    def rank(i):
        purchase = bids[i][2] > 0
        return limit_price(bids[i]), purchase, -i if purchase else i
    return sorted(range(len(bids)), key=rank)


class Network:
    """Residual capacities between nodes, and augmenting paths, shortest first."""

    def __init__(self, nodes):
        self.nodes = nodes
        self.rest = [[0] * nodes for _ in range(nodes)]

    def add(self, a, b, capacity):
        self.rest[a][b] += capacity

    def augment(self, source, sink):
        total = 0
        while True:
            came = [None] * self.nodes
            came[source] = source
            queue = deque([source])
            while queue and came[sink] is None:
                a = queue.popleft()
                for b in range(self.nodes):
                    if came[b] is None and self.rest[a][b] > 0:
                        came[b] = a
                        queue.append(b)
            if came[sink] is None:
                return total
            step, b = None, sink
            while b != source:
                a = came[b]
                step = self.rest[a][b] if step is None else min(step, self.rest[a][b])
                b = a
            b = sink
            while b != source:
                a = came[b]
                self.rest[a][b] -= step
                self.rest[b][a] += step
                b = a
            total += step


def used_amounts(n, m, bids, capacities):
    """The greatest used amounts in merit order: each bid in turn brings as much as still reaches the purchases' sizes; and the residual capacities that
    are left at the end."""
    source, sink = m, m + 1
    network = Network(m + 2)
    for pool, _, quantity, _ in bids:
        if quantity > 0:
            network.add(pool - 1, sink, quantity)
    for a in range(m):
        for b in range(m):
            network.add(a, b, capacities[a][b])
    used = [0] * n
    for i in merit_order(bids):
        pool, _, quantity, _ = bids[i]
        network.add(source, pool - 1, abs(quantity))
        used[i] = network.augment(source, sink)
        network.rest[source][pool - 1] = 0
    return used, network.rest


def reaching(m, rest, p):
    """The pools from which pool p can be reached, itself included, found from p backwards. From a to b more could be brought exactly where line a to b is
    not full or line b to a carries something, since less can be sent along it: where a residual capacity is left."""
    found, queue = {p}, deque([p])
    while queue:
        b = queue.popleft()
        for a in range(m):
            if a not in found and rest[a][b] > 0:
                found.add(a)
                queue.append(a)
    return found


def prices_of(m, bids, used, rest):
    """The price of each pool, at which one more unit could be had there: the least among the bids with something left in the pools that reach it."""
    prices = []
    for p in range(m):
        pools = reaching(m, rest, p)
        prices.append(min((limit_price(bid) for bid, x in zip(bids, used) if x < abs(bid[2]) and bid[0] - 1 in pools), default=None))
    return prices


def clear(n, m, bids, capacities):
    used, rest = used_amounts(n, m, bids, capacities)
    accepted = [q - x if q > 0 else x for (_, _, q, _), x in zip(bids, used)]
    return accepted, prices_of(m, bids, used, rest)


def welfare(bids, accepted):
    return sum(limit_price(bid) * (x if bid[2] > 0 else -x) for bid, x in zip(bids, accepted))


def sales_welfare(bids, accepted):
    """What the sales alone take, as it counts in the welfare: the running sum after the last sale, if all sales are summed first."""
    total = 0
    for bid, x in zip(bids, accepted):
        if bid[2] <= 0:
            total -= limit_price(bid) * x
    return total


def flows_of(n, m, bids, capacities, accepted):
    """Some flows with which accepted amounts are feasible, no pair of pools shipping both ways; None if there are none."""
    source, sink = m, m + 1
    network = Network(m + 2)
    more = [0] * m  # sold in the pool beyond what is bought there
    for (pool, _, q, _), x in zip(bids, accepted):
        more[pool - 1] += -x if q > 0 else x
    for p in range(m):
        network.add(source, p, max(more[p], 0))
        network.add(p, sink, max(-more[p], 0))
    for a in range(m):
        for b in range(m):
            network.add(a, b, capacities[a][b])
    placed = network.augment(source, sink)
    if sum(more) or placed != sum(max(x, 0) for x in more):
        return None
    return [[max(capacities[a][b] - network.rest[a][b], 0) for b in range(m)] for a in range(m)]


def infeasible(n, m, bids, capacities, accepted, flows):
    """What keeps a clearing from being feasible; an empty list if nothing does."""
    found = []
    for i, ((_, _, q, _), x) in enumerate(zip(bids, accepted)):
        if not 0 <= x <= abs(q):
            found.append(f"bid {i + 1} accepts {x}")
    for a in range(m):
        for b in range(m):
            if not 0 <= flows[a][b] <= capacities[a][b]:
                found.append(f"line {a + 1} {b + 1} carries {flows[a][b]}")
    for p in range(m):
        sales = sum(x for (pool, _, q, _), x in zip(bids, accepted) if pool == p + 1 and q <= 0)
        purchases = sum(x for (pool, _, q, _), x in zip(bids, accepted) if pool == p + 1 and q > 0)
        inflow = sum(flows[a][p] for a in range(m))
        outflow = sum(flows[p][b] for b in range(m))
        if sales + inflow != purchases + outflow:
            found.append(f"pool {p + 1} is out of balance")
    return found


def faults(n, m, bids, capacities, accepted, flows):
    """What keeps a clearing from being feasible with flows that never ship both ways; an empty list if nothing does."""
    both = [(a, b) for a in range(m) for b in range(a) if flows[a][b] > 0 and flows[b][a] > 0]
    return infeasible(n, m, bids, capacities, accepted, flows) + [f"lines {b + 1} {a + 1} ship both ways" for a, b in both]


def right(n, m, bids, capacities, accepted, flows):
    """Whether a clearing is feasible, both ways on a pair or not, and no feasible one has greater welfare."""
    if infeasible(n, m, bids, capacities, accepted, flows):
        return False
    return welfare(bids, accepted) == welfare(bids, clear(n, m, bids, capacities)[0])
