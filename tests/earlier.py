"""Books of three numbers a bid, as they were refused and cleared before request 5 of document 02: pool, price and quantity, and no hundredths known.

Kept as it stood: the same search for paths as tests/solver.py, which it is held against, with the refusals and the merit order of then. `refusal`
gives the number and place, or None, `accepted` the accepted amounts."""
from collections import deque

BIDS, POOLS, PRICE, QUANTITY, CAPACITY = 64, 4, 30_000, 65_535, 1_000_000


def refusal(n, m, bids, capacities):
    if n > BIDS:
        return 1, 0
    if m == 0 or m > POOLS:
        return 2, 0
    for number, (pool, price, quantity) in enumerate(bids, 1):
        if not 1 <= pool <= m:
            return 4, number
        if not -PRICE <= price <= PRICE:
            return 5, number
        if not -QUANTITY <= quantity <= QUANTITY:
            return 6, number
    for a in range(m):
        for b in range(m):
            entry = capacities[a][b]
            if a == b:
                if entry != 0:
                    return 8, a * m + b + 1
            elif not 0 <= entry <= CAPACITY:
                return 7, a * m + b + 1
    return None


def merit_order(bids):
    """Indices of the bids: lower price first, sales before purchases, sales by lower number, purchases by higher number."""
    def rank(i):
        _, price, quantity = bids[i]
        purchase = quantity > 0
        return price, purchase, -i if purchase else i
    return sorted(range(len(bids)), key=rank)


class Network:
    """Residual capacities between nodes, and augmenting paths, shortest first."""

    def __init__(self, nodes):
        self.nodes = nodes
        self.rest = [[0] * nodes for _ in range(nodes)]

    def add(self, a, b, capacity):
        self.rest[a][b] += capacity

    def augment(self, source, sink):
        total = 0
        while True:
            came = [None] * self.nodes
            came[source] = source
            queue = deque([source])
            while queue and came[sink] is None:
                a = queue.popleft()
                for b in range(self.nodes):
                    if came[b] is None and self.rest[a][b] > 0:
                        came[b] = a
                        queue.append(b)
            if came[sink] is None:
                return total
            step, b = None, sink
            while b != source:
                a = came[b]
                step = self.rest[a][b] if step is None else min(step, self.rest[a][b])
                b = a
            b = sink
            while b != source:
                a = came[b]
                self.rest[a][b] -= step
                self.rest[b][a] += step
                b = a
            total += step


def used_amounts(n, m, bids, capacities):
    """The greatest used amounts in merit order: each bid in turn brings as much as still reaches the purchases' sizes."""
    source, sink = m, m + 1
    network = Network(m + 2)
    for pool, _, quantity in bids:
        if quantity > 0:
            network.add(pool - 1, sink, quantity)
    for a in range(m):
        for b in range(m):
            network.add(a, b, capacities[a][b])
    used = [0] * n
    for i in merit_order(bids):
        pool, _, quantity = bids[i]
        network.add(source, pool - 1, abs(quantity))
        used[i] = network.augment(source, sink)
        network.rest[source][pool - 1] = 0
    return used


def accepted(n, m, bids, capacities):
    return [q - x if q > 0 else x for (_, _, q), x in zip(bids, used_amounts(n, m, bids, capacities))]
