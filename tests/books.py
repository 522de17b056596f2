"""Books drawn at random, with the cases that matter made frequent: trade, lines that bind, ties, prices apart by hundredths alone, equal sales, equal
purchases, withdrawn bids, negative prices, the ends of every range, lines of 0 and 1,000,000, rings."""
from solver import BIDS, CAPACITY, GREATEST, HUNDRED, LEAST, POOLS, PRICE, QUANTITY

# prices are drawn as pairs of the whole part and the hundredths, which are in the order of the prices
HUNDREDTHS = [0, 1, 25, 50, 99]
ENDS = [(-PRICE, 0), (-PRICE, 1), (-PRICE, HUNDRED - 1), (PRICE - 1, HUNDRED - 1), (PRICE, 0)]  # of the range of prices


def line(draw, size):
    """A capacity: 0, small, near the size of the book's quantities, or great."""
    return draw.choice([0, 0, 1, draw.randint(0, size), draw.randint(0, 3 * size), draw.randint(0, CAPACITY), CAPACITY])


def ring(draw, m, size):
    """Pools joined in a ring, one way round or both, and nothing else."""
    rows = [[0] * m for _ in range(m)]
    both = draw.random() < 0.5
    for a in range(m):
        b = (a + 1) % m
        if a != b:
            rows[a][b] = line(draw, size)
            if both:
                rows[b][a] = line(draw, size)
    return rows


def lines(draw, m, size):
    kind = draw.randrange(8)
    if kind == 0:
        return [[0] * m for _ in range(m)]
    if kind == 1:
        return [[0 if a == b else CAPACITY for b in range(m)] for a in range(m)]
    if kind == 2:
        return ring(draw, m, size)
    if kind < 6:
        return [[0 if a == b else draw.randint(0, size) for b in range(m)] for a in range(m)]
    return [[0 if a == b else line(draw, size) for b in range(m)] for a in range(m)]


def price(draw, wholes):
    whole = draw.choice(wholes)
    return whole, 0 if whole == PRICE else draw.choice(HUNDREDTHS + [draw.randrange(HUNDRED)])


def bid(draw, m, prices, quantities, apart):
    """With apart, a sale's price is of the lower half of the prices, which are sorted, and a purchase's of the upper half."""
    pool = draw.randint(1, m)
    quantity = draw.choice(quantities) if draw.random() < 0.9 else draw.choice([0, QUANTITY, -QUANTITY])
    if apart:
        half = len(prices) // 2
        prices = prices[half:] if quantity > 0 else prices[:half + 1]
    whole, hundredths = draw.choice(prices) if draw.random() < 0.9 else draw.choice(ENDS)
    return pool, whole, quantity, hundredths


def sound(draw, n=None, m=None):
    m = draw.randint(1, POOLS) if m is None else m
    n = draw.choice([draw.randint(0, 3), draw.randint(4, 12), draw.randint(0, BIDS), BIDS]) if n is None else n
    few = [draw.randint(-PRICE, PRICE) for _ in range(draw.randint(1, 4))]
    many = [draw.randint(-PRICE, PRICE) for _ in range(BIDS)]
    wholes = draw.choice([few, many, [-2, -1, 0, 1, 2]])
    prices = sorted(price(draw, wholes) for _ in range(draw.choice([2, 6, BIDS])))
    quantities = draw.choice([[draw.randint(-9, 9) for _ in range(6)], [draw.randint(-QUANTITY, QUANTITY) for _ in range(BIDS)]])
    apart = draw.random() < 0.5
    bids = [bid(draw, m, prices, quantities, apart) for _ in range(n)]
    return n, m, bids, lines(draw, m, max(map(abs, quantities)))


def spoiled(draw, m, bid):
    """A bid with one to three of its numbers out of range: several show which is told first. Or its price is above 30,000.00 by the hundredths alone."""
    values = list(bid)
    beyond = [[0, m + 1, -1], [PRICE + 1, -PRICE - 1], [QUANTITY + 1, -QUANTITY - 1], [-1, HUNDRED]]
    for k in draw.sample(range(len(beyond)), draw.choice([1, 1, 2, 3])):
        values[k] = draw.choice(beyond[k] + [GREATEST, LEAST])
    if draw.random() < 0.15:
        values[1], values[3] = PRICE, draw.choice([1, 50, HUNDRED - 1])
    return tuple(values)


def faulty(draw):
    """A sound book with one or two faults, or counts beyond their limits."""
    n, m, bids, capacities = sound(draw)
    if draw.random() < 0.15:
        return draw.choice([(BIDS + 1, m), (draw.randint(65, 10**6), draw.randint(0, 9)), (n, 0), (n, POOLS + 1), (n, 10**6)]) + ([], [])
    for _ in range(draw.randint(1, 2)):
        if n and draw.random() < 0.6:
            i = draw.randrange(n)
            bids[i] = spoiled(draw, m, bids[i])
        else:
            a, b = draw.randrange(m), draw.randrange(m)
            capacities[a][b] = draw.choice([-1, CAPACITY + 1, 1, GREATEST, LEAST])
    return n, m, bids, capacities


def widened(bids):
    """Bids of three numbers, read with hundredths 0."""
    return [(*bid, 0) for bid in bids]


def text(n, m, bids, capacities):
    numbers = [n, m] + [v for b in bids for v in b] + [v for row in capacities for v in row]
    return " ".join(map(str, numbers)) + "\n"
