"""The machine and the plan's bytes, written apart from the unit from document 01's words; and the sheet by columns, from document 02's, request 6."""
import functools

from solver import BID_NUMBERS, HUNDRED, POOL_RESULTS

P, CELLS = 2_147_483_647, 4_096


class Refused(Exception):
    pass


def number(data, at, start):
    value = 0
    for k in range(5):
        if at + k >= len(data):
            raise Refused(9, start)
        byte = data[at + k]
        value += (byte & 127) << (7 * k)
        if byte < 128:
            if value >= 2**32 or (k > 0 and byte == 0):
                raise Refused(11, start)
            return value, at + k + 1
    raise Refused(11, start)


def order(data, start):
    kind, at = number(data, start, start)
    if kind > 5:
        raise Refused(10, start)
    limits = [CELLS, P] if kind == 0 else [CELLS] * 3
    parts = [kind]
    for limit in limits:
        value, at = number(data, at, start)
        if value >= limit:
            raise Refused(12, start)
        parts.append(value)
    return parts, at


def orders(data):
    at, found = 0, []
    while at < len(data):
        parts, at = order(data, at)
        found.append(parts)
    return found


def signed(x):
    return x - P if x > 1_073_741_823 else x


def run(found, cells):
    for parts in found:
        if parts[0] == 0:
            cells[parts[1]] = parts[2]
            continue
        kind, d, a, b = parts
        x, y = cells[a], cells[b]
        if kind == 1:
            cells[d] = (x + y) % P
        elif kind == 2:
            cells[d] = (x - y) % P
        elif kind == 3:
            cells[d] = x * y % P
        else:
            cells[d] = int(signed(x) < signed(y) if kind == 4 else x == y)
    return cells


def groups(value):
    out = []
    while value >= 128:
        out.append(value % 128 + 128)
        value //= 128
    return out + [value]


@functools.cache
def grouped(value):
    return bytes(groups(value))


def encoded(parts):
    return b"".join(map(grouped, parts))


def sheet(values):
    return [v % P for v in values] + [0] * (CELLS - len(values))


def inputs(bids, capacities):
    return [v for b in bids for v in b] + [v for row in capacities for v in row]


def sealed(bids, capacities):
    return sheet(inputs(bids, capacities))


# the numbers of a bid as they stand in its row; by columns "all pools, then all prices, hundredths, quantities" (request 6 of document 02)
ROW, COLUMNS = ["pool", "price", "quantity", "hundredths"], ["pool", "price", "hundredths", "quantity"]


def column_cell(n, c):
    """The number on the column sheet of cell c of the row sheet; "capacities, results and scratch stay in place" and a bid's cells go to columns."""
    bid, place = divmod(c, BID_NUMBERS)
    return COLUMNS.index(ROW[place]) * n + bid if bid < n else c


def renumbered(n, found):
    """Orders "with each cell number replaced by its new one"; the constant of an order of kind 0 is no cell's number."""
    new = [column_cell(n, c) for c in range(CELLS)]
    return [[kind, new[d], *(rest if kind == 0 else [new[c] for c in rest])] for kind, d, *rest in found]


def column_sealed(bids, capacities):
    """The sealed sheet by columns, written from the columns and not by the cells' new numbers."""
    pools, prices, quantities, hundredths = ([bid[k] for bid in bids] for k in range(BID_NUMBERS))
    return sheet(pools + prices + hundredths + quantities + [v for row in capacities for v in row])


def pool_cells(price):
    """A pool's price in two parts as a bid gives them, the whole part rounded down, and its presence."""
    return (0, 0, 0) if price is None else (*divmod(price, HUNDRED), 1)


def cleared(bids, capacities, accepted, flows, prices):
    """The sheet that a plan has to leave: inputs as sealed, results, 0 in all scratch."""
    cells = [v for price in prices for v in pool_cells(price)]
    return sheet(inputs(bids, capacities) + accepted + [v for row in flows for v in row] + cells)


def first_result(n, m):
    return BID_NUMBERS * n + m * m


def result_count(n, m):
    return n + m * m + POOL_RESULTS * m


def flows(n, m, cells):
    at = first_result(n, m) + n
    return [[signed(x) for x in cells[at + a * m:at + a * m + m]] for a in range(m)]
