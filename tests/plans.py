"""Runs the unit's own plans on the machine written apart, and holds what they leave to the solver, and README's table of orders to their lengths:
python3 tests/plans.py DUMP [PLANS] [SEED], DUMP being the program of tests/dump.c. The stored books of tests/exhaustive.py are among those run. The
prices are also taken by the words of request 4 of document 02 from the flows that a plan leaves, and their two parts are those of a bid. By request 6
the column plan is the plan with each cell number replaced by its new one, and is run beside it: the two sheets hold the same under that renumbering."""
import operator
import pathlib
import subprocess

import arguments
import books
import exhaustive
import orders
import solver

BOOKS = 3
SMALL, STRIDE = 2_000, 100  # a plan of at most so many orders is small; the stride through others
README = pathlib.Path(__file__).parent.parent / "README.md"


def dumped(dump, *words):
    return subprocess.run([dump, *map(str, words)], stdout=subprocess.PIPE, check=True).stdout


def plan(dump, n, m):
    """The plan's orders, their bytes and their count checked."""
    data = dumped(dump, n, m)
    found = orders.orders(data)
    assert b"".join(map(orders.encoded, found)) == data, "not the shortest bytes"
    assert len(found) == int(dumped(dump, n, m, "total")), (n, m, len(found))
    assert len(found) <= limit(n, m)
    return found


def column_plan(dump, n, m, found):
    """The column plan's orders, as many as the plan's; the unit's bytes of it are theirs."""
    columns = orders.renumbered(n, found)
    assert dumped(dump, n, m, "columns") == b"".join(map(orders.encoded, columns)), (n, m)
    return columns


def limit(n, m):
    return n * (200 * n + 40 * (m + 1) ** 6) + 10_000


def table():
    """README's table: orders and limit for some bids and pools."""
    rows = README.read_text().split("| bids, pools | orders | limit |\n")[1].split("\n\n")[0].split("\n")[1:]
    rows = [[int(v.replace(",", "")) for v in row.replace(", ", " | ").strip("| ").split(" | ")] for row in rows]
    return {(n, m): figures for n, m, *figures in rows}


def stepped(found, columns, n, m, bids, capacities):
    """Runs a plan and its column plan in step from a book's two sealed sheets, and gives the row sheet that is left. Each cell of the row sheet is held to
    the one with its new number before the first order, after every order of a small plan or every hundredth, and after the last. The column sheet that
    is left has its inputs as sealed by columns, and after the bids' cells all is as on the row sheet."""
    rows, by_columns, sealed = orders.sealed(bids, capacities), orders.column_sealed(bids, capacities), orders.column_sealed(bids, capacities)
    renumbered = operator.itemgetter(*(orders.column_cell(n, c) for c in range(orders.CELLS)))
    step = 1 if len(found) <= SMALL else STRIDE
    assert renumbered(by_columns) == tuple(rows), (n, m, bids, capacities)
    for at in range(0, len(found), step):
        orders.run(found[at:at + step], rows)
        orders.run(columns[at:at + step], by_columns)
        assert renumbered(by_columns) == tuple(rows), (n, m, bids, capacities, at)
    inputs, stay = orders.first_result(n, m), solver.BID_NUMBERS * n
    assert by_columns[:inputs] == sealed[:inputs] and by_columns[stay:] == rows[stay:], (n, m, bids, capacities)
    return rows


def check(cells, n, m, bids, capacities):
    """Checks every cell that a plan has left of a book's sealed sheet."""
    flows = orders.flows(n, m, cells)
    accepted, prices = solver.clear(n, m, bids, capacities)
    assert cells == orders.cleared(bids, capacities, accepted, flows, prices), (n, m, bids, capacities, accepted, flows, prices, cells)
    assert not solver.faults(n, m, bids, capacities, accepted, flows), (n, m, bids, capacities, flows)
    assert prices == exhaustive.prices(n, m, bids, capacities, accepted, flows), (n, m, bids, capacities, accepted, flows, prices)
    parts = [(whole, hundredths, 1) for _, whole, _, hundredths in bids]
    assert all(price is None or orders.pool_cells(price) in parts for price in prices), (bids, prices)


def main():
    dump, count, draw = arguments.taken(1, 100)
    figures = table()
    assert len(figures) == 6
    stored = [book for book, _ in exhaustive.stored()]
    # README's counts and those of the stored books, then every n and m within 260 plans, in leaps so that few plans reach small and great n too
    counts = list(figures) + [(n, m) for n, m, _, _ in stored] + [(27 * k % (solver.BIDS + 1), k % solver.POOLS + 1) for k in range(count)]
    counts = list(dict.fromkeys(counts))
    for n, m in counts:
        found = plan(dump, n, m)
        columns = column_plan(dump, n, m, found)
        assert figures.get((n, m)) in (None, [len(found), limit(n, m)]), (n, m, figures[n, m], len(found))
        first, *further = [book for book in stored if book[:2] == (n, m)] + [books.sound(draw, n, m) for _ in range(BOOKS)]
        check(stepped(found, columns, *first), *first)
        for book in further:
            check(orders.run(found, orders.sealed(*book[2:])), *book)
    print(f"{len(counts)} plans, each with {BOOKS} books, and {len(stored)} stored books clear on the machine written apart as the solver does; "
          "README's table of orders holds; the column plans are the plans with the new cell numbers, and each leaves a book's sheet as its plan does")


if __name__ == "__main__":
    main()
