"""Holds clearing by columns to clearing, on the way that a host with the new memory goes: python3 tests/columns.py CALLS [BOOKS] [SEED]

CALLS is the program that makes one call. Each drawn book is sealed by columns, its column plan is written in slices of several lengths, and each slice is
run on the sheet as it comes, up to a call that gives no orders. By request 6 of document 02 these are as many orders as clearing counts, the sheet holds
what clearing leaves, each cell under its new number, and the results, which stay in place, are opened from both alike."""
import answers
import arguments
import books
import orders
from caller import call, flat, ran
from solver import BIDS, POOLS

LONGEST = answers.ROOM - 3 - orders.CELLS  # bytes: a call of the runner has room for so many beside its number, the sheet and two lengths
FEW = 8  # bids of most books: their plans are short


def given(program, *words):
    """The lines that an accepted call prints: the entries of each by its name."""
    first, *lines = ran(program, call(*words)).splitlines()
    assert first == "accepted", (first, words[:2])
    return {name: [int(entry) for entry in entries] for name, *entries in (line.split(" ") for line in lines)}


def run_in_slices(draw, program, n, m, sheet):
    """What the column plan leaves of a sheet, how many orders were run, and in how many slices."""
    at = slices = 0
    while True:
        lent = [9] * draw.choice([answers.LONGEST_ORDER, draw.randint(answers.LONGEST_ORDER, 99), LONGEST])
        written = given(program, 13, [n, m, at], lent)
        [size], [count], [following] = written["bytes"], written["orders"], written["next"]
        if count == 0:
            return sheet, at, slices
        done = given(program, 5, [], sheet, written["slice"][:size])
        assert done["orders"] == [count] and following == at + count, (n, m, at, written)
        sheet, at, slices = done["sheet"], following, slices + 1


def main():
    program, count, draw = arguments.taken(1, 60)
    all_slices = 0
    for k in range(count):
        n, m, bids, capacities = books.sound(draw, draw.randint(0, FEW if k % 10 else BIDS), draw.randint(1, POOLS))
        tables = flat(bids), flat(capacities)
        sealed = given(program, 11, [n, m], *tables, [9] * orders.CELLS)["sheet"]
        assert sealed == orders.column_sealed(bids, capacities), (n, m, bids, capacities)
        by_columns, total, slices = run_in_slices(draw, program, n, m, sealed)
        cleared = given(program, 4, [n, m], *tables, [9] * orders.CELLS)
        assert [total] == cleared["orders"], (n, m, total)
        assert [by_columns[orders.column_cell(n, c)] for c in range(orders.CELLS)] == cleared["sheet"], (n, m, bids, capacities)
        opened = [given(program, 3, [n, m], sheet, [9] * orders.result_count(n, m)) for sheet in (by_columns, cleared["sheet"])]
        assert opened[0] == opened[1], (n, m, bids, capacities, opened)
        all_slices += slices
    print(f"{count} books sealed by columns and cleared by their column plans, in {all_slices} slices: each sheet holds what clearing leaves, and is opened alike")


if __name__ == "__main__":
    main()
