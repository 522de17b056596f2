"""Holds the runner to the reader and the machine written apart, on whole, cut and damaged plans: python3 tests/damaged.py REPLAY DUMP [PLANS] [SEED]

REPLAY is the program that runs the plan bytes of its input on an empty sheet, DUMP the program of tests/dump.c."""
import collections
import subprocess

import arguments
import orders


def expected(data, first=b""):
    """What the runner answers and leaves on an empty sheet; with first, on the sheet that those bytes left."""
    sheet = orders.run(orders.orders(first), [0] * orders.CELLS)
    try:
        found = orders.orders(data)
        first_line = f"orders {len(found)}\n"
    except orders.Refused as refusal:
        found = []
        first_line = "refused %d %d\n" % refusal.args
    return first_line + "".join(f"cell {c} {v}\n" for c, v in enumerate(orders.run(found, sheet)) if v)


def order(draw):
    cell = lambda: draw.choice([0, 1, 2, 127, 128, 300, 4095, draw.randrange(4096)])
    kind = draw.randrange(6)
    if kind == 0:
        return [0, cell(), draw.choice([0, 1, 127, 128, 16_383, 16_384, orders.P - 1, draw.randrange(orders.P)])]
    return [kind, cell(), cell(), cell()]


def longer(value, groups):
    """A number in more groups than it needs."""
    out = orders.groups(value)
    out[-1] += 128
    return bytes(out + [128] * (groups - len(out) - 1) + [0])


def damaged(draw, data):
    kind = draw.randrange(8)
    data = bytearray(data)
    at = draw.randrange(len(data) + 1)
    if kind == 0:
        return bytes(data[:at])
    if kind == 1:
        data[at:at] = longer(draw.randrange(200), draw.randint(3, 6))
    elif kind == 2:
        data[at:at] = bytes([draw.choice([6, 7, 127, 134, 255])])
    elif kind == 3:
        data[at:at] = bytes(orders.groups(draw.choice([4_096, orders.P, orders.P + 1, 2**32 - 1, 2**32, 2**35 - 1])))
    elif kind == 4:
        data[at:at] = bytes([128] * draw.randint(1, 6))
    elif data and kind < 7:
        for _ in range(draw.randint(1, 3)):
            data[draw.randrange(len(data))] = draw.randrange(256)
    return bytes(data)


def outcome(output):
    """The refusal's number, or "accepted"; and whether the place, or the count of orders, is 0."""
    words = output.split("\n")[0].split(" ")
    return "accepted" if words[0] == "orders" else words[1], words[-1] == "0"


def answer(replay, data):
    return subprocess.run([replay], input=data, stdout=subprocess.PIPE, check=True).stdout.decode("ascii")


def main():
    replay, dump, count, draw = arguments.taken(2, 500)
    plan = lambda *words: subprocess.run([dump, *words], stdout=subprocess.PIPE, check=True).stdout
    longest, columns = plan("64", "4"), plan("64", "4", "columns")
    for data in [longest, longest[:-1], columns, columns[:-1]]:
        assert answer(replay, data) == expected(data), "the longest plan"
    assert answer(replay, longest + longest) == "not read whole\n", "more than replay's room"
    plans = [plan(*words) for words in ["01", "22", "53", "34", ["2", "2", "columns"]]]
    seen = collections.Counter()
    for k in range(count):
        own = k % 5 == 0
        data = draw.choice(plans) if own else b"".join(orders.encoded(order(draw)) for _ in range(draw.randint(0, 6)))
        if k % 4:
            data = damaged(draw, data)
        output = answer(replay, data)
        assert output == expected(data), (data.hex(), output, expected(data))
        seen[outcome(output)] += 1
        seen["damaged plans of the unit"] += own and k % 4 > 0
    missed = [(name, zero) for name in ["accepted", "9", "10", "11", "12"] for zero in [True, False] if not seen[name, zero]]
    assert not missed, missed
    print(f"{count} plans, whole, cut and damaged, {seen['damaged plans of the unit']} of them damaged plans of the unit: the runner answers as the reader and "
          "the machine written apart, with every refusal at place 0 and later")


if __name__ == "__main__":
    main()
