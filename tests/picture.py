"""Draws a plan: python3 tests/picture.py N M < BYTES > SVG, BYTES being the plan's bytes as tests/dump.c writes them.

Each order is a point: its position to the right, the cell that it writes downwards, its kind by colour. Inputs, results and scratch are bands, and a
line stands where each phase begins."""
import sys

import orders

KINDS = [("constant", "#9e9e9e"), ("sum", "#1565c0"), ("difference", "#6a1b9a"), ("product", "#2e7d32"), ("less", "#c62828"), ("equal", "#ef6c00")]
WIDTH, HEIGHT, LEFT, TOP = 1000, 560, 70, 103


def phases(n, m):
    """Where each phase begins."""
    sets = 2**m
    lengths = [("constants", 4 + m), ("bids", 10 * n), ("membership", 2 * n * m), ("cuts", m * (1 + 2 * n) + sets * (2 + m * m)),
               ("ranks", n * (m + n * (1 + 2 * m)) + 2 * n * (1 + 6 * sets) + n * m), ("amounts", 5 * n), ("slacks", m * (1 + 2 * n) + 2 * sets),
               ("reach", sets + m * m * (1 + sets)), ("flows", m * m * (2 + 5 * sets)),
               ("margins", 3 * n + m * (1 + 5 * n) + m * (1 + 5 * m)), ("prices", n * m + m * (1 + 5 * n) + 7 * m)]
    starts, at = [], 0
    for name, length in lengths:
        starts.append((name, at))
        at += length
    return starts + [("zeros", at)]


def drawn(n, m, found):
    first = orders.first_result(n, m)
    scratch = first + orders.result_count(n, m)
    last = max(max(o[1] for o in found) + 1, scratch)
    x = lambda k: LEFT + k * WIDTH / len(found)
    y = lambda c: TOP + c * HEIGHT / last
    out = [f'<svg xmlns="http://www.w3.org/2000/svg" viewBox="0 0 {LEFT + WIDTH + 20} {TOP + HEIGHT + 70}" font-family="sans-serif" font-size="13">']
    out.append(f'<rect width="100%" height="100%" fill="#ffffff"/><text x="{LEFT}" y="22" font-size="15">The plan for {n} bids and {m} pools: {len(found):,} orders</text>')
    for name, a, b, colour in [("inputs", 0, first, "#eeeeee"), ("results", first, scratch, "#fff3e0"), ("scratch", scratch, last, "#f5f9ff")]:
        out.append(f'<rect x="{LEFT}" y="{y(a):.1f}" width="{WIDTH}" height="{max(y(b) - y(a), 1):.1f}" fill="{colour}"/>')
        out.append(f'<text x="{LEFT - 8}" y="{(y(a) + y(b)) / 2 + 4:.1f}" text-anchor="end">{name}</text>')
    starts = phases(n, m)
    assert [o[1] for o in found[starts[-1][1]:]] == list(range(scratch, last)), "the phases' lengths"
    labels = []  # row and right end of each name; a line begins below every name that it would cross
    for name, start in starts:
        row = max((r + 1 for r, end in labels if end > x(start)), default=0)
        labels.append((row, x(start) + 8 * len(name)))
        top = TOP - 53 + 15 * row
        out.append(f'<path d="M{x(start):.1f} {top}V{TOP + HEIGHT}" stroke="#bdbdbd"/><text x="{x(start) + 3:.1f}" y="{top}">{name}</text>')
    for kind, (_, colour) in enumerate(KINDS):
        points = "".join(f"M{x(k):.1f} {y(o[1]):.1f}h1.6" for k, o in enumerate(found) if o[0] == kind)
        if points:
            out.append(f'<path d="{points}" stroke="{colour}" stroke-width="2.2" fill="none"/>')
    at = LEFT
    for name, colour in KINDS:
        out.append(f'<rect x="{at}" y="{TOP + HEIGHT + 36}" width="11" height="11" fill="{colour}"/><text x="{at + 16}" y="{TOP + HEIGHT + 46}">{name}</text>')
        at += 110
    out.append(f'<text x="{LEFT}" y="{TOP + HEIGHT + 18}">position 0</text><text x="{LEFT + WIDTH}" y="{TOP + HEIGHT + 18}" text-anchor="end">{len(found):,}</text></svg>')
    return "\n".join(out)


def main():
    n, m = int(sys.argv[1]), int(sys.argv[2])
    print(drawn(n, m, orders.orders(sys.stdin.buffer.read())))


if __name__ == "__main__":
    main()
