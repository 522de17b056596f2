"""Times one clearing of a book of 64 bids and 4 pools: python3 tests/speed.py SETTLE DUMP SPEED

SETTLE is the program: its time is the median of 20 runs less that of 20 runs on an empty book, by turns. DUMP and SPEED are the programs of tests/dump.c
and tests/speed.c: a plain C loop that runs the same plan already decoded, and a plain C greedy by augmenting paths; and the C host's writer, which
gives the whole plan in slices of 64 and of 4,096 bytes. A machine's speed changes while it runs, so all this is done in ten rounds, and each
figure is the least of the rounds'."""
import random
import statistics
import subprocess
import sys
import tempfile
import time

import books


def seconds(program, data):
    start = time.perf_counter()
    subprocess.run([program], input=data, stdout=subprocess.DEVNULL, check=True)
    return time.perf_counter() - start


def round_of(settle, speed, plan, book):
    """one round: what SPEED prints, in microseconds, and settle's own time"""
    figures = subprocess.run([speed, plan], input=book, stdout=subprocess.PIPE, check=True).stdout.split()
    turns = [(seconds(settle, book), seconds(settle, b"0 1 0\n")) for _ in range(20)]
    own = (statistics.median(full for full, _ in turns) - statistics.median(empty for _, empty in turns)) * 1e6
    return [float(figure) for figure in figures] + [own]


def main():
    settle, dump, speed = sys.argv[1:4]
    book = books.text(*books.sound(random.Random(7), 64, 4)).encode()
    with tempfile.NamedTemporaryFile() as plan:
        subprocess.run([dump, "64", "4"], stdout=plan, check=True)
        rounds = [round_of(settle, speed, plan.name, book) for _ in range(10)]
    orders, decoded, paths, short, long, own = (min(figures) for figures in zip(*rounds))
    print(f"one clearing, 64 bids, 4 pools, {int(orders):,} orders: settle {own:,.0f} us; the decoded plan in a C loop {decoded:,.0f} us "
          f"({own / decoded:.1f} times); a C greedy by augmenting paths {paths:,.0f} us")
    print(f"the whole plan from the C host's writer: {short:,.0f} us in slices of 64 bytes, {long:,.0f} us in slices of 4,096")


if __name__ == "__main__":
    main()
