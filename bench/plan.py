#!/usr/bin/env python3
"""Runs `bench plan`: a Flatten over 100,000 entities with 1,000 distinct representations, and over twice as many.

Prints for each the best of five runs of gathering and of placing, and how many times as much the double number costs; ends
with status 1 where that is more than 2.5 times.

Usage: bench/plan.py PROGRAM, the path of the built `bench`.
"""
import subprocess
import sys

RUNS = 5
TURNS = 3
MOST = 2.5


def main():
    if len(sys.argv) != 2:
        sys.exit(__doc__.strip().splitlines()[-1])
    best = {}
    for _ in range(RUNS):
        told = subprocess.run([sys.argv[1], "plan", str(TURNS)], stdout=subprocess.PIPE, check=True).stdout.decode()
        for line in told.splitlines():
            words = line.split()
            what, count, turn = words[0], int(words[1]), int(words[7]) / TURNS
            best[what, count] = min(turn, best.get((what, count), turn))
    for (what, count), turn in best.items():
        print(f"{what} {count} entities: {turn / 1e6:.1f} ms, {turn / count:.0f} ns each")
    fits = True
    for what in ("gather", "place"):
        small, large = sorted((count, turn) for (name, count), turn in best.items() if name == what)
        times = large[1] / small[1]
        fits = fits and times <= MOST
        print(f"{what}: {large[0] / small[0]:.0f} times the entities cost {times:.2f} times as much")
    if not fits:
        sys.exit(f"more than {MOST} times as much")


if __name__ == "__main__":
    main()
