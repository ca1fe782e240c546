#!/usr/bin/env python3
"""Times the calls on a book that is almost full, and compares them with a Rust program on HashMaps in the same run.

`bench book EVENTS` fills a book of so many events with pieces that have a tag of their own each, and then times, in turns, a look
that finds its piece, one that does not, its settle, and an invalidation of one piece's tag. Each number of events is tried until
some thousands of turns were made, five times; the best mean of a call counts. Printed are the nanoseconds of each call at 1,000,
8,000 and 65,536 events, how those at 65,536 stand to those at 1,000, and how they stand to the peer's.

The peer is `bench/book.rs`, built by `rustc -O`; where that is missing, it is said.

Usage: bench/book.py PROGRAM, the path of the built `bench`.
"""
import os
import shutil
import subprocess
import sys
import tempfile

RUNS = 5
SIZES = (1_000, 8_000, 65_536)
CALLS = ("hit", "miss", "settle", "invalidate")
TURNS = 2_600


def peer(folder):
    """The path of the built peer, or None."""
    if not shutil.which("rustc"):
        return None
    program = os.path.join(folder, "book")
    source = os.path.join(os.path.dirname(os.path.abspath(__file__)), "book.rs")
    subprocess.run(["rustc", "--edition", "2021", "-O", "-A", "warnings", source, "-o", program], check=True)
    return program


def means(command, events):
    """The best mean nanoseconds of each call."""
    best = {}
    for _ in range(RUNS):
        turns, spent = 0, dict.fromkeys(CALLS, 0)
        while turns < TURNS:
            words = subprocess.run([*command, str(events)], stdout=subprocess.PIPE, check=True).stdout.decode().split()
            told = dict(zip(words[5::2], map(int, words[6::2])))
            turns += int(words[3])
            for call in CALLS:
                spent[call] += told[call]
        for call in CALLS:
            best[call] = min(spent[call] / turns, best.get(call, spent[call] / turns))
    return best


def main():
    if len(sys.argv) != 2:
        sys.exit(__doc__.strip().splitlines()[-1])
    ours = {events: means([sys.argv[1], "book"], events) for events in SIZES}
    with tempfile.TemporaryDirectory() as folder:
        other = peer(folder)
        theirs = means([other], SIZES[-1]) if other else None
    for call in CALLS:
        times = ", ".join(f"{ours[events][call]:.0f} ns at {events:,}" for events in SIZES)
        growth = ours[SIZES[-1]][call] / ours[SIZES[0]][call]
        ratio = f"{ours[SIZES[-1]][call] / theirs[call]:.2f} of the peer's {theirs[call]:.0f} ns" if theirs else "no peer: rustc is missing"
        print(f"{call:10} {times}: {growth:.2f} times, {ratio}")


if __name__ == "__main__":
    main()
