#!/usr/bin/env python3
"""Times the program itself: a long script by `rehearse`, and many steps by `workload`.

The script has 60,000 lines, as many as its limit of 1,048,576 bytes allows: in turns a request begins, a look misses and is settled
with a tag, a look hits, a tag is invalidated, and a tally is told, over 4,000 keys and 97 tags, in epochs of 65,536 events. That
every line had its reply, and with which words, is counted. `workload 20000` is run twice, and must write the same line. The best of
five runs counts, and of two for the workload.

Usage: bench/program.py PROGRAM, the path of the built `fedrouter`.
"""
import collections
import subprocess
import sys
import time

RUNS = 5
LINES = 60_000
KEYS = 4_000
TAGS = 97
STEPS = 20_000
EVENTS = 65_536
# A group of six lines appends five events, and a begin turns an epoch that is half used.
GROUPS = -(-EVENTS // 2 // 5)


def script():
    """Groups of six lines. The look that misses has the ticket of its number in the epoch."""
    parts = []
    for n in range(LINES // 6):
        key, tag = n % KEYS, n % TAGS
        parts.append(f"begin 1\nlook 1 - 0 a T {key} q\nsettle {n // GROUPS}.{n % GROUPS} 99 0 public {tag} v\n"
                     f"look 1 - 0 a T {key} q\nvoid 1 tag a {tag}\ntally\n")
    return "".join(parts).encode()


def timed(command, given):
    """Seconds, and what was written."""
    start = time.perf_counter()
    ran = subprocess.run(command, input=given, stdout=subprocess.PIPE, check=True)
    return time.perf_counter() - start, ran.stdout.decode()


def main():
    if len(sys.argv) != 2:
        sys.exit(__doc__.strip().splitlines()[-1])
    lines = script()
    runs = [timed([sys.argv[1], "rehearse", str(EVENTS), "67108864"], lines) for _ in range(RUNS)]
    told = runs[0][1].splitlines()
    assert len(told) == LINES, (len(told), told[-1])
    words = collections.Counter(next(word for word in line.split() if not word[0].isdigit()) for line in told)
    print(f"rehearse, {LINES} lines of {len(lines)} bytes: {min(spent for spent, _ in runs):.2f} s "
          f"({', '.join(f'{count} {word}' for word, count in sorted(words.items()))})")
    once, again = (timed([sys.argv[1], "workload", str(STEPS)], b"") for _ in range(2))
    assert once[1] == again[1], "two runs wrote different lines"
    print(f"workload {STEPS}: {min(once[0], again[0]):.2f} s, twice the line {once[1].strip()}")


if __name__ == "__main__":
    main()
