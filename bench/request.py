#!/usr/bin/env python3
"""Runs `bench request` over a case of `ask`: its first request over a new cache, and once more over this cache.

Prints requests a second of both, the best of five runs. With --profile it then runs the program once under valgrind's
callgrind (installed where it is missing) and prints the functions that take the most instructions of themselves, as
shares of the whole.

Usage: bench/request.py PROGRAM [CASE] [--profile]: the path of the built `bench`; without CASE it is examples/shop.json.
"""
import os
import re
import subprocess
import sys
import tempfile

RUNS = 5
TURNS = 2000
PROFILED = 200
SHOWN = 25


def timed(program, case):
    best = {}
    for _ in range(RUNS):
        with open(case, "rb") as given:
            told = subprocess.run([program, "request", str(TURNS)], stdin=given, stdout=subprocess.PIPE, check=True)
        for line in told.stdout.decode().splitlines():
            what, _, _, turns, _, spent, _ = line.split()
            best[what] = min(int(spent) / int(turns), best.get(what, float("inf")))
    return best


def profile(program, case):
    if subprocess.run(["which", "valgrind"], stdout=subprocess.DEVNULL).returncode:
        subprocess.run(["apt-get", "update"], stdout=subprocess.DEVNULL)
        if subprocess.run(["apt-get", "install", "-y", "valgrind"], stdout=subprocess.DEVNULL).returncode:
            return print("no profile: valgrind is missing")
    with tempfile.TemporaryDirectory() as room, open(case, "rb") as given:
        out = os.path.join(room, "callgrind.out")
        words = ["valgrind", "--tool=callgrind", f"--callgrind-out-file={out}", program, "request", str(PROFILED)]
        subprocess.run(words, stdin=given, stdout=subprocess.DEVNULL, stderr=subprocess.DEVNULL, check=True)
        told = subprocess.run(["callgrind_annotate", "--threshold=99", out], stdout=subprocess.PIPE, check=True)
    rows = re.findall(r"^\s*([\d,]+) \(\s*([\d.]+)%\)\s+(.+)$", told.stdout.decode(errors="replace"), re.M)
    for count, share, name in rows[: SHOWN + 1]:
        print(f"{share:>6}%  {name}")


def main():
    words = [it for it in sys.argv[1:] if it != "--profile"]
    if len(words) not in (1, 2):
        sys.exit(__doc__.strip().splitlines()[-1])
    case = words[1] if len(words) == 2 else os.path.join(os.path.dirname(__file__), "..", "examples", "shop.json")
    for what, spent in timed(words[0], case).items():
        print(f"{what}: {1e9 / spent:,.0f} requests a second, {spent / 1000:.1f} us each")
    if "--profile" in sys.argv:
        profile(words[0], case)


if __name__ == "__main__":
    main()
