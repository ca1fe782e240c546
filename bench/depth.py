#!/usr/bin/env python3
"""Finds how many levels a JSON value that is made by hand may have, so that copying it, comparing it, printing it and letting it
go still fit the stack. Each of these recurses once for each level; a value that was read has at most 64.

`bench depth LEVELS` makes such a value and does all four. The greatest number of levels with which it ends well is found by
halving, under the stack that the shell gives (`ulimit -s`, mostly 8 MB), to within a thousand.

Usage: bench/depth.py PROGRAM, the path of the built `bench`.
"""
import resource
import subprocess
import sys


def ends_well(path, levels):
    told = subprocess.run([path, "depth", str(levels)], stdout=subprocess.PIPE, stderr=subprocess.DEVNULL)
    return told.returncode == 0 and told.stdout.startswith(b"depth ")


def main():
    if len(sys.argv) != 2:
        sys.exit(__doc__.strip().splitlines()[-1])
    good, bad = 64, 4_000_000
    if not ends_well(sys.argv[1], good):
        sys.exit("64 levels are too many")
    while bad - good > 1000:
        middle = (good + bad) // 2
        if ends_well(sys.argv[1], middle):
            good = middle
        else:
            bad = middle
    stack, _ = resource.getrlimit(resource.RLIMIT_STACK)
    print(f"{good} levels fit a stack of {stack if stack >= 0 else 'no limit'} bytes, {bad} do not")


if __name__ == "__main__":
    main()
