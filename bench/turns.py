#!/usr/bin/env python3
"""Compares `bench turns` with the same loop over Rust's `std::sync::Mutex`, in the same run.

Threads share one book, and each turn only begins a request: so what is timed is the lock. For 1, 2 and 4 threads it prints the turns
per second of the best of five runs, and how they stand to those of the peer. The peer is `bench/turns.rs`, built by `rustc -O`; where
`rustc` is missing, that is said.

Usage: bench/turns.py PROGRAM, the path of the built `bench`.
"""
import os
import shutil
import subprocess
import sys
import tempfile

RUNS = 5
TURNS = 200_000


def peer(folder):
    """The path of the built peer, or None."""
    if not shutil.which("rustc"):
        return None
    program = os.path.join(folder, "turns")
    source = os.path.join(os.path.dirname(os.path.abspath(__file__)), "turns.rs")
    subprocess.run(["rustc", "--edition", "2021", "-O", "-A", "warnings", source, "-o", program], check=True)
    return program


def per_second(command, threads):
    """The most turns per second of all threads together."""
    best = 0
    for _ in range(RUNS):
        words = subprocess.run([*command, str(threads), str(TURNS)], stdout=subprocess.PIPE, check=True).stdout.decode().split()
        turns, spent = int(words[3]), int(words[5])
        if turns != threads * TURNS:
            sys.exit(f"{threads} threads made {turns} turns")
        best = max(best, turns * 1_000_000_000 / spent)
    return best


def main():
    if len(sys.argv) != 2:
        sys.exit(__doc__.strip().splitlines()[-1])
    with tempfile.TemporaryDirectory() as folder:
        other = peer(folder)
        for threads in (1, 2, 4):
            ours = per_second([sys.argv[1], "turns"], threads)
            line = f"{threads} threads: {ours / 1e6:.2f} million turns per second"
            if other is None:
                print(line + "; no peer: rustc is missing")
                continue
            theirs = per_second([other], threads)
            print(f"{line}, {theirs / 1e6:.2f} million by a Mutex of Rust: {ours / theirs:.2f} times its speed")


if __name__ == "__main__":
    main()
