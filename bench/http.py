#!/usr/bin/env python3
"""Compares `bench http` with a Rust program on the crate `httparse`, on the same stream of requests in the same run.

Makes a stream of pipelined requests, each with eight fields and a body of 200 bytes, and one of requests with three fields and no
body. Both programs read it in pieces of 4,096 bytes into owned messages. Prints the best of five runs, and the ratio. The peer is
`bench/http.rs`, built by `rustc -O` with Debian's package `librust-httparse-dev`, which is installed where apt-get can; where it or
`rustc` is missing, that is said.

Usage: bench/http.py PROGRAM, the path of the built `bench`.
"""
import glob
import os
import shutil
import subprocess
import sys
import tempfile

RUNS = 5
TURNS = 5
COUNT = 20_000


def requests(fields, body):
    lines = ["POST /graphql HTTP/1.1", "host: router.example:4000", "content-type: application/json"]
    lines += [f"x-field-{number}: value of the field {number}, which is some words long" for number in range(fields)]
    if body:
        lines.append(f"content-length: {body}")
    return (("\r\n".join(lines) + "\r\n\r\n").encode() + b"q" * body) * COUNT


def peer(folder):
    """The path of the built peer, or None."""
    if os.geteuid() == 0 and shutil.which("apt-get"):
        subprocess.run(["apt-get", "install", "-y", "librust-httparse-dev"], stdout=subprocess.DEVNULL, stderr=subprocess.DEVNULL)
    sources = sorted(glob.glob("/usr/share/cargo/registry/httparse-*/src/lib.rs"))
    if not sources or not shutil.which("rustc"):
        return None
    library = os.path.join(folder, "libhttparse.rlib")
    program = os.path.join(folder, "http")
    flags = ["rustc", "--edition", "2018", "-O", "-A", "warnings"]
    features = ["--cfg", 'feature="std"', "--cfg", "httparse_simd", "--cfg", "httparse_simd_target_feature_sse42"]
    target = ["-C", "target-feature=+sse4.2"]
    subprocess.run([*flags, *features, *target, "--crate-type", "rlib", "--crate-name", "httparse", sources[-1], "-o", library], check=True)
    source = os.path.join(os.path.dirname(os.path.abspath(__file__)), "http.rs")
    subprocess.run([*flags, *target, source, "--extern", f"httparse={library}", "-o", program], check=True)
    return program


def nanoseconds(command, stream):
    """The best nanoseconds of a turn, and what was read."""
    best = None
    for _ in range(RUNS):
        words = subprocess.run(command, input=stream, stdout=subprocess.PIPE, check=True).stdout.decode().split()
        spent = int(words[-2]) / TURNS
        best = min(spent, best or spent)
    return best, (words[3], words[5])


def main():
    if len(sys.argv) != 2:
        sys.exit(__doc__.strip().splitlines()[-1])
    with tempfile.TemporaryDirectory() as folder:
        other = peer(folder)
        for what, stream in (("bodies of 200 bytes", requests(5, 200)), ("three fields, no body", requests(0, 0))):
            ours, read = nanoseconds([sys.argv[1], "http", str(TURNS)], stream)
            line = f"{what}: {COUNT} requests of {len(stream) // COUNT} bytes, {ours / COUNT:.0f} ns each"
            if other is None:
                print(line + "; no peer: rustc or librust-httparse-dev is missing")
                continue
            theirs, same = nanoseconds([other, str(TURNS)], stream)
            if read != same:
                sys.exit(f"{what}: the two programs read {read} and {same}")
            print(f"{line}, {theirs / COUNT:.0f} ns by httparse in Rust: {theirs / ours:.2f} times its speed")


if __name__ == "__main__":
    main()
