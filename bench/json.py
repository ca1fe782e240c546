#!/usr/bin/env python3
"""Compares `bench json` with serde_json in Rust and with CPython's json module, on the same bytes in the same run.

The layouts: a reply of about 4 MB (entities with texts, numbers, nested lists, escapes and characters past ASCII), the same
with blanks round its colons, one object of 100,000 distinct names, and lists of short numbers, of small objects, of texts full
of escapes, of surrogate pairs (as CPython writes a character past the first 65,536), of objects whose names have escapes, of
long plain texts and of long texts past ASCII. Each is read and printed by the program and by the peer; the best of five runs
counts, each the mean of three turns. The table has the ratio of the program's time to the peer's, the worst last. Then come
the times of CPython's `json.loads` and `json.dumps` with compact separators for the reply and the object, how the time for a
byte of the object stands to that of the reply, and the most memory held for the short numbers, in bytes of the text.

The peer is `bench/json.rs`, built by `cargo` with Debian's package `librust-serde-json-dev`, with the features
`arbitrary_precision` and `preserve_order`; the memory is read by GNU's `time`. They are installed where apt-get can; where one
is missing, that is said.

Usage: bench/json.py PROGRAM, the path of the built `bench`.
"""
import sys

# This file has the name of the module that it measures.
sys.path.pop(0)

import gc
import json
import os
import platform
import random
import shutil
import subprocess
import tempfile
import time

RUNS = 5
TURNS = 3
WORDS = ("router entity subgraph cache journal epoch fragment selection catalogue review délai café naïve "
         "größe straße 価格 名前 товар 😀 🚲").split()


def text(pick, least, most):
    """Words with now and then a quote, a backslash, a slash, a line end or a tab."""
    words = [pick.choice(WORDS) for _ in range(pick.randint(least, most))]
    if pick.random() < 0.2:
        words.insert(pick.randrange(len(words)), pick.choice(['"so"', "a\\b", "a/b", "one\ntwo", "one\ttwo"]))
    return " ".join(words)


def entity(pick, number):
    return {
        "__typename": pick.choice(["Product", "Review", "User"]),
        "id": str(number),
        "upc": f"{pick.randrange(10**12):012d}",
        "name": text(pick, 2, 6),
        "description": text(pick, 8, 30),
        "price": round(pick.random() * 1000, 2),
        "weight": pick.randrange(100000),
        "ratio": pick.random() * 10.0 ** pick.randint(-8, 8),
        "inStock": pick.random() < 0.7,
        "discontinued": None,
        "matrix": [[pick.randrange(100) for _ in range(4)] for _ in range(3)],
        "dimensions": {"size": pick.choice(["small", "medium", "large"]), "tags": [text(pick, 1, 2) for _ in range(3)]},
        "reviews": [{"id": str(pick.randrange(10**6)), "stars": pick.randint(1, 5), "body": text(pick, 3, 12)}
                    for _ in range(pick.randint(0, 3))],
    }


def reply(size):
    """A reply whose strings have escapes, also of characters that need none, and characters past ASCII."""
    pick = random.Random(1)
    parts, length, number = [], 0, 0
    while length < size:
        part = json.dumps(entity(pick, number), ensure_ascii=number % 8 == 0).encode()
        parts.append(part)
        length += len(part) + 2
        number += 1
    return b'{"data": {"_entities": [' + b", ".join(parts) + b"]}}"


def spaced(body):
    """The same value with blanks round its colons."""
    return json.dumps(json.loads(body), ensure_ascii=False, separators=(",", " : ")).encode()


def names(count):
    pick = random.Random(2)
    members = (f'"{pick.randrange(16**8):08x}{number}": {number}' for number in range(count))
    return ("{" + ", ".join(members) + "}").encode()


def listed(seed, count, make):
    pick = random.Random(seed)
    return ("[" + ",".join(make(pick) for _ in range(count)) + "]").encode()


def escaped(pick):
    """A text in which every fifth character or so is escaped."""
    return json.dumps("".join(pick.choice(['"', "\\", "\n", "\t", "word", "text", " of "]) for _ in range(40)))


def pairs(pick):
    """A text of characters past the first 65,536, each escaped as a surrogate pair."""
    return json.dumps("".join(chr(pick.randrange(0x1F300, 0x1F600)) for _ in range(20)))


def layouts():
    """Each layout by its name."""
    body = reply(4_000_000)
    wide = "größe délai 価格 名前 товар".split()
    return {
        "reply": body,
        "reply with blanks round colons": spaced(body),
        "object of 100,000 names": names(100_000),
        "short numbers": listed(3, 500_000, lambda pick: str(pick.randrange(100))),
        "small objects": listed(4, 80_000, lambda pick: f'{{"id":{pick.randrange(10**6)},"in":true,"name":"n{pick.randrange(99)}"}}'),
        "escaped texts": listed(5, 15_000, escaped),
        "surrogate pairs": listed(6, 12_000, pairs),
        "names with escapes": listed(7, 60_000, lambda pick: f'{{"caf\\u00e9 {pick.randrange(99)}":1,"a\\"b\\"{pick.randrange(99)}":2}}'),
        "long plain texts": listed(8, 100, lambda pick: json.dumps(" ".join(pick.choice(WORDS[:8]) for _ in range(4000)))),
        "long wide texts": listed(9, 100, lambda pick: json.dumps(" ".join(pick.choice(wide) for _ in range(4000)), ensure_ascii=False)),
    }


def run(command, body):
    """The bytes and the best nanoseconds of reading and of printing, by a program."""
    best = {}
    for _ in range(RUNS):
        told = subprocess.run([*command, str(TURNS)], input=body, stdout=subprocess.PIPE, check=True).stdout.decode()
        for line in told.splitlines():
            what, size, _, _, _, spent, _ = line.split(" ")
            turn = int(spent) / TURNS
            best[what] = (int(size), min(turn, best[what][1]) if what in best else turn)
    return best


CARGO = """[package]
name = "json"
version = "0.1.0"
edition = "2021"
[[bin]]
name = "json"
path = "json.rs"
[dependencies]
serde_json = { version = "1", features = ["arbitrary_precision", "preserve_order"] }
"""
SOURCE = """[source.crates-io]
replace-with = "debian"
[source.debian]
directory = "/usr/share/cargo/registry"
"""


def peer(folder):
    """The path of the built peer, or None."""
    if os.geteuid() == 0 and shutil.which("apt-get"):
        packages = ["time", "librust-serde-json-dev", "librust-indexmap-dev"]
        subprocess.run(["apt-get", "install", "-y", *packages], stdout=subprocess.DEVNULL, stderr=subprocess.DEVNULL)
    if not shutil.which("cargo"):
        return None
    os.mkdir(os.path.join(folder, ".cargo"))
    for name, text in (("Cargo.toml", CARGO), (".cargo/config.toml", SOURCE)):
        with open(os.path.join(folder, name), "w") as out:
            out.write(text)
    shutil.copy(os.path.join(os.path.dirname(os.path.abspath(__file__)), "json.rs"), folder)
    built = subprocess.run(["cargo", "build", "--release", "--offline"], cwd=folder, stdout=subprocess.DEVNULL, stderr=subprocess.DEVNULL)
    return os.path.join(folder, "target/release/json") if built.returncode == 0 else None


def table(path, other, bodies):
    """Prints the ratios to the peer, the worst last, and answers the program's own times."""
    rows, ours = [], {}
    for what, body in bodies.items():
        ours[what] = run([path, "json"], body)
        theirs = other and run([other], body)
        for call in ("read", "print"):
            size, spent = ours[what][call]
            rows.append((spent / theirs[call][1] if theirs else 0, what, call, size, spent, theirs[call][1] if theirs else 0))
            if theirs and theirs[call][0] != size:
                sys.exit(f"{what}: {call} {size} bytes, and {theirs[call][0]} by the peer")
    for ratio, what, call, size, spent, peers in sorted(rows):
        told = f"{peers / 1e6:7.2f} ms of serde_json: {ratio:.2f}" if other else "no peer: cargo or librust-serde-json-dev is missing"
        print(f"{call:5} {what:31} {size:8} bytes {spent / 1e6:7.2f} ms, {told}")
    return ours


def memory(path, body):
    """The most memory that `bench json 1` held for the text, in bytes, or None."""
    if not os.path.exists("/usr/bin/time"):
        return None
    told = subprocess.run(["/usr/bin/time", "-f", "%M", path, "json", "1"], input=body, stdout=subprocess.DEVNULL, stderr=subprocess.PIPE)
    return int(told.stderr.split()[-1]) * 1024


def cpython(body):
    """The best nanoseconds of `loads` and of `dumps`. The collector of cycles is off while the clock runs."""
    reading = printing = None
    for _ in range(RUNS):
        gc.collect()
        gc.disable()
        start = time.perf_counter_ns()
        value = json.loads(body)
        read = time.perf_counter_ns() - start
        start = time.perf_counter_ns()
        json.dumps(value, separators=(",", ":"), ensure_ascii=False)
        printed = time.perf_counter_ns() - start
        gc.enable()
        reading = min(read, reading or read)
        printing = min(printed, printing or printed)
    return reading, printing


def main():
    if len(sys.argv) != 2:
        sys.exit(__doc__.strip().splitlines()[-1])
    print(f"{platform.python_implementation()} {platform.python_version()}, {os.cpu_count()} processors")
    bodies = layouts()
    with tempfile.TemporaryDirectory() as folder:
        ours = table(sys.argv[1], peer(folder), bodies)
    per_byte = {}
    for what in ("reply", "object of 100,000 names"):
        for call, theirs in zip(("read", "print"), cpython(bodies[what])):
            size, spent = ours[what][call]
            per_byte[what, call] = spent / size
            print(f"{what}: {call} {size} bytes, {spent / 1e6:.2f} ms against {theirs / 1e6:.2f} ms of CPython: "
                  f"{theirs / spent:.2f} times as fast")
    for call in ("read", "print"):
        one, other = (per_byte[what, call] for what in ("reply", "object of 100,000 names"))
        print(f"{call}: {one:.2f} ns for a byte of the reply, {other:.2f} of the object: {other / one:.2f} times")
    held, least = memory(sys.argv[1], bodies["short numbers"]), memory(sys.argv[1], b"[]")
    if held is None:
        print("memory: time is missing")
    else:
        print(f"memory for short numbers: {(held - least) / len(bodies['short numbers']):.1f} times the text")


if __name__ == "__main__":
    main()
