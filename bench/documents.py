#!/usr/bin/env python3
"""Compares `bench documents` with node-graphql and graphql-core, on the same document in the same run.

Makes a query of about 1 MB: fields with aliases, arguments of each kind of value, directives, strings with escapes and
characters past ASCII, inline fragments, spreads and fragments, with commas, comments and line ends between them. Reads
it, and writes it again, in five runs of three turns each: by the program's `parse` and `canonical`, and by `parse` and
`print` of each peer (locations left out, after one turn that is not timed). Prints the best of the five, and how many
times as long the peer takes. Then a process of its own reads four copies of the document once, in no turn that is timed,
and the most memory that it held is printed in bytes of the text, less what the program holds for the text `{a}`.

The peers are Debian's packages `node-graphql` and `python3-graphql-core`, and the memory is read by GNU's `time`. They
are installed where apt-get can; what is missing is said so. (graphql-core is of an older standard, without null and block
strings, so the document has none. It is slow, so it runs once.)

Usage: bench/documents.py PROGRAM, the path of the built `bench`.
"""
import os
import random
import shutil
import subprocess
import sys
import tempfile

RUNS = 5
TURNS = 3
SIZE = 1_000_000
COPIES = 4
PACKAGES = ["nodejs", "node-graphql", "python3-graphql-core", "time"]
NODE = """
const { parse, print } = require('graphql');
const text = require('fs').readFileSync(0, 'utf8');
const read = () => parse(text, { noLocation: true });
const document = read();
const write = () => print(document);
write();
for (const call of [read, write]) {
    const start = process.hrtime.bigint();
    for (let turn = 0; turn < TURNS; turn++) call();
    console.log(Number(process.hrtime.bigint() - start) / TURNS);
}
"""
PYTHON = """
import sys, time
from graphql import parse, print_ast
text = sys.stdin.buffer.read().decode()
read = lambda: parse(text, no_location=True)
document = read()
write = lambda: print_ast(document)
write()
for call in [read, write]:
    start = time.perf_counter_ns()
    for turn in range(TURNS):
        call()
    print((time.perf_counter_ns() - start) / TURNS)
"""
PEERS = [("node-graphql", ["node", "-e"], NODE, RUNS), ("graphql-core", ["/usr/bin/python3", "-c"], PYTHON, 1)]


def value(pick, depth):
    kind = pick.randrange(8 if depth else 6)
    if kind == 0:
        return str(pick.randrange(-1000, 100000))
    if kind == 1:
        return f"{pick.randrange(100)}.{pick.randrange(1000)}e{pick.randrange(-9, 9)}"
    if kind == 2:
        return pick.choice(['"plain"', '"with \\"quotes\\" and \\u00e9"', '"größe 価格"', '""'])
    if kind == 3:
        return pick.choice(["true", "false", "OLDEST", "NEWEST"])
    if kind <= 5:
        return "$" + pick.choice(["first", "filter"])
    if kind == 6:
        return "[" + ", ".join(value(pick, depth - 1) for _ in range(pick.randrange(4))) + "]"
    return "{" + ", ".join(f"name{n}: {value(pick, depth - 1)}" for n in range(pick.randrange(4))) + "}"


def arguments(pick):
    if pick.random() < 0.6:
        return ""
    return "(" + ", ".join(f"argument{n}: {value(pick, 2)}" for n in range(pick.randint(1, 3))) + ")"


def directives(pick):
    return pick.choice(["", "", "", " @include(if: $flag)", " @skip(if: false)"])


def selections(pick, depth):
    parts = []
    for _ in range(pick.randint(2, 6)):
        kind = pick.random()
        if depth and kind < 0.15:
            parts.append(f"... on Type{pick.randrange(9)}{directives(pick)} {selections(pick, depth - 1)}")
        elif kind < 0.25:
            parts.append(f"...Fragment{pick.randrange(40)}{directives(pick)}")
        else:
            alias = f"alias{pick.randrange(99)}: " if pick.random() < 0.3 else ""
            inner = " " + selections(pick, depth - 1) if depth and pick.random() < 0.5 else ""
            parts.append(f"{alias}field{pick.randrange(99)}{arguments(pick)}{directives(pick)}{inner}")
    between = pick.choice(["\n    ", " ", ", ", "\n  # a comment\n  "])
    return "{ " + between.join(parts) + " }"


def document():
    pick = random.Random(1)
    texts = ["query Large($first: Int = 10, $filter: [Filter!]!, $flag: Boolean!) " + selections(pick, 5)]
    length, number = len(texts[0]), 0
    while length < SIZE:
        text = f"fragment Fragment{number} on Type{number % 9} {selections(pick, 4)}"
        texts.append(text)
        length, number = length + len(text) + 1, number + 1
    return "\n".join(texts).encode()


def program(path, text):
    """The nanoseconds of a turn of each call that the program times: a line says CALL BYTES bytes TURNS turns NS ns."""
    out = subprocess.run([path, "documents", str(TURNS)], input=text, stdout=subprocess.PIPE, check=True).stdout
    lines = [line.split() for line in out.decode().splitlines()]
    return {words[0]: int(words[5]) / TURNS for words in lines}


def peer(command, source, text):
    """The nanoseconds of a turn of reading and of writing, or None where the peer is missing."""
    environment = {**os.environ, "NODE_PATH": "/usr/share/nodejs"}
    source = source.replace("TURNS", str(TURNS))
    try:
        ran = subprocess.run([*command, source], input=text, stdout=subprocess.PIPE, stderr=subprocess.DEVNULL,
                             env=environment)
    except OSError:
        return None
    return [float(word) for word in ran.stdout.split()] if ran.returncode == 0 else None


def memory(path, text):
    """The most bytes that a process held which read the text once, or None where GNU's time is missing."""
    with tempfile.NamedTemporaryFile() as told:
        try:
            subprocess.run(["/usr/bin/time", "-f", "%M", "-o", told.name, path, "documents", "0"], input=text,
                           stdout=subprocess.DEVNULL, check=True)
        except OSError:
            return None
        return int(told.read().split()[-1]) * 1024


def best(runs):
    return None if None in runs else [min(times) for times in zip(*runs)]


def install():
    if os.geteuid() == 0 and shutil.which("apt-get"):
        for words in [["update"], ["install", "-y", "--no-install-recommends", *PACKAGES]]:
            subprocess.run(["apt-get", *words], stdout=subprocess.DEVNULL, stderr=subprocess.DEVNULL)


def main():
    if len(sys.argv) != 2:
        sys.exit(__doc__)
    path = sys.argv[1]
    install()
    text = document()
    print(f"a document of {len(text)} bytes, best of {RUNS}")
    runs = [program(path, text) for _ in range(RUNS)]
    ours = {call: min(run[call] for run in runs) for call in runs[0]}
    for call, spent in ours.items():
        print(f"fedrouter {call:10} {spent / 1e6:8.1f} ms")
    for name, command, source, times in PEERS:
        theirs = best([peer(command, source, text) for _ in range(times)])
        if theirs is None:
            print(f"{name} is missing")
            continue
        for call, (title, spent) in zip(["parse", "canonical"], zip(["parse", "print"], theirs)):
            ratio = f"{spent / ours[call]:5.1f} times as long" if call in ours else f"{call} is not timed"
            print(f"{name} {title:6} {spent / 1e6:8.1f} ms  {ratio}")
    large, small = memory(path, text * COPIES), memory(path, b"{a}")
    if large is None:
        print("GNU's time is missing")
    else:
        print(f"memory {(large - small) / (len(text) * COPIES):.1f} times the text")


main()
