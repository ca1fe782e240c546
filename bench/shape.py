#!/usr/bin/env python3
"""Compares `bench shape` with `execute` of node-graphql, over the same schema, document and data in the same run.

Makes a list of 100,000 objects of two types behind an interface, with a nested object, a list and an enum each, and a
document that selects them through fragments. The program and `execute` with its default resolvers shape it in five runs of
three turns; the best of the program's means stands against the best turn of the peer, which so has time to warm up. That both
answers are the same is seen by their bytes. Then the program alone shapes twice as many objects, and objects by documents
of at most 16 KB that are made to be slow: one field selected a thousand times, a hundred fragments that spread each other,
and, over 1,000 objects alone, nine hundred different fields. For these it prints how long a field of the answer takes, and
how many times as long as where one field is selected once. The peer is Debian's package `node-graphql`, which is installed
where apt-get can; where it is missing that is said.

`bench shape TURNS` reads one JSON text from standard input, an object of `schema` and `query` (texts), `variables` and
`data`, and prints `shape BYTES bytes TURNS turns NANOSECONDS ns`: the bytes of the printed data of the answer, and the time
of shaping alone.

Usage: bench/shape.py PROGRAM, the path of the built `bench`.
"""
import sys

# A file beside this one has the name of a module that is needed here.
sys.path.pop(0)

import json
import os
import random
import shutil
import subprocess

RUNS = 5
TURNS = 3
COUNT = 100_000
DIFFERENT = 900
SCHEMA = """
type Query { items: [Item!] }
interface Item { id: ID! name: String price: Float }
type Book implements Item { id: ID! name: String price: Float pages: Int! owner: Owner tags: [String!] FIELDS }
type Game implements Item { id: ID! name: String price: Float size: Size owner: Owner tags: [String!] FIELDS }
type Owner { id: ID! name: String city: String }
enum Size { SMALL LARGE }
""".replace("FIELDS", " ".join(f"f{n}: Int" for n in range(DIFFERENT)))
PLAIN = """
query Items($city: Boolean!) {
  items { __typename id ...Named ... on Book { pages } ... on Game { size } }
}
fragment Named on Item { name price ... on Book { owner { ...Whose } tags } ... on Game { owner { ...Whose } tags } }
fragment Whose on Owner { id name city @include(if: $city) }
"""
NODE = """
const { buildSchema, execute, parse } = require('graphql');
const given = JSON.parse(require('fs').readFileSync(0, 'utf8'));
const schema = buildSchema(given.schema, { assumeValidSDL: true });
const document = parse(given.query, { noLocation: true });
let best = Infinity;
let answer;
for (let turn = 0; turn < TURNS; turn++) {
  const start = process.hrtime.bigint();
  answer = execute({ schema, document, rootValue: given.data, variableValues: given.variables });
  best = Math.min(best, Number(process.hrtime.bigint() - start));
}
console.log(best, Buffer.byteLength(JSON.stringify(answer.data)), (answer.errors || []).length);
"""


def item(pick, number):
    owner = {"__typename": "Owner", "id": str(pick.randrange(1000)), "name": f"owner {number % 977}", "city": "Ulm"}
    made = {"id": str(number), "name": f"item {number}", "price": pick.randrange(1, 1000) + 0.25, "owner": owner,
            "tags": [f"tag{pick.randrange(50)}" for _ in range(3)]}
    if pick.random() < 0.5:
        return {"__typename": "Book", **made, "pages": pick.randrange(1, 900)}
    return {"__typename": "Game", **made, "size": pick.choice(["SMALL", "LARGE"])}


def text(query, items):
    """What the program and the peer read."""
    return json.dumps({"schema": SCHEMA, "query": query, "variables": {"city": True}, "data": {"items": items}}).encode()


def items(count):
    pick = random.Random(1)
    return [item(pick, number) for number in range(count)]


def spreads():
    """A hundred fragments, each of which spreads the twenty that come after it."""
    names = [f"F{n}" for n in range(100)]
    parts = ["{ items { id " + " ".join("..." + name for name in names) + " } }"]
    for n, name in enumerate(names):
        later = " ".join("..." + other for other in names[n + 1:n + 21])
        parts.append(f"fragment {name} on Item {{ name {later} }}")
    return "\n".join(parts)


def hostile():
    """Documents of at most 16 KB that are made to be slow, each with the objects and the fields of one in the answer."""
    fields = " ".join(f"f{n}" for n in range(DIFFERENT))
    return (("one field a thousand times", "{ items { " + "id " * 1000 + "} }", COUNT, 1),
            ("a hundred fragments that spread each other", spreads(), COUNT, 2),
            (f"{DIFFERENT} different fields", f"{{ items {{ ... on Book {{ {fields} }} ... on Game {{ {fields} }} }} }}",
             COUNT // 100, DIFFERENT))


def program(path, body):
    """The bytes of the answer, and the best mean of nanoseconds of a turn."""
    best = None
    for _ in range(RUNS):
        told = subprocess.run([path, "shape", str(TURNS)], input=body, stdout=subprocess.PIPE, check=True).stdout
        words = told.decode().split()
        size, turn = int(words[1]), int(words[5]) / TURNS
        best = min(turn, best or turn)
    return size, best


def peer(body):
    """The best nanoseconds of a turn, the bytes of the answer and the number of its errors; None without the peer."""
    best = None
    for _ in range(RUNS):
        try:
            ran = subprocess.run(["node", "-e", NODE.replace("TURNS", str(TURNS))], input=body, stdout=subprocess.PIPE,
                                 stderr=subprocess.DEVNULL, env={**os.environ, "NODE_PATH": "/usr/share/nodejs"})
        except OSError:
            return None
        if ran.returncode != 0:
            return None
        turn, size, errors = (float(word) for word in ran.stdout.split())
        best = min(turn, best or turn)
    return best, int(size), int(errors)


def main():
    if len(sys.argv) != 2:
        sys.exit(__doc__.strip().splitlines()[-1])
    if os.geteuid() == 0 and shutil.which("apt-get"):
        subprocess.run(["apt-get", "install", "-y", "nodejs", "node-graphql"], stdout=subprocess.DEVNULL,
                       stderr=subprocess.DEVNULL)
    few, many = items(COUNT), items(2 * COUNT)
    body = text(PLAIN, few)
    size, plain = program(sys.argv[1], body)
    print(f"{COUNT} objects, an answer of {size} bytes, best of {RUNS}")
    print(f"fedrouter shape        {plain / 1e6:8.1f} ms")
    other = peer(body)
    if other is None:
        print("node-graphql execute   is missing")
    else:
        same = "the same bytes" if other[1:] == (size, 0) else f"ANOTHER ANSWER: {other[1]} bytes, {other[2]} errors"
        print(f"node-graphql execute   {other[0] / 1e6:8.1f} ms  {other[0] / plain:5.1f} times as long, {same}")
    _, double = program(sys.argv[1], text(PLAIN, many))
    print(f"twice the objects cost {double / plain:.2f} times as much")
    _, small = program(sys.argv[1], text("{ items { id } }", few))
    for what, query, count, fields in hostile():
        assert len(query) <= 16 * 1024, what
        _, slow = program(sys.argv[1], text(query, few[:count]))
        each = slow / count / fields
        print(f"{what}: {slow / 1e6:.1f} ms, {each:.0f} ns for each field of the answer, "
              f"{each / (small / COUNT):.1f} times as long as one field")


if __name__ == "__main__":
    main()
