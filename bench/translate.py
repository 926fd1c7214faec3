#!/usr/bin/env python3
"""Times the translation of generated schemas to fragments, and prints ratios.

usage: bench/translate.py [RUNS]      (build the program first: tools/build schema_bench)

The schemas are the texts of `bench/parse.py`, of 1, 2 and 4 MiB, and schemas of one namespace with 25,000, 50,000 and 100,000
references to half as many entity types, in random order. Wanted: at most 2.3 times the time for twice as much of either.
"""

import os
import random

import parse


def references(count):
    """A schema with `count` references to half as many entity types, in random order."""
    chance = random.Random(count)
    names = [f"Type{i:06}" for i in range(count // 2)]
    chance.shuffle(names)
    parts = [f"entity {name} = {{ a: {chance.choice(names)}, b?: Set<{chance.choice(names)}> }};\n" for name in names]
    return "namespace Area {\n" + "".join(parts) + "}\n"


def measure(name, text, path, last):
    with open(path, "w") as file:
        file.write(text)
    seconds, memory = parse.timed("translate", path)
    parsing, _ = parse.timed("parse", path)
    growth = f"  growth {seconds / last:4.2f}" if last else ""
    print(f"{name:20} {seconds:7.3f} s  {seconds / parsing:4.2f} of parsing  memory {memory / len(text):5.1f} times the text{growth}")
    return seconds


def main():
    os.makedirs(parse.WORK, exist_ok=True)
    path = os.path.join(parse.WORK, "in")
    last = None
    for size in (1, 2, 4):
        last = measure(f"{size} MiB", parse.generated(size * parse.MIB), path, last)
    last = None
    for count in (25_000, 50_000, 100_000):
        last = measure(f"{count} references", references(count), path, last)


if __name__ == "__main__":
    main()
