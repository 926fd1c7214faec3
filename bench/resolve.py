#!/usr/bin/env python3
"""Times the resolution of generated schemas, and prints ratios.

usage: bench/resolve.py [RUNS]      (build the program first: tools/build schema_bench)

The schemas have one namespace with 50,000, 100,000 and 200,000 references to half as many entity types, in random order. They are
translated and resolved, and the time of the translation is subtracted. Wanted: at most 2.3 times the time for twice as many.
"""

import os

import parse
import translate


def measure(count, path, last):
    with open(path, "w") as file:
        file.write(translate.references(count))
    whole, memory = parse.timed("resolve", path)
    translation, _ = parse.timed("translate", path)
    seconds = whole - translation
    growth = f"  growth {seconds / last:4.2f}" if last else ""
    print(f"{count:7} references {seconds:7.3f} s  {seconds / translation:4.2f} of translation  memory {memory / os.path.getsize(path):5.1f} times the text{growth}")
    return seconds


def main():
    os.makedirs(parse.WORK, exist_ok=True)
    path = os.path.join(parse.WORK, "in")
    last = None
    for count in (50_000, 100_000, 200_000):
        last = measure(count, path, last)


if __name__ == "__main__":
    main()
