#!/usr/bin/env python3
"""Times the printing of fragments of generated schemas, and prints ratios.

usage: bench/print.py [RUNS]      (build the program first: tools/build schema_bench)

The texts are those of `bench/parse.py`, of 1, 2 and 4 MiB, translated and printed again. Wanted of printing alone, without the
translation: at most 0.4 times the time of parsing the same text, at most 2.1 times the time for a text twice as long, and at most
twice the text in memory beyond what the translation takes.
"""

import os

import parse


def measure(size, path, last):
    text = parse.generated(size * parse.MIB)
    with open(path, "w") as file:
        file.write(text)
    parsing, _ = parse.timed("parse", path)
    translating, held = parse.timed("translate", path)
    both, memory = parse.timed("print", path)
    seconds = both - translating
    growth = f"  growth {seconds / last:4.2f}" if last else ""
    print(f"{size} MiB  {seconds:7.3f} s  {seconds / parsing:4.2f} of parsing  memory {(memory - held) / len(text):5.1f} times the text{growth}")
    return seconds


def main():
    os.makedirs(parse.WORK, exist_ok=True)
    path = os.path.join(parse.WORK, "in")
    last = None
    for size in (1, 2, 4):
        last = measure(size, path, last)


if __name__ == "__main__":
    main()
