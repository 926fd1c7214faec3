#!/usr/bin/env python3
"""Compares `recover` with `LC_ALL=C sort -u` on the same file, and prints ratios.

usage: bench/recover.py [RUNS]      (build the program first: ./cedar_schema_tool --build)

Wanted: at most 5 times the time of `sort -u`, at most 2.3 times the time for an input twice as long, and a peak memory of at most
30 times input and output together.
"""

import os
import random
import subprocess
import sys
import time

import parse

TOP = os.path.dirname(os.path.dirname(os.path.abspath(__file__)))
PROGRAM = os.path.join(TOP, "crates/cedar_schema_tool/out/cedar_schema_tool")
WORK = os.path.join(TOP, "bench/work")


def bare(count):
    lines = [f"entity Type{i:06};\n" for i in range(count)]
    random.Random(count).shuffle(lines)
    return "".join(lines)


def under_roots(count, roots=100):
    chance = random.Random(count)
    lines = [f"entity Root{i:03};\n" for i in range(roots)]
    for i in range(count):
        a, b = chance.sample(range(roots), 2)
        lines.append(f"entity Type{i:06} in [Root{a:03}, Root{b:03}];\n")
    chance.shuffle(lines)
    return "".join(lines)


def whole(count):
    """The declarations of `bench/parse.py`, and every type that they name."""
    part = parse.ONE.replace('Action::"any"', 'Action::"any{k}"')
    return "namespace Org { entity Team; }\n" + "".join(part.format(k=k) for k in range(count))


def timed(words, path, env=None):
    """Seconds, peak memory in bytes, and length of the output, of the fastest run."""
    best = None
    for _ in range(RUNS):
        with open(path, "rb") as source, open(os.path.join(WORK, "out"), "wb") as out:
            start = time.perf_counter()
            child = subprocess.Popen(words, stdin=source, stdout=out, env=env)
            _, status, usage = os.wait4(child.pid, 0)
            seconds = time.perf_counter() - start
        if status != 0:
            sys.exit(f"{words[0]} ended with {status}")
        row = (seconds, usage.ru_maxrss * 1024, os.path.getsize(os.path.join(WORK, "out")))
        best = row if best is None or row[0] < best[0] else best
    return best


def measure(name, text):
    path = os.path.join(WORK, "in")
    with open(path, "w") as file:
        file.write(text)
    seconds, memory, written = timed([PROGRAM, "recover"], path)
    sort_seconds, _, _ = timed(["sort", "-u"], path, dict(os.environ, LC_ALL="C"))
    size = len(text) + written
    print(f"{name:32} {seconds:7.3f} s  sort -u {sort_seconds:7.3f} s  ratio {seconds / sort_seconds:5.2f}"
          f"  memory {memory / size:5.1f} times input and output")
    return seconds


RUNS = int(sys.argv[1]) if len(sys.argv) > 1 else 5
os.makedirs(WORK, exist_ok=True)
print(f"{os.cpu_count()} cores, fastest of {RUNS} runs")
before = None
for count in (50_000, 100_000, 200_000):
    seconds = measure(f"{count} bare, shuffled", bare(count))
    if before is not None:
        print(f"{'':32} growth {seconds / before:.2f} for a doubled input")
    before = seconds
measure("30000 under 2 of 100 roots", under_roots(30_000))
for count in (1_000, 2_000):
    measure(f"{count} namespaces, whole language", whole(count))
