#!/usr/bin/env python3
"""Times scanning, looking for a syntax fault, and parsing, on generated schemas, and prints ratios.

usage: bench/parse.py [RUNS]      (build the program first: tools/build schema_bench)

The texts have 1, 2 and 4 MiB, with records, parents, annotations, strings and comments. Wanted: a text twice as long takes at most
2.2 times as long; the recogniser, which looks for the fault after scanning, takes at most half of the time of parsing; a fault at
the end of a text takes no longer to find than parsing the text.
"""

import os
import subprocess
import sys
import time

TOP = os.path.dirname(os.path.dirname(os.path.abspath(__file__)))
PROGRAM = os.path.join(TOP, "crates/schema_bench/out/schema_bench")
WORK = os.path.join(TOP, "bench/work")
MIB = 1 << 20

ONE = """// declarations number {k}
@doc("entity \\u{{1F600}} number {k}")
namespace Area{k} {{
  type Place{k} = {{ city: String, "zip code"?: Set<Set<Long>>, @note("a\\tb") point: {{ x: Long, y: Long, }}, }};
  entity Group{k}, Team{k} in [Area{k}::Group{k}, Org::Team];
  entity User{k} in [Group{k}, Org::Team] = {{
    home: Place{k}, // a comment
    address: ipaddr,
    tags: Set<String>,
  }} tags Set<__cedar::String>;
  entity Status{k} enum ["open", "closed", "\\"quoted\\" \\x41"];
  @id @owner("someone else")
  action read{k}, "write it {k}" in [any{k}, Area{k}::Action::"any"] appliesTo {{
    principal: [User{k}, Group{k}],
    resource: Area{k}::Team{k},
    context: {{ ip: ipaddr, at?: datetime, }},
  }};
  action any{k};
}}
"""


def generated(size):
    parts, length = [], 0
    while length < size:
        part = ONE.format(k=len(parts))
        parts.append(part)
        length += len(part)
    return "".join(parts)


def timed(word, path, status=0):
    """Seconds and peak memory of the fastest run."""
    best = None
    for _ in range(RUNS):
        with open(path, "rb") as source:
            start = time.perf_counter()
            child = subprocess.Popen([PROGRAM, word], stdin=source)
            _, ended, usage = os.wait4(child.pid, 0)
            seconds = time.perf_counter() - start
        if os.waitstatus_to_exitcode(ended) != status:
            sys.exit(f"{word} ended with {os.waitstatus_to_exitcode(ended)}")
        row = (seconds, usage.ru_maxrss * 1024)
        best = row if best is None or row[0] < best[0] else best
    return best


def main():
    os.makedirs(WORK, exist_ok=True)
    path = os.path.join(WORK, "in")
    last = {}
    for size in (1, 2, 4):
        text = generated(size * MIB)
        with open(path, "w") as file:
            file.write(text)
        times = {}
        for word in ("scan", "faults", "parse"):
            seconds, memory = timed(word, path)
            times[word] = seconds
            growth = f"  growth {seconds / last[word]:4.2f}" if word in last else ""
            print(f"{size} MiB {word:7} {seconds:7.3f} s  memory {memory / len(text):5.1f} times the text{growth}")
        share = (times["faults"] - times["scan"]) / times["parse"]
        print(f"{size} MiB recogniser {share:5.2f} of parsing")
        last = times
        with open(path, "a") as file:
            file.write("entity A ;;")
        seconds, _ = timed("faults", path, status=1)
        print(f"{size} MiB a fault at the end {seconds:7.3f} s, {seconds / times['parse']:4.2f} of parsing")


RUNS = int(sys.argv[1]) if len(sys.argv) > 1 else 5
if __name__ == "__main__":
    main()
