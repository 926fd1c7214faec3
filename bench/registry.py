#!/usr/bin/env python3
"""Times the registry beside `recover` on the same declarations in one text, and beside another registry if given.

usage: bench/registry.py [OTHER COMMAND..]      (build first: ./cedar_schema_tool --build and ./schema_registry --build)

Each input has messages of some 100 bytes, twice as many as meanings. Printed are processor seconds, medians of five,
and the most memory in use.
"""
import os
import shlex
import statistics
import struct
import subprocess
import sys
import tempfile

TOP = os.path.dirname(os.path.dirname(os.path.abspath(__file__)))
RUNS = 5


def declaration(number):
    attributes = "name: String, size?: Long, tags: Set<String>, owner: { id: Long, mail: String }"
    return f"entity E{number:06} = {{ {attributes} }};"


def messages(count):
    """So many messages with half as many meanings: each comes twice, once with a comment."""
    half = count // 2
    texts = [declaration(n) for n in range(half)] + [f"{declaration(n)} // again" for n in range(count - half)]
    return b"".join(struct.pack(">I", len(text)) + text.encode() for text in texts)


def text(count):
    return "\n".join(declaration(n) for n in range(count // 2)).encode()


def measure(words, data):
    """Processor seconds and the most memory in MiB, medians."""
    seconds, most = [], []
    with tempfile.TemporaryFile() as file:
        file.write(data)
        for _ in range(RUNS):
            file.seek(0)
            child = subprocess.Popen(words, stdin=file, stdout=subprocess.DEVNULL, stderr=subprocess.DEVNULL)
            _, status, used = os.wait4(child.pid, 0)
            child.returncode = os.waitstatus_to_exitcode(status)
            if child.returncode != 0:
                sys.exit(f"{words} ended with {child.returncode}")
            seconds.append(used.ru_utime + used.ru_stime)
            most.append(used.ru_maxrss / 1024)
    return statistics.median(seconds), statistics.median(most)


def main():
    registry = [f"{TOP}/crates/schema_registry_main/out/schema_registry_main", "register"]
    recover = [f"{TOP}/crates/cedar_schema_tool/out/cedar_schema_tool", "recover"]
    other = [word for one in sys.argv[1:] for word in shlex.split(one)]
    last = None
    for count in (12500, 25000, 50000, 100000):
        data = messages(count)
        took, most = measure(registry, data)
        once, _ = measure(recover, text(count))
        row = f"{count:7} messages {len(data):9} bytes {took:7.2f} s {most:6.0f} MiB"
        row += f"  {took / once:5.2f} of recover on one text"
        if last:
            row += f"  growth {took / last:4.2f}"
        if other:
            theirs, memory = measure(other, data)
            row += f"  {took / theirs:5.2f} of the other in {most / memory:4.2f} of its memory"
        print(row)
        last = took


if __name__ == "__main__":
    main()
