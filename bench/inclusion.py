#!/usr/bin/env python3
"""Times the comparison of a schema with itself beside `recover` of the same schema.

usage: bench/inclusion.py [RUNS]   (build first: ./cedar_schema_tool --build and ./schema_inclusion --build)

Printed are processor seconds, medians of RUNS or five, and the most memory in use. Wanted: at most 2.5 times one
`recover`, and at most 2.1 times the time for an input twice as long.
"""
import os
import statistics
import struct
import subprocess
import sys
import tempfile

TOP = os.path.dirname(os.path.dirname(os.path.abspath(__file__)))
RUNS = int(sys.argv[1]) if len(sys.argv) > 1 else 5
RECOVER = [f"{TOP}/crates/cedar_schema_tool/out/cedar_schema_tool", "recover"]
INCLUDE = [f"{TOP}/crates/schema_inclusion_main/out/schema_inclusion_main", "include"]


def plain(count):
    """So many entity types with attributes, a third as many enumerated ones, and actions over them."""
    out = ["entity Root;"]
    for k in range(count // 2):
        attributes = "name: String, size?: Long, tags: Set<String>, owner: { id: Long, mail: String }"
        out.append(f"entity User{k:06} in [Root] = {{ {attributes} }};")
    for k in range(count // 6):
        out.append(f'entity Kind{k:06} enum ["first", "second"];')
    for k in range(count // 3):
        kinds = f"principal: [User{k:06}], resource: [User{k:06}, Root]"
        context = f"context: {{ kind: Kind{k // 2:06}, at: Long }}"
        out.append(f'action "act{k:06}" in ["any"] appliesTo {{ {kinds}, {context} }};')
    out.append('action "any";')
    return "\n".join(out)


def one_enum(count):
    """One entity type with so many choices, and as many attributes of it."""
    choices = ", ".join(f'"choice{k:06}"' for k in range(count))
    attributes = ", ".join(f"a{k:06}: Kind" for k in range(count))
    return f"entity Kind enum [{choices}]; entity User {{ {attributes} }};"


def deep_types(count):
    """Records in records by shared types: each stands twice in the next, so far as memory allows, and many beside."""
    out = ["type T0 = { a: Long };"] + [f"type T{k} = {{ a: T{k - 1}, b: T{k - 1} }};" for k in range(1, 8)]
    out += [f"entity User{k:06} = {{ t: T7 }};" for k in range(count // 255)]
    return "\n".join(out)


def ancestors(count):
    """Entity types that each stand below a hundred others."""
    out = [f"entity Root{k:03};" for k in range(100)]
    roots = ", ".join(f"Root{k:03}" for k in range(100))
    return "\n".join(out + [f"entity User{k:06} in [{roots}];" for k in range(count // 20)])


def measure(words, data):
    """Processor seconds and the most memory in MiB, medians, and what was written."""
    seconds, most = [], []
    with tempfile.TemporaryFile() as file:
        file.write(data)
        for _ in range(RUNS):
            file.seek(0)
            with tempfile.TemporaryFile() as out:
                child = subprocess.Popen(words, stdin=file, stdout=out, stderr=subprocess.DEVNULL)
                _, status, used = os.wait4(child.pid, 0)
                child.returncode = os.waitstatus_to_exitcode(status)
                if child.returncode != 0:
                    sys.exit(f"{words} ended with {child.returncode}")
                out.seek(0)
                written = out.read()
            seconds.append(used.ru_utime + used.ru_stime)
            most.append(used.ru_maxrss / 1024)
    return statistics.median(seconds), statistics.median(most), written


def messages(*texts):
    return b"".join(struct.pack(">I", len(text)) + text for text in texts)


def main():
    for make in (plain, one_enum, deep_types, ancestors):
        last = None
        for count in (7500, 15000, 30000, 60000):
            text = make(count).encode()
            took, most, written = measure(INCLUDE, messages(text, text))
            if written != b"included\n":
                sys.exit(f"{make.__name__} {count}: {written[:200]}")
            once, memory, _ = measure(RECOVER, text)
            row = f"{make.__name__:11} {count:6} {len(text):9} bytes {took:6.2f} s {most:5.0f} MiB"
            row += f"  {took / once:5.2f} of recover in {most / memory:4.2f} of its memory"
            print(row + (f"  growth {took / last:4.2f}" if last else ""), flush=True)
            last = took


if __name__ == "__main__":
    main()
