#!/usr/bin/env python3
"""Gives the registry hostile inputs, compares each answer byte for byte, and measures time and memory.

usage: bench/registry_hostile.py      (build first: ./schema_registry --build)

The answers are stated here, by the rule that a message is four bytes with its length, the highest first, and then so
many bytes. No memory may be taken for what a length announces: such inputs are run in little address space. Printed are
processor seconds and the most memory in use, of which some 12 MiB are the tool's own. The tool ends with 1 where an
answer differs.
"""
import os
import resource
import struct
import sys
import tempfile

TOP = os.path.dirname(os.path.dirname(os.path.abspath(__file__)))
PROGRAM = f"{TOP}/crates/schema_registry_main/out/schema_registry_main"

# How many bytes an input may have.
MOST = 2**24
# The address space of a run on an input that announces more than it gives: some inputs have 16 MiB.
SMALL_ROOM = 2**27
FRESH = os.O_WRONLY | os.O_CREAT | os.O_TRUNC

DONE, REFUSED, TOO_LONG, MEMORY = 0, 1, 6, 7
CUT_SHORT = (REFUSED, "", "error: the last message is cut short\n")
IS_TOO_LONG = (TOO_LONG, "", "error: the input is longer than 16777216 bytes\n")
OUT_OF_MEMORY = (MEMORY, "", "")


def done(out):
    return DONE, out, ""


def length(count):
    return struct.pack(">I", count)


def message(text):
    data = text if isinstance(text, bytes) else text.encode()
    return length(len(data)) + data


def filled(start, part, end=""):
    """A message that fills a whole input: the start, the part again and again, blanks, and the end."""
    room = MOST - 4 - len(start) - len(end)
    count = room // len(part)
    return message(start + part * count + " " * (room - count * len(part)) + end)


def brackets(depth):
    return f"entity A = {{ a: {'Set<' * depth}Long{'>' * depth} }};"


def distinct(count):
    """So many messages, each with another meaning."""
    return b"".join(message(f"entity E{n};") for n in range(count))


# Each row: what it is, the input, and its answer.
def rows():
    empty, small = message(""), message("entity A;")
    yield "no message", b"", done("")
    yield "1,000,000 empty messages", empty * 10**6, done("entry 0\n" * 10**6)
    yield "4,194,304 empty messages", empty * 2**22, done("entry 0\n" * 2**22)
    yield "one byte past what an input may have", empty * 2**22 + b"\0", IS_TOO_LONG
    yield "a message of 16 MiB", message(" " * MOST), IS_TOO_LONG
    yield "a whole input of blanks", message(" " * (MOST - 4)), done("entry 0\n")
    yield "a whole input that is one word", message("a" * (MOST - 4)), done("refused\n")
    yield "a whole input of one comment", message("/" * (MOST - 4)), done("entry 0\n")
    yield "a whole input that is not text", message(b"\xff" * (MOST - 4)), done("not text\n")
    yield "a whole input of zeros behind a message", small + b"\0" * (MOST - 13), CUT_SHORT
    yield "a whole input of declarations", filled("entity A;", " action a;"), done("refused\n")
    yield "a whole input of the same namespace", filled("", "namespace N {}\n"), done("entry 0\n")
    yield "a whole input of one list", filled("entity A in [A", ", A", "];"), done("entry 0\n")
    yield "a whole input of open brackets", message("{" * (MOST - 4)), done("refused\n")
    yield "4,000 nested sets", message(brackets(4000)), done("entry 0\n")
    yield "5,000 nested sets", message(brackets(5000)), OUT_OF_MEMORY
    yield "100,000 meanings", distinct(10**5), done("".join(f"entry {n}\n" for n in range(10**5)))
    yield "a message behind 100,000 meanings", distinct(10**5) + small * 2, done(
        "".join(f"entry {n}\n" for n in range(10**5)) + f"entry {10**5}\n" * 2
    )
    yield "a text cut inside a character", message(b"entity A; // \xf0\x9f\x98"), done("not text\n")
    yield "a byte order mark", message(b"\xef\xbb\xbfentity A;"), done("refused\n")
    yield "a zero byte", message("entity A;\0"), done("refused\n")
    yield "a message in a message", message(small), done("refused\n")


def announcements():
    """Lengths that go past the end, each behind nothing and behind a message."""
    small = message("entity A;")
    for count in (1, 2**8, 2**16, 2**24 - 4, 2**24, 2**31 - 1, 2**31, 2**32 - 1):
        for front in (b"", small):
            for body in (b"", b"x" * min(count - 1, 9)):
                yield f"{count} bytes announced, {len(body)} given", front + length(count) + body, CUT_SHORT
    yield "2^32-1 bytes announced, 16 MiB given", length(2**32 - 1) + b"x" * (MOST - 4), CUT_SHORT
    yield "one byte more announced than given", length(MOST - 3) + b" " * (MOST - 4), CUT_SHORT


# Small inputs to cut at every place: each message with its line.
SMALL = [
    [("entity A;", "entry 0"), ("entity B;", "entry 1"), ("entity A ;//x", "entry 0"), ("entity A", "refused")],
    [("", "entry 0"), (b"\xff", "not text"), ("", "entry 0"), ("entity A, B;", "entry 1"), ("entity B, A;", "entry 1")],
    [("x" * 256, "refused"), ("namespace N { entity B, A; }", "entry 0"), ("\0\0\0\1", "refused")],
]


def prefixes():
    for messages in SMALL:
        data, answers = b"", {0: done("")}
        for text, line in messages:
            data += message(text)
            answers[len(data)] = done(answers[max(answers)][1] + line + "\n")
        for end in range(len(data) + 1):
            yield f"{end} of {len(data)} bytes", data[:end], answers.get(end, CUT_SHORT)


class Runner:
    """Runs the program from a small process, since the memory that the system tells of a run counts its parent's."""

    def __init__(self):
        asks, self.asks = os.pipe()
        self.tells, tells = os.pipe()
        if os.fork() == 0:
            os.close(self.asks)
            with os.fdopen(asks) as lines, os.fdopen(tells, "w", buffering=1) as out:
                for line in lines:
                    print(*self.serve(*line.split()), file=out)
            os._exit(0)
        os.close(asks)
        os.close(tells)
        self.lines = os.fdopen(self.tells)

    @staticmethod
    def serve(folder, room):
        """The code, the processor seconds and the most memory in MiB of a run with so many bytes of address space."""
        pid = os.fork()
        if pid == 0:
            for number, (name, flags) in enumerate((("in", os.O_RDONLY), ("out", FRESH), ("err", FRESH))):
                os.dup2(os.open(f"{folder}/{name}", flags), number)
            if room != "all":
                resource.setrlimit(resource.RLIMIT_AS, (int(room), int(room)))
            os.execv(PROGRAM, [PROGRAM, "register"])
        _, status, used = os.wait4(pid, 0)
        return os.waitstatus_to_exitcode(status), used.ru_utime + used.ru_stime, used.ru_maxrss / 1024

    def run(self, data, room="all"):
        """How a run ends, what it writes, its processor seconds and the most memory in MiB."""
        with tempfile.TemporaryDirectory() as folder:
            write(f"{folder}/in", data)
            os.write(self.asks, f"{folder} {room}\n".encode())
            code, seconds, most = self.lines.readline().split()
            return (int(code), read(f"{folder}/out"), read(f"{folder}/err")), float(seconds), float(most)


def write(path, data):
    with open(path, "wb") as file:
        file.write(data)


def read(path):
    with open(path, encoding="utf-8") as file:
        return file.read()


def differs(name, answer, wanted):
    if answer == wanted:
        return False
    print(f"{name}: {answer[0]} {answer[1][:80]!r} {answer[2][:80]!r}")
    print(f"    not {wanted[0]} {wanted[1][:80]!r} {wanted[2]!r}")
    return True


def main():
    runner, wrong = Runner(), 0
    print("| input | bytes | seconds | MiB |\n|---|---|---|---|")
    for name, data, wanted in rows():
        answer, seconds, most = runner.run(data)
        print(f"| {name} | {len(data):,} | {seconds:.2f} | {most:.0f} |", flush=True)
        wrong += differs(name, answer, wanted)
    announced = list(announcements())
    wrong += sum(differs(name, runner.run(data, SMALL_ROOM)[0], wanted) for name, data, wanted in announced)
    print(f"{len(announced)} announcements past the end, in {SMALL_ROOM >> 20} MiB of address space")
    cuts = list(prefixes())
    wrong += sum(differs(name, runner.run(data)[0], wanted) for name, data, wanted in cuts)
    print(f"{len(cuts)} inputs cut at every place")
    sys.exit(1 if wrong else 0)


if __name__ == "__main__":
    main()
