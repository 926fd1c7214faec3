#!/usr/bin/env python3
"""Kills the stored registry at random times, and compares what the file holds with what was answered.

usage: bench/kill_store.py --build      proves and links the program, bench/stored_lines.source (takes many minutes)
       bench/kill_store.py [ROUNDS]     runs the trials (50 rounds)

Each round sends schemas, some of them known and written differently, and kills the process after a random time. Then
the file is opened again: each meaning that was answered has its id still, and the schema that was sent last and not
answered has the next id or that of the row that was committed. At the end sqlite3 reads the file: ids count from 0,
each sum is that of its text, and no row is half. Other trials open a file that is open, that is no registry, or whose
disk is full.
"""
import hashlib
import importlib.machinery
import importlib.util
import os
import random
import shutil
import sqlite3
import subprocess
import sys
import tempfile
import threading
import time

TOP = os.path.dirname(os.path.dirname(os.path.abspath(__file__)))
NAME = "stored_lines"
USES = "cedar_names schema_registry_store sqlite"
CACHE = os.environ.get("XDG_CACHE_HOME") or os.path.expanduser("~/.cache")
ROOM = f"{CACHE}/cedar_schema/{NAME}"
PROGRAM = f"{ROOM}/crates/{NAME}/out/{NAME}"
CREATE = "CREATE TABLE entry (id INTEGER PRIMARY KEY, sum BLOB NOT NULL UNIQUE, text TEXT NOT NULL) STRICT"
# How the program ends.
ANSWERED, FAILED, NOT_OPENED = 0, 1, 2


def build():
    """Runs the gate over a copy of the crates and the program, as tools/build does."""
    loader = importlib.machinery.SourceFileLoader("build", f"{TOP}/tools/build")
    tool = importlib.util.module_from_spec(importlib.util.spec_from_loader("build", loader))
    loader.exec_module(tool)
    table = {**tool.dependencies(), NAME: (f"{NAME}: {USES}", USES.split())}
    crates = tool.needed(table, [NAME])
    tool.copy_sources(table, crates[:-1], ROOM)
    os.makedirs(f"{ROOM}/crates/{NAME}/src")
    shutil.copy2(f"{TOP}/bench/{NAME}.source", f"{ROOM}/crates/{NAME}/src/main.rt")
    with open(f"{ROOM}/crates.txt", "a", encoding="utf-8") as file:
        file.write(f"{table[NAME][0]}\n")
    is_proved = tool.prove(ROOM, f"{ROOM}/log", tool.Progress(NAME, crates))
    print(PROGRAM if is_proved else f"not built; the whole log is {ROOM}/log")
    return 0 if is_proved else tool.FAILED


def schema(name, size):
    return f"entity {name} = {{ " + ", ".join(f"a{n:04}: Long" for n in range(size)) + " };"


class Store:
    def __init__(self, folder):
        pipe = subprocess.PIPE
        self.process = subprocess.Popen([PROGRAM], cwd=folder, stdin=pipe, stdout=pipe, bufsize=0)

    def submit(self, text):
        """The id, or None where no whole line came back."""
        try:
            self.process.stdin.write(f"{text}\n".encode())
        except BrokenPipeError:
            return None
        line = self.process.stdout.readline()
        return int(line.split()[1]) if line.endswith(b"\n") else None

    def end(self):
        self.process.kill()
        self.process.wait()


def run(folder, text):
    """How the program ends on these lines, and what it writes."""
    ran = subprocess.run([PROGRAM], cwd=folder, input=text, capture_output=True, text=True, check=False)
    return ran.returncode, ran.stdout


def shows(ids, count, text):
    """What the program writes where it answers by these ids, and there are so many entries, the last with this text."""
    return ANSWERED, "".join(f"entry {id}\n" for id in ids) + f"{count} entries\n{text}"


def rows_of(folder):
    """The rows of the file, as sqlite3 reads them."""
    database = sqlite3.connect(f"{folder}/registry.db")
    rows = database.execute("SELECT id, sum, text FROM entry ORDER BY id").fetchall()
    database.close()
    return rows


def expect(is_so, what):
    if not is_so:
        sys.exit(what)


def expect_whole(rows):
    """Ids count from 0, and each sum is that of its text."""
    for place, (id, total, text) in enumerate(rows):
        expect(id == place and hashlib.sha256(text.encode()).digest() == total, f"row {place} is wrong")


def one_round(number, folder, known):
    """Sends schemas until the process is killed. Returns the schema that was sent last, and not answered."""
    store = Store(folder)
    killer = threading.Timer(random.uniform(0.005, 0.25), store.process.kill)
    killer.start()
    for count in range(10**6):
        again = known and random.random() < 0.3
        text = random.choice(list(known)) if again else schema(f"E{number}x{count}", random.choice([0, 1, 10, 300]))
        found = store.submit(text + (" // again" if again else ""))
        if found is None:
            break
        expect(found == known.setdefault(text, found), f"{text[:40]} had the entry {known[text]} and has {found}")
    killer.cancel()
    store.end()
    return text


def kills(rounds):
    known = {}
    with tempfile.TemporaryDirectory() as folder:
        for number in range(rounds):
            last = one_round(number, folder, known)
            store = Store(folder)
            for text in random.sample(list(known), min(200, len(known))):
                expect(store.submit(text) == known[text], f"an entry that was answered is lost: {text[:40]}")
            if last not in known:
                known[last] = store.submit(last)
            store.end()
            expect(sorted(known.values()) == list(range(len(known))), "the entries do not count from 0")
        rows = rows_of(folder)
    expect_whole(rows)
    expect(len(rows) == len(known), f"the file has {len(rows)} rows, and {len(known)} meanings were answered")
    for text, place in known.items():
        expect(text.split()[1] in rows[place][2], f"row {place} has another schema")
    return f"{rounds} kills, {len(rows)} entries: none lost, no half entry"


def answers():
    """The answers to a new file: by meanings, and refusals."""
    with tempfile.TemporaryDirectory() as folder:
        expect(run(folder, "") == (ANSWERED, "no entry\n"), "a new file")
        lines = "entity A;\nentity B;\nentity A ;//x\nentity A in B;\nentity B, A;\nentity A\n\n"
        wanted = "entry 0\nentry 1\nentry 0\nrefused\nentry 2\nrefused\nentry 3\n4 entries\n"
        expect(run(folder, lines) == (ANSWERED, wanted), "the answers to a new file")
        expect(run(folder, "entity A; entity B;\n") == shows([2], 4, ""), "the answers of a second process")
    return "a new file: answered by meanings, again after it is closed"


def second_process():
    """A file that is open is not opened again, and the first process goes on."""
    with tempfile.TemporaryDirectory() as folder:
        store = Store(folder)
        expect(store.submit("entity A;") == 0, "the first entry")
        expect(run(folder, "entity B;\n") == (NOT_OPENED, ""), "a second process had the file")
        expect(store.submit("entity B;") == 1, "the first process lost the file")
        store.end()
        expect(run(folder, "entity B;\nentity C;\n") == shows([1, 2], 3, "entity C;\n"), "the file after both")
    return "a second process: refused, and the first goes on"


def database(path, *statements):
    made = sqlite3.connect(path)
    for statement in statements:
        made.execute(*statement)
    made.commit()
    made.close()


def row(id, text, total=None):
    return "INSERT INTO entry VALUES (?, ?, ?)", (id, total or hashlib.sha256(text.encode()).digest(), text)


def foreign_files():
    """Files that are no registry are refused, and left as they are."""
    trials = {
        "letters": None,
        "another table": [("CREATE TABLE entry (id INTEGER PRIMARY KEY, text TEXT)",)],
        "a further table": [(CREATE,), ("CREATE TABLE other (id INTEGER PRIMARY KEY)",)],
        "a further index": [(CREATE,), ("CREATE INDEX texts ON entry (text)",)],
        "a wrong sum": [(CREATE,), row(0, "entity A;\n", bytes(32))],
        "ids from 1": [(CREATE,), row(1, "entity A;\n")],
        "a gap": [(CREATE,), row(0, "entity A;\n"), row(2, "entity B;\n")],
    }
    for name, statements in trials.items():
        with tempfile.TemporaryDirectory() as folder:
            path = f"{folder}/registry.db"
            if statements is None:
                with open(path, "wb") as file:
                    file.write(b"no database " * 1000)
            else:
                database(path, *statements)
            with open(path, "rb") as file:
                before = file.read()
            expect(run(folder, "entity A;\n") == (NOT_OPENED, ""), f"{name}: not refused")
            with open(path, "rb") as file:
                expect(file.read() == before, f"{name}: the file is changed")
    return f"{len(trials)} files that are no registry: refused, and left as they are"


def own_file():
    """A file that another program made in the same form is taken."""
    with tempfile.TemporaryDirectory() as folder:
        database(f"{folder}/registry.db", (CREATE,), row(0, "entity B;\n"), row(1, "entity A;\n"))
        answer = run(folder, "entity A;\nentity C;\nentity B ;\n")
        expect(answer == shows([1, 2, 0], 3, "entity C;\n"), f"a file of another program: {answer}")
    return "a file of another program in the same form: taken"


def full_disk(size):
    """Fills a disk of this size. What was answered is there, once there is room again."""
    with tempfile.TemporaryDirectory() as folder, tempfile.TemporaryDirectory() as copy:
        subprocess.run(["mount", "-t", "tmpfs", "-o", f"size={size}", "tmpfs", folder], check=True)
        try:
            lines = "".join(schema(f"E{n}", 100) + "\n" for n in range(3000))
            status, out = run(folder, lines)
            count = len(out.splitlines())
            expect(status == (FAILED if count else NOT_OPENED), f"a full disk: {status}")
            expect(out == "".join(f"entry {id}\n" for id in range(count)), "the answers on a full disk")
            for name in os.listdir(folder):
                shutil.copy2(f"{folder}/{name}", f"{copy}/{name}")
        finally:
            subprocess.run(["umount", folder], check=True)
        again, out = run(copy, lines)
        ids = [int(line.split()[1]) for line in out.splitlines() if line.startswith("entry ")]
        expect(again == ANSWERED and ids == list(range(3000)), "after the full disk")
        expect_whole(rows_of(copy))
    return f"a full disk of {size} bytes after {count} entries: none lost"


def main():
    if sys.argv[1:] == ["--build"]:
        return build()
    rounds = int(sys.argv[1]) if len(sys.argv) > 1 else 50
    random.seed(7)
    began = time.time()
    for trial in (answers, second_process, foreign_files, own_file):
        print(trial())
    for size in (2**16, 2**20, 2**21) if os.geteuid() == 0 else ():
        print(full_disk(size))
    print(f"{kills(rounds)}, {time.time() - began:.1f} s")
    return 0


if __name__ == "__main__":
    sys.exit(main())
