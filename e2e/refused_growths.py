#!/usr/bin/env python3
"""Runs a command of pbfrow on the two-node file, or on databases that hold it, once for each growth of memory that it
makes, with that growth refused.

    refused_growths.py EVERY PROGRAM WORD..

EVERY is 1, or by how many growths to go on. The library refuse.so stands in the working folder. A run has to end in one
of these ways:

- as it ends with memory;
- with 2, nothing on standard output, and `error: out of memory` on standard error: the arguments weren't read;
- with 1 and, behind a front of the output, the line `fault 65 Memory` or `fault 65 Memory at OFFSET`; on standard error
  nothing, or the line that says of a database that memory was refused.

After each run of an import, a migrate or a merge the same with memory has to end with 0, and the export to be whole. What
is copied has to stay as it was. The counts of these ways are printed, and what went otherwise; the exit status is 1 if
something did.
"""
import glob
import os
import re
import shutil
import subprocess
import sys
import tempfile
from collections import Counter
from concurrent.futures import ThreadPoolExecutor

AS_WITH_MEMORY, ARGUMENTS, FAULT = "as with memory", "with 2 and no output", "with the line of the fault"
FAULT_LINE = re.compile(rb"fault 65 Memory(?: at (?:0|47|84))?\n\Z")
REASON = re.compile(rb"(?:pbfrow: .*: (?:memory was refused|out of memory)\n)?")

# Where the words of a command name databases, first the one that it fills or asks. All words of a merge do.
DATABASES = {"import": [2], "verify": [2], "status": [1], "export": [1], "find": [1], "migrate": [2, 1]}
FILLING = ("import", "migrate", "merge")

SECONDS = 60

# In memory, where there is such a folder: on a disk most of the time would be spent waiting for it.
FOLDER = "/dev/shm" if os.access("/dev/shm", os.W_OK) else None


def run(command, refused=None):
    """The exit status of a command, its output and its errors. Its growths may be counted, and one of them refused."""
    settings = dict(os.environ)
    if refused is not None:
        settings |= {"LD_PRELOAD": os.path.abspath("refuse.so"), "REFUSED_GROWTH": str(refused)}
    if refused == 0:
        settings["GROWTHS"] = "growths.txt"
    try:
        done = subprocess.run(command, env=settings, stdin=subprocess.DEVNULL, capture_output=True, timeout=SECONDS)
    except subprocess.TimeoutExpired:
        return None, b"", b"it didn't end"
    return done.returncode, done.stdout, done.stderr


def remove(name):
    for path in glob.glob(f"{name}*"):
        os.remove(path)


def counted(command):
    """What a command does with memory, and how many growths it makes."""
    remove("growths.txt")
    done = run(command, 0)
    try:
        with open("growths.txt", encoding="ascii") as file:
            return done, int(file.read())
    except OSError:
        return done, 0


def way_of(got, wanted, is_text):
    """In which of the ways a run has ended, if in one of them."""
    if got == wanted:
        return AS_WITH_MEMORY
    if got == (2, b"", b"error: out of memory\n"):
        return ARGUMENTS
    status, output, errors = got
    line = FAULT_LINE.search(output)
    if status != 1 or not REASON.fullmatch(errors) or not line:
        return None
    front = output[:line.start()]
    ends_line = not front or front.endswith(b"\n")
    return FAULT if wanted[1].startswith(front) and (ends_line or not is_text) else None


def places(words):
    """Where these words name databases."""
    return list(range(1, len(words))) if words[0] == "merge" else DATABASES.get(words[0], [])


def in_folder(words, folder):
    """The words of a command over copies in this folder of the databases that it names, and these copies."""
    moved = list(words)
    for place in places(words):
        for path in glob.glob(f"{words[place]}*"):
            shutil.copy(path, folder)
        moved[place] = os.path.join(folder, os.path.basename(words[place]))
    return moved, [moved[place] for place in places(words)]


def contents(names):
    """The bytes of databases."""
    read = []
    for name in names:
        with open(name, "rb") as file:
            read.append(file.read())
    return read


def tried(program, words, refusals, wanted, is_new):
    """Runs a command with each of these growths refused, over copies of its databases: the ways, and what went otherwise."""
    ways, told = Counter(), []
    with tempfile.TemporaryDirectory(dir=FOLDER) as folder:
        words, databases = in_folder(words, folder)
        database, copied = (databases[0], databases[1:]) if databases else (None, [])
        command, export = [program, *words], [program, "export", database]
        whole = database and run(export)
        before = contents(copied)
        for refused in refusals:
            if is_new:
                remove(database)
            got = run(command, refused)
            way = way_of(got, wanted, "pbf" not in words)
            ways[way] += 1
            if not way:
                told.append(f"growth {refused}: {got}")
            if words[0] in FILLING and (run(command)[0] != 0 or run(export) != whole):
                told.append(f"growth {refused}: the same again doesn't complete the {words[0]}")
            if contents(copied) != before:
                told.append(f"growth {refused}: what is copied isn't as it was")
        if database and run(export) != whole:
            told.append("the database isn't as it was")
    return ways, told


def main(every, program, *words):
    is_new = words[0] in FILLING and not os.path.exists(words[places(words)[0]])
    wanted, made = counted([program, *words])
    refusals = range(1, made + 1, int(every))
    # each worker has every so many of them, and a database of its own
    count = os.cpu_count() or 1
    with ThreadPoolExecutor(count) as pool:
        shares = list(pool.map(lambda k: tried(program, words, refusals[k::count], wanted, is_new), range(count)))
    ways, told = Counter(), []
    for share_ways, share_told in shares:
        ways += share_ways
        told += share_told
    if not made:
        told.append(f"no growth was counted: {wanted}")
    print(f"{sum(ways.values())} of {made} growths: " + ", ".join(f"{ways[it]} {it}" for it in (ARGUMENTS, FAULT, AS_WITH_MEMORY)))
    for line in told[:10]:
        print(line)
    return 1 if told else 0


if __name__ == "__main__":
    sys.exit(main(*sys.argv[1:]))
