#!/usr/bin/env python3
"""Asks databases with damage of every kind: damage.py PBFROW FILE DB COUNT

DB holds FILE whole. Each of COUNT copies of it is damaged at random, the same way in each run: bytes turned, pages
overwritten, swapped, repeated or cut off, numbers in page headers changed, a log beside it. Each command then has to end
by itself within a minute, with 0 or with 1 and lines of faults, and without writing to a database that it is only asked.
`verify --elements` has to find what differs: where it ends with 0, the export is that of the sound database, and so is
what sqlite3 finds, if it is there.
"""
import hashlib
import os
import random
import shutil
import subprocess
import sys

SECONDS = 60


def run(words, **more):
    return subprocess.run(words, capture_output=True, timeout=SECONDS, **more)


def turned(data, rng):
    """A few bytes are others."""
    for _ in range(rng.choice([1, 1, 2, 8, 64])):
        data[rng.randrange(len(data))] ^= rng.randrange(1, 256)


def overwritten(data, rng):
    """A page has zeros, noise or the bytes of another page."""
    page = rng.randrange(len(data) // 4096) * 4096
    kind = rng.randrange(3)
    if kind == 0:
        data[page : page + 4096] = bytes(4096)
    elif kind == 1:
        data[page : page + 4096] = rng.randbytes(4096)
    else:
        other = rng.randrange(len(data) // 4096) * 4096
        data[page : page + 4096] = data[other : other + 4096]


def swapped(data, rng):
    """Two pages have changed places."""
    one, other = (rng.randrange(len(data) // 4096) * 4096 for _ in range(2))
    data[one : one + 4096], data[other : other + 4096] = data[other : other + 4096], data[one : one + 4096]


def cut(data, rng):
    """The file ends earlier."""
    del data[rng.randrange(1, len(data)) :]


def pointed(data, rng):
    """A number in the header of a page, or among its first cell pointers or children, is another."""
    page = rng.randrange(len(data) // 4096) * 4096
    at = page + (100 if page == 0 else 0) + rng.randrange(0, 24)
    data[at : at + 2] = rng.choice([b"\0\0", b"\xff\xff", rng.randbytes(2)])


def child(data, rng):
    """A page number of four bytes, which may be that of a child, an overflow page or a root, is that of another page."""
    page = rng.randrange(len(data) // 4096) * 4096
    at = page + rng.choice([8, rng.randrange(0, 4092)])
    data[at : at + 4] = rng.randrange(0, len(data) // 4096 + 2).to_bytes(4, "big")


KINDS = [turned, overwritten, swapped, cut, pointed, child]


def digest(folder):
    found = {}
    for name in sorted(os.listdir(folder)):
        with open(f"{folder}/{name}", "rb") as file:
            found[name] = hashlib.sha256(file.read()).hexdigest()
    return found


class Wrong(Exception):
    """What no command may do, whatever is damaged."""


def ended(program, words):
    """Runs a command, which has to end by itself, with 0, or with 1 and the line of a fault."""
    try:
        ran = run([program, *words])
    except subprocess.TimeoutExpired:
        raise Wrong(f"{words} didn't end") from None
    if ran.returncode not in (0, 1):
        raise Wrong(f"{words} ended with {ran.returncode}: {ran.stderr[-300:]}")
    if ran.returncode == 1 and not ran.stdout.strip():
        raise Wrong(f"{words} ended with 1 and said nothing")
    return ran


def damaged(whole, number):
    """A copy of the database with damage of its number's kind, and for every fifth number with a log of noise. Its path, or
    None where nothing came out damaged."""
    rng = random.Random(number)
    data = bytearray(whole)
    KINDS[number % len(KINDS)](data, rng)
    if bytes(data) == whole:
        return None
    shutil.rmtree("damaged", ignore_errors=True)
    os.mkdir("damaged")
    database = "damaged/a.db"
    with open(database, "wb") as file:
        file.write(data)
    if number % 5 == 4:
        with open(f"{database}-wal", "wb") as file:
            file.write(rng.randbytes(rng.choice([10, 32, 5000])))
    return database


def judged(program, name, database, right):
    """The status of `verify --elements`, once every command has been run on the database."""
    before = digest("damaged")
    for words in (["status", database], ["find", database, "n1"], ["export", database], ["verify", name, database]):
        ended(program, words)
    status = ended(program, ["verify", name, database, "--elements"]).returncode
    if digest("damaged") != before:
        raise Wrong("a database that was only asked has changed")
    if status == 0:
        if run([program, "export", database]).stdout != right:
            raise Wrong("verify found nothing, and the export differs")
        sqlite3 = ["sqlite3", "-readonly", f"file:{database}?immutable=1", "PRAGMA integrity_check"]
        if shutil.which("sqlite3") and run(sqlite3).stdout.strip() != b"ok":
            raise Wrong("verify found nothing, and sqlite3 finds it damaged")
    ended(program, ["import", name, database])
    return status


def main():
    program, name, sound, count = sys.argv[1:]
    with open(sound, "rb") as file:
        whole = file.read()
    right = run([program, "export", sound]).stdout
    found = [0, 0]
    for number in range(int(count)):
        database = damaged(whole, number)
        if database is None:
            continue
        try:
            found[judged(program, name, database, right)] += 1
        except Wrong as wrong:
            print(f"{number} ({KINDS[number % len(KINDS)].__name__}): {wrong}")
            return 1
    shutil.rmtree("damaged", ignore_errors=True)
    print(f"{found[1]} damaged databases in which verify found something, {found[0]} in which nothing differs")
    return 0


if __name__ == "__main__":
    sys.exit(main())
