#!/usr/bin/env python3
"""Merges databases that hold some blobs of one file, in lists: every_list.py PBFROW FILE [all]

FILE has a header and a data blob. The file here has its header and that data blob four times, so five blobs; a database is
made for each set of them. Each list of up to two databases, and of the lists of three some hundreds that are drawn (with
`all` each of the 29,791, which takes some minutes), are merged into a new database: it has to count what it copied and
what it held, and to hold the union, whatever the order.
"""
import itertools
import os
import random
import shutil
import subprocess
import sys
from concurrent.futures import ThreadPoolExecutor

BLOBS = 5
# the elements of the data blob, as lines
LINES = b"n 1 1000 -100 [] {}\nn 2 900 -100 [] {}\n"


def call(program, folder, *words, piece=b""):
    return subprocess.run([program, *words], input=piece, capture_output=True, cwd=folder)


def name_of(held):
    return "set-" + "".join(map(str, held)) + ".db"


def make(program, folder, frames, places, held):
    """Makes a database that holds these blobs."""
    for blob in held:
        ran = call(program, folder, "import", "/dev/stdin", name_of(held), "--at", str(places[blob]), piece=frames[blob])
        if ran.returncode:
            raise SystemExit(f"{name_of(held)}: {ran.stdout} {ran.stderr}")


def is_union(program, folder, sets):
    """Whether the merge of these databases has told and holds what they hold together."""
    union, wanted = set(), b""
    for held in sets:
        wanted += b"copied %d held %d\n" % (len(set(held) - union), len(union & set(held)))
        union |= set(held)
    wanted += b"blobs copied %d held %d\n" % (len(union), sum(map(len, sets)) - len(union))
    told = call(program, folder, "merge", "into.db", *map(name_of, sets))
    lines = call(program, folder, "export", "into.db", "--partial")
    for name in ("into.db", "into.db-wal"):
        if os.path.exists(f"{folder}/{name}"):
            os.remove(f"{folder}/{name}")
    return told.stdout == wanted and told.returncode == 0 and lines.stdout == LINES * len(union - {0}) and lines.returncode == 0


def others(program, folder, lists):
    """The lists that make another union. A database is read by one program at a time, so each worker has its own."""
    return [it for it in lists if not is_union(program, folder, it)]


def main():
    program, name, *words = sys.argv[1:]
    with open(name, "rb") as file:
        whole = file.read()
    frames = [whole[:47]] + [whole[47:]] * (BLOBS - 1)
    places = [0] + [47 + at * len(frames[1]) for at in range(BLOBS - 1)]
    sets = [it for size in range(1, BLOBS + 1) for it in itertools.combinations(range(BLOBS), size)]
    os.mkdir("lists-0")
    for held in sets:
        make(program, "lists-0", frames, places, held)
    lists = [it for size in (1, 2) for it in itertools.product(sets, repeat=size)]
    triples = list(itertools.product(sets, repeat=3))
    lists += triples if words == ["all"] else random.Random(7).sample(triples, 300)
    workers = os.cpu_count()
    for worker in range(1, workers):
        shutil.copytree("lists-0", f"lists-{worker}")
    with ThreadPoolExecutor(workers) as pool:
        found = pool.map(lambda it: others(program, f"lists-{it}", lists[it::workers]), range(workers))
        wrong = [it for each in found for it in each]
    for it in wrong:
        print(f"another union: {it}")
    print(f"{len(lists)} lists")
    return 1 if wrong else 0


if __name__ == "__main__":
    sys.exit(main())
