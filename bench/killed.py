#!/usr/bin/env python3
"""Kills imports, and says how long it takes to go on: killed.py PBFROW FILE DATABASE BLOBS..

The file is imported into a new database, and killed (`kill -9`) once so many of its blobs are answered; the same import is
run again, and killed at the next count. Prints a table: how large the database and its log were when it was killed, and the
wall seconds of the import behind it to its first line, which says that a blob is held, and to the first blob that it stores:
the best of three runs, each over what the kill left, once that is on the disk.
"""
import os
import shutil
import subprocess
import sys
import time


def size(path):
    return os.path.getsize(path) if os.path.exists(path) else 0


def import_up_to(words, blobs):
    """Runs the import until so many blobs are answered. Seconds to the first line, and to the first blob that is stored."""
    start = time.monotonic()
    first = stored = None
    with subprocess.Popen(words, stdout=subprocess.PIPE) as importing:
        for answered, line in enumerate(importing.stdout, 1):
            now = time.monotonic() - start
            first = first or now
            if b" stored " in line:
                stored = stored or now
            if answered >= blobs and stored:
                break
        importing.kill()
    return first, stored


def best_of_runs(words, files, blobs):
    """The best of three imports up to so many blobs, each over copies of these files as they are now."""
    kept = [(it, f"{it}.kept") for it in files if os.path.exists(it)]
    for it, copy in kept:
        shutil.copyfile(it, copy)
    taken = []
    for _ in range(3):
        for it, copy in kept:
            shutil.copyfile(copy, it)
        os.sync()
        taken.append(import_up_to(words, blobs))
    for _, copy in kept:
        os.remove(copy)
    return min(taken, key=lambda it: it[1])


def main():
    program, file, database, *counts = sys.argv[1:]
    words = [program, "import", file, database]
    files = [database, f"{database}-wal"]
    for it in [*files, f"{database}-journal"]:
        if os.path.exists(it):
            os.remove(it)
    import_up_to(words, int(counts[0]))
    print("| Killed behind | bytes of the database | bytes of its log | s to the first line | s to the first new blob |")
    print("|---|---|---|---|---|")
    for blobs, following in zip(counts, [*counts[1:], "0"]):
        sizes = [size(it) for it in files]
        first, stored = best_of_runs(words, files, int(following))
        print(f"| {blobs} blobs | {sizes[0]:,} | {sizes[1]:,} | {first:.2f} | {stored:.2f} |", flush=True)
    for it in files:
        os.remove(it)


if __name__ == "__main__":
    main()
