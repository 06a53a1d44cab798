#!/usr/bin/env python3
"""threads_pbfrow.py FILE ROUNDS: how long it takes to decode a file that is in memory, by one, two and four threads of one process,
by so many processes, which share nothing, and as `blocks` decodes it ahead for a loop that has each block in turn: medians of so
many rounds, all of them in turn, and how one compares with four in the same round. Each thread or process takes the next blob that
none has taken; each block is dropped once it is decoded. Where four take more processor time than one for the same blobs, a
processor of this machine is slower while the others work, too; what is lost otherwise is waiting.

Beside them stands what four processors of this machine can do at all: processes that share work that needs no memory, and such
that copy memory from one place to another. Last comes what the threads spend their time on."""
import os
import resource
import statistics
import sys
import time
from threading import Thread, local

import numpy as np
import pbfrow
from pbfrow._library import library


def decode_all(file, todo):
    for blob in todo:
        file.decode(blob)


def in_threads(count, work):
    threads = [Thread(target=work) for _ in range(count)]
    for thread in threads:
        thread.start()
    for thread in threads:
        thread.join()


def by_threads(file, blobs, count):
    todo = iter(blobs)
    in_threads(count, lambda: decode_all(file, todo))


def spent(file, blobs, count):
    """By so many threads: the seconds of all of them together in the library's call, in Python, of both in the kernel, and waiting, and
    then how long the slowest and the fastest took."""
    rows, call, in_call, todo = [], library.pbfrow_block_columns, local(), iter(blobs)

    def timed(*words):
        start = time.thread_time()
        status = call(*words)
        in_call.seconds += time.thread_time() - start
        return status

    def work():
        in_call.seconds = 0
        wall, used = time.perf_counter(), time.thread_time()
        decode_all(file, todo)
        in_kernel = resource.getrusage(resource.RUSAGE_THREAD).ru_stime
        rows.append((time.perf_counter() - wall, time.thread_time() - used, in_call.seconds, in_kernel))

    library.pbfrow_block_columns = timed
    in_threads(count, work)
    library.pbfrow_block_columns = call
    walls, used, called, in_kernel = zip(*rows)
    return sum(called), sum(used) - sum(called), sum(in_kernel), sum(walls) - sum(used), max(walls), min(walls)


def in_processes(count, work):
    """Does some work in each of so many processes."""
    children = []
    for _ in range(count):
        child = os.fork()
        if child == 0:
            work()
            os._exit(0)
        children.append(child)
    for child in children:
        os.waitpid(child, 0)


def by_processes(file, blobs, count):
    """The numbers of the blobs stand in a pipe, out of which each process takes the next one."""
    out, into = os.pipe()
    os.write(into, b"".join(number.to_bytes(4, "little") for number in range(len(blobs))))
    os.close(into)
    numbers = iter(lambda: os.read(out, 4), b"")
    in_processes(count, lambda: decode_all(file, (blobs[int.from_bytes(number, "little")] for number in numbers)))
    os.close(out)


def by_counting(_file, _blobs, count):
    in_processes(count, lambda: sum(range(ADDED // count)))


def by_copying(_file, _blobs, count):
    def copy():
        source, target = np.zeros(COPIED, np.uint8), np.zeros(COPIED, np.uint8)
        for _ in range(COPIES // count):
            target[:] = source

    in_processes(count, copy)


def by_blocks(file, blobs, count):
    for _ in file.blocks(count):
        pass


NAMES = {
    by_threads: "threads",
    by_processes: "processes",
    by_blocks: "blocks in turn, threads",
    by_counting: "processes that only add numbers up",
    by_copying: "processes that only copy memory",
}
# how many numbers are added up, and how often so many bytes are copied, by all processes together: each takes about as long as decoding
ADDED, COPIED, COPIES = 80_000_000, 1 << 24, 512


def took(call, *words):
    wall, used = time.perf_counter(), sum(os.times()[:4])
    call(*words)
    return time.perf_counter() - wall, sum(os.times()[:4]) - used


def spread(figures):
    return f"{statistics.median(figures):.2f} ({min(figures):.2f} to {max(figures):.2f})"


def main():
    path, rounds = sys.argv[1], int(sys.argv[2])
    ways = [(call, count) for call in NAMES for count in (1, 2, 4)]
    taken = {way: [] for way in ways}
    with pbfrow.open(path) as file:
        blobs = list(file.blobs())
        by_threads(file, blobs, 1)
        for _ in range(rounds):
            for way in ways:
                taken[way].append(took(way[0], file, blobs, way[1]))
        profiles = [[spent(file, blobs, count) for count in (1, 2, 4)] for _ in range(rounds)]
    print(f"\ndecoding alone, {os.path.getsize(path)} bytes in memory, without the start of Python; medians of {rounds} rounds (least to greatest)\n")
    print("| By | one, s | two, s | four, s | one / four | processor time of four / of one |\n|---|---|---|---|---|---|")
    for call, name in NAMES.items():
        walls = [spread([wall for wall, _ in taken[call, count]]) for count in (1, 2, 4)]
        both = [*zip(taken[call, 1], taken[call, 4])]
        faster = spread([one[0] / four[0] for one, four in both])
        print(f"| {name} | {' | '.join(walls)} | {faster} | {spread([four[1] / one[1] for one, four in both])} |")
    print("\nwhat threads spend, in seconds of all of them together, and how long one takes\n")
    print("| Threads | in the library's call | in Python | of both in the kernel | waiting | the slowest | the fastest |\n|---|---|---|---|---|---|---|")
    for count, taken_by in zip((1, 2, 4), zip(*profiles)):
        print(f"| {count} | {' | '.join(f'{statistics.median(column):.3f}' for column in zip(*taken_by))} |")


main()
