#!/usr/bin/env python3
"""Runs a scenario of the program of e2e/calls once for each growth of memory that it makes, with that growth refused.

    refused_calls.py PROGRAM WORD..

The library refuse.so stands in the working folder. The program makes a call that is refused memory once more, and looks at
what it is answered then. A run has to end with 0 and one of these words:

- `refused`: a call has said that memory was refused, and then it gave the right answer;
- `right`: the answer was right at once;
- `beside`: the growth was none of the call's.

The counts are printed, and what went otherwise. The exit status is 1 if something did, or no call was refused memory.
"""
import os
import sys
from collections import Counter
from concurrent.futures import ThreadPoolExecutor

from refused_growths import counted, run

WAYS = ["refused", "right", "beside"]


def way_of(got):
    """In which of the ways a run has ended, if in one of them."""
    status, output, errors = got
    word = output.decode("utf-8", "replace")
    return word if status == 0 and not errors and word in WAYS else None


def main(program, *words):
    command = [program, *words]
    wanted, made = counted(command)
    refusals = range(1, made + 1)
    with ThreadPoolExecutor(os.cpu_count() or 1) as pool:
        ended = list(pool.map(lambda refused: run(command, refused), refusals))
    ways = Counter(way_of(got) for got in ended)
    told = [f"growth {refused}: {got}" for refused, got in zip(refusals, ended) if not way_of(got)]
    if way_of(wanted) != "right":
        told.append(f"with memory: {wanted}")
    if not ways["refused"]:
        told.append("no call was refused memory")
    print(f"{made} growths: " + ", ".join(f"{ways[way]} {way}" for way in WAYS))
    for line in told[:10]:
        print(line)
    return 1 if told else 0


if __name__ == "__main__":
    sys.exit(main(*sys.argv[1:]))
