#!/usr/bin/env python3
"""openings.py PROGRAM OTHER FILE ROUNDS: how long two programs take to open a database of a file, in milliseconds: `status`, `find`,
and an `import` of what is held already. Both in turn, so many rounds, each second one the other way round; medians, and the median of
one divided by the other in the same round. Each asks the database that it has made."""
import statistics
import subprocess
import sys
import tempfile
import time


def milliseconds(words):
    start = time.perf_counter()
    subprocess.run(words, stdout=subprocess.DEVNULL, check=True)
    return (time.perf_counter() - start) * 1e3


def main():
    programs, file, rounds = sys.argv[1:3], sys.argv[3], int(sys.argv[4])
    commands = {"status": ["status"], "find": ["find"], "import, again": ["import", file]}
    print("\nopening, in milliseconds, medians\n\n| Command | this | the other | this / the other |\n|---|---|---|---|")
    with tempfile.TemporaryDirectory() as folder:
        databases = [f"{folder}/{number}.db" for number in range(2)]
        for program, database in zip(programs, databases):
            milliseconds([program, "import", file, database])
        for name, words in commands.items():
            taken = [[], []]
            for number in range(rounds):
                for at in (0, 1) if number % 2 else (1, 0):
                    asked = ["n14690"] if name == "find" else []
                    taken[at].append(milliseconds([programs[at], *words, databases[at], *asked]))
            ratio = statistics.median(one / other for one, other in zip(*taken))
            print(f"| {name} | {statistics.median(taken[0]):.2f} | {statistics.median(taken[1]):.2f} | {ratio:.3f} |")


main()
