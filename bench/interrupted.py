#!/usr/bin/env python3
"""What a restart saves: interrupted.py PBFROW FILE [ROUNDS [OSM2PGSQL..]], in a folder with room for the databases, and with the
program store_tables of bench/peers if it is compiled there. OSM2PGSQL are the words of an import by osm2pgsql into a PostgreSQL
that runs (bench/postgres.sh), if that is to be measured. Each importer stores the file once, undisturbed; then a new import is killed
(`kill -9`) at half of that time and done again, as its manual says: pbfrow's by the same command, the others' from nothing, since
they have no other way. All do so in turn, in five rounds unless ROUNDS says how many. Prints a table: the seconds of the
undisturbed import, those of the import behind the kill, by how much that is less than the whole, and how many bytes the kill left
of what was stored; each as the median, with the least and the greatest. What isn't installed is named and left out.
"""
import glob
import os
import shutil
import statistics
import subprocess
import sys
import time

# Each importer's name, its words, the files that it makes, and whether it goes on over what a kill has left.
Importer = tuple[str, list[str], str, bool]


def importers(pbfrow: str, file: str, osm2pgsql: list[str]) -> list[Importer]:
    into_files = [
        ("`pbfrow import`", [pbfrow, "import", file, "kept.db"], "kept.db*", True),
        ("C++ over stock SQLite, WAL, FULL", ["./store_tables", file, "kept.db"], "kept.db*", False),
        ("`spatialite_osm_raw`", ["spatialite_osm_raw", "-o", file, "-d", "kept.db"], "kept.db*", False),
        ("`ogr2ogr -f SQLite`", ["ogr2ogr", "-f", "SQLite", "kept.db", file], "kept.db*", False),
    ]
    # this one begins by removing the tables that it makes
    return into_files + ([("`osm2pgsql`", osm2pgsql, "", False)] if osm2pgsql else [])


def remove(made: str) -> None:
    for path in glob.glob(made):
        os.remove(path)


def size(made: str) -> int:
    return sum(os.path.getsize(path) for path in glob.glob(made))


def seconds_of(words: list[str]) -> float:
    """How long an import takes that nothing disturbs."""
    os.sync()
    start = time.monotonic()
    subprocess.run(words, stdout=subprocess.DEVNULL, stderr=subprocess.DEVNULL, check=True)
    return time.monotonic() - start


def kill_after(words: list[str], seconds: float) -> None:
    os.sync()
    with subprocess.Popen(words, stdout=subprocess.DEVNULL, stderr=subprocess.DEVNULL) as importing:
        try:
            importing.wait(seconds)
        except subprocess.TimeoutExpired:
            importing.kill()


def one_round(words: list[str], made: str, goes_on: bool) -> tuple[float, int, float, float]:
    """Seconds undisturbed, bytes that the kill left to go on with, seconds behind it, and by how much these are less."""
    remove(made)
    whole = seconds_of(words)
    remove(made)
    kill_after(words, whole / 2)
    left = size(made) if goes_on else 0
    if not goes_on:
        remove(made)
    again = seconds_of(words)
    remove(made)
    return whole, left, again, again / whole


def told(figures: list[float], form: str) -> str:
    """The median, with the least and the greatest if there are several."""
    median = format(statistics.median(figures), form)
    return median if len(figures) == 1 else f"{median} ({min(figures):{form}} to {max(figures):{form}})"


def main() -> None:
    pbfrow, file = sys.argv[1:3]
    rounds = int(sys.argv[3]) if len(sys.argv) > 3 else 5
    there = []
    for importer in importers(pbfrow, file, sys.argv[4:]):
        if shutil.which(importer[1][0]):
            there.append(importer)
        else:
            print(f"not measured: {importer[1][0]} isn't there", file=sys.stderr)
    figures = [[one_round(words, made, goes_on) for _, words, made, goes_on in there] for _ in range(rounds)]
    print("| Importer | undisturbed, s | bytes that the kill left to go on with | s of the import behind it | of the undisturbed |")
    print("|---|---|---|---|---|")
    for (name, *_), of_rounds in zip(there, zip(*figures)):
        whole, left, again, share = (list(each) for each in zip(*of_rounds))
        print(f"| {name} | {told(whole, '.2f')} | {told(left, ',.0f')} | {told(again, '.2f')} | {told(share, '.2f')} |")


if __name__ == "__main__":
    main()
