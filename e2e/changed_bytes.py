#!/usr/bin/env python3
"""Checks the file of two nodes, of which each byte in turn is another: changed_bytes.py PBFROW FILE

Each byte is 00, 7F, 80 and FF in turn. `check` has to write lines of faults that a file can have and then that of the counts, and to
end with 1 if there is a fault, else with 0. Of the 336 files 49 have none: six in which one of the three zeros before a header's
length stays; 28 whose second frame is of another type; and of those whose second block changes, 13 with any ids and places, one
whose table of texts comes in two pieces, and one whose raw data do.
"""
import re
import subprocess
import sys

BYTES = (0x00, 0x7F, 0x80, 0xFF)
FAULTLESS = 49
NUMBERS = {10, 11, 12, 13, 14, 16, 17, 18, 20, 21, 22, 23, 30, 31, 32, 33, *range(40, 53), 61, 62}

# The one fault of a changed length, tag or letter of a feature, and of the last number of the last array.
KNOWN = {(0, 0x7F): 11, (3, 0x00): 14, (15, 0x00): 13, (16, 0x7F): 18, (17, 0x00): 20, (21, 0x80): 32, (21, 0x7F): 33, (64, 0x00): 40, (83, 0x80): 40}


def faults_in(text):
    """The numbers of the faults in the output of `check`; None if that isn't lines of faults and then one of counts."""
    *lines, counts = text.splitlines() or [""]
    found = [re.fullmatch(r"fault ([0-9]+) [A-Za-z0-9]+ at [0-9]+", it) for it in lines]
    if not all(found) or not counts.startswith("blobs ") or not counts.endswith(f" faults {len(found)}"):
        return None
    return [int(it[1]) for it in found]


def main():
    program, name = sys.argv[1:]
    with open(name, "rb") as file:
        whole = file.read()
    faultless = 0
    for at in range(len(whole)):
        for byte in BYTES:
            changed = bytearray(whole)
            changed[at] = byte
            ran = subprocess.run([program, "check"], input=changed, capture_output=True)
            faults = faults_in(ran.stdout.decode())
            known = KNOWN.get((at, byte))
            if faults is None or not NUMBERS.issuperset(faults) or ran.returncode != (1 if faults else 0) or known and faults != [known]:
                print(f"{byte:02X} at {at}: status {ran.returncode}, {ran.stdout} {ran.stderr}")
                return 1
            faultless += not faults
    print(f"{len(whole) * len(BYTES)} changed files, {faultless} without a fault")
    return 0 if faultless == FAULTLESS else 1


if __name__ == "__main__":
    sys.exit(main())
