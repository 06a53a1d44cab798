#!/usr/bin/env python3
"""Compares a database with its file, of which each byte in turn is another: every_byte.py PBFROW FILE DB

A bit of each byte is turned, and each file compared by extents and by elements. `verify` has to end with 1 and to say
what differs: no changed file passes for the database's own.
"""
import subprocess
import sys


def main():
    program, name, database = sys.argv[1:]
    with open(name, "rb") as file:
        whole = file.read()
    tried = 0
    for depth in ([], ["--elements"]):
        for at in range(len(whole)):
            changed = bytearray(whole)
            changed[at] ^= 1 << at % 8
            ran = subprocess.run([program, "verify", "/dev/stdin", database, *depth], input=changed, capture_output=True)
            if ran.returncode != 1 or ran.stdout.count(b"\n") < 2:
                print(f"byte {at}: status {ran.returncode}, {ran.stdout} {ran.stderr}")
                return 1
            tried += 1
    print(f"{tried} changed files")
    return 0


if __name__ == "__main__":
    sys.exit(main())
