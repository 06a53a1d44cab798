"""The crates of this repository, as crates.txt names them, and the files that each is made of."""
import os

TOP = os.path.dirname(os.path.dirname(os.path.realpath(__file__)))
PARTS = ("src", "specs", "proofs")


def crates():
    """Each crate with those of the repository that it names, lowest first."""
    with open(f"{TOP}/crates.txt", encoding="utf-8") as file:
        lines = [it.partition("#")[0].partition(":") for it in file]
    named = {head.split()[0]: tail.replace(",", " ").split() for head, _, tail in lines if head.split()}
    named = {it: [below for below in named[it] if below in named] for it in named}
    ordered = []
    while len(ordered) < len(named):
        ready = [it for it in named if it not in ordered and set(named[it]) <= set(ordered)]
        if not ready:
            raise ValueError("crates.txt: crates stand on each other in a circle")
        ordered += ready
    return {it: named[it] for it in ordered}


def below(crate, named):
    """All crates that one stands on, lowest first."""
    found = set()
    for it in named[crate]:
        found |= {it, *below(it, named)}
    return [it for it in named if it in found]


def files(crate):
    for part in PARTS:
        for at, _, names in sorted(os.walk(f"{TOP}/crates/{crate}/{part}")):
            yield from (f"{at}/{it}" for it in sorted(names))
