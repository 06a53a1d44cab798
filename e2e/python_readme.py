#!/usr/bin/env python3
"""python_readme.py README: runs each piece of code that python/README.md shows, in the folder that has the files that it names,
and checks what its first loop over faults prints."""
import contextlib
import io
import re
import sys
import zlib  # noqa: F401
import lzma  # noqa: F401
from concurrent.futures import ThreadPoolExecutor  # noqa: F401

import pbfrow


def pieces(text):
    """The indented lines, as one piece up to the next that isn't."""
    for piece in re.findall(r"(?:^    .*\n|^\n(?=    ))+", text, re.MULTILINE):
        yield re.sub("^    ", "", piece, flags=re.MULTILINE)


def main():
    with open(sys.argv[1], encoding="utf-8") as file:
        text = file.read()
    names = dict(globals(), path="country.osm.pbf")
    for number, code in enumerate(pieces(text)):
        # the file that is open at this place of the text: one whose blobs are raw, or, for the faults, compressed
        path = "country.osm.pbf" if "except pbfrow.Fault" in code else "liechtenstein-raw.osm.pbf"
        names["file"] = pbfrow.open(path)
        said = io.StringIO()
        with contextlib.redirect_stdout(said):
            exec(compile(code, f"piece {number}", "exec"), names)
        if "except pbfrow.Fault" in code:
            assert said.getvalue().startswith("fault 21 CompressedZlib at 0\nfault 21 CompressedZlib at "), said.getvalue()
        if "cafes =" in code:
            assert said.getvalue().startswith("[14690 17723 22144 23708] [47.1083001 "), said.getvalue()
    assert number >= 6


main()
