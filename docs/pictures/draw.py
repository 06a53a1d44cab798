#!/usr/bin/env python3
"""Draws the pictures of the documents: data.svg, the way of the data, and crates.svg, the crates in layers.

Run it after a change of crates.txt, and commit what it writes: docs/pictures/draw.py
The crates and what each stands on are read from crates.txt, and laid out by `dot` (Debian's package graphviz).
"""

import shlex
import subprocess
from html import escape
from pathlib import Path

HERE = Path(__file__).resolve().parent
CRATES = HERE.parent.parent / "crates.txt"

# Each class in light and in dark. A viewer that knows no preference draws the light one, on its own ground.
COLOURS = {
    "page": ("fill: #ffffff", "fill: #0d1117"),
    "card": ("fill: #f6f8fa; stroke: #8c959f", "fill: #161b22; stroke: #6e7681"),
    "part": ("fill: #ffffff; stroke: #d0d7de", "fill: #0d1117; stroke: #30363d"),
    "test": ("fill: none; stroke: #8c959f; stroke-dasharray: 5 3", "fill: none; stroke: #6e7681; stroke-dasharray: 5 3"),
    "title": ("fill: #1f2328", "fill: #e6edf3"),
    "text": ("fill: #1f2328", "fill: #e6edf3"),
    "dim": ("fill: #59636e", "fill: #9198a1"),
    "edge": ("fill: none; stroke: #59636e", "fill: none; stroke: #9198a1"),
    "in": ("fill: none; stroke: #0969da", "fill: none; stroke: #4493f8"),
    "out": ("fill: none; stroke: #1a7f37", "fill: none; stroke: #3fb950"),
    "in-text": ("fill: #0969da", "fill: #4493f8"),
    "out-text": ("fill: #1a7f37", "fill: #3fb950"),
    "edge-head": ("fill: #59636e", "fill: #9198a1"),
    "in-head": ("fill: #0969da", "fill: #4493f8"),
    "out-head": ("fill: #1a7f37", "fill: #3fb950"),
}
SANS = "system-ui, -apple-system, 'Segoe UI', 'Noto Sans', 'DejaVu Sans', sans-serif"
MONO = "ui-monospace, 'SF Mono', Menlo, Consolas, 'DejaVu Sans Mono', monospace"


class Picture:
    def __init__(self, width, height, title, description):
        self.width, self.height = width, height
        self.title, self.description = title, description
        self.parts = []

    def box(self, name, x, y, width, height, radius=6):
        self.parts.append(f'<rect class="{name}" x="{x}" y="{y}" width="{width}" height="{height}" rx="{radius}"/>')

    def text(self, name, x, y, words, size=13, anchor="start", mono=False, bold=False, beside=""):
        """Words, and beside them others that are dim."""
        classes = name + (" mono" if mono else "") + (" bold" if bold else "")
        more = f'<tspan class="dim" dx="7">{escape(beside)}</tspan>' if beside else ""
        self.parts.append(f'<text class="{classes}" x="{x}" y="{y}" font-size="{size}" text-anchor="{anchor}">{escape(words)}{more}</text>')

    def arrow(self, name, path):
        self.parts.append(f'<path class="{name} line" d="{path}" marker-end="url(#{name}-end)"/>')

    def save(self, path):
        light = "\n".join(f"    .{name} {{ {both[0]} }}" for name, both in COLOURS.items())
        dark = "\n".join(f"      .{name} {{ {both[1]} }}" for name, both in COLOURS.items())
        heads = "\n".join(
            f'    <marker id="{name}-end" viewBox="0 0 10 10" refX="9" refY="5" markerWidth="7" markerHeight="7" orient="auto">'
            f'<path class="{name}-head" d="M0 0 L10 5 L0 10 z"/></marker>'
            for name in ("edge", "in", "out")
        )
        body = "\n".join("  " + part for part in self.parts)
        path.write_text(f"""<svg xmlns="http://www.w3.org/2000/svg" viewBox="0 0 {self.width} {self.height}" width="{self.width}" height="{self.height}" role="img" aria-labelledby="title description">
  <title id="title">{escape(self.title)}</title>
  <desc id="description">{escape(self.description)}</desc>
  <style>
    text {{ font-family: {SANS} }}
    .mono {{ font-family: {MONO} }}
    .bold {{ font-weight: 600 }}
    tspan {{ font-weight: 400 }}
    .line {{ stroke-width: 1.6 }}
{light}
    @media (prefers-color-scheme: dark) {{
{dark}
    }}
  </style>
  <defs>
{heads}
  </defs>
  <rect class="page" width="{self.width}" height="{self.height}" rx="8"/>
{body}
</svg>
""")


# The way of the data.

STAGES = [  # title, the crate that does it, and the parts, each with what stands to its right
    ("a file", "", [("OSMHeader", "at 0"), ("OSMData", "at 98"), ("OSMData", "at 115673"), ("…", "")]),
    ("a frame", "pbf_frame", [("length", "4 bytes"), ("BlobHeader", "type, size"), ("Blob", "stored raw")]),
    ("a block", "osm_block", [("strings", ""), ("nodes", ""), ("ways", ""), ("relations", "")]),
    ("elements", "osm_value", [("n 14690", "lat, lon"), ("w 1367", "nodes"), ("r 9", "members"), ("tags", "key=value")]),
    ("rows", "osm_rows", [("blob", "off, fin, digest"), ("element", "id, lat, lon"), ("tag", "key, val"), ("link", "ref, role")]),
]
BACK = [("a new file", ""), ("frames", "pbf_frame"), ("blocks", "osm_write"), ("elements", "osm_import"), ("held blobs", "osm_rows")]
WAYS_IN = ["cut", "unpack", "decode", "store"]
WAYS_OUT = ["join", "frame", "encode", "load"]
LEFT, CARD, BETWEEN = 20, 164, 56  # one column: a card, and the room for the arrow behind it


def column(number):
    return LEFT + number * (CARD + BETWEEN)


def draw_import(picture, top, height):
    picture.text("in-text", LEFT, top - 24, "import", 16, bold=True)
    picture.text("dim", LEFT + 68, top - 24, "Blobs may come in any order, each in one transaction. After an interruption run it again: what is held is left alone.", 13)
    for number, (title, crate, parts) in enumerate(STAGES):
        x = column(number)
        picture.box("card", x, top, CARD, height)
        picture.text("title", x + 12, top + 24, title, 14, bold=True)
        picture.text("dim", x + CARD - 12, top + 24, crate, 11, "end", mono=True)
        for row, (name, beside) in enumerate(parts):
            y = top + 38 + row * 36
            picture.box("part", x + 10, y, CARD - 20, 30, 4)
            picture.text("text", x + 18, y + 20, name, 12, mono=True)
            picture.text("dim", x + CARD - 17, y + 20, beside, 11, "end")
    for number, word in enumerate(WAYS_IN):
        x, y = column(number) + CARD, top + height / 2
        picture.arrow("in", f"M{x + 4} {y} H{x + BETWEEN - 4}")
        picture.text("in-text", x + BETWEEN / 2, y - 8, word, 12, "middle")


def draw_export(picture, top, height):
    picture.text("out-text", LEFT, top - 18, "export", 16, bold=True)
    picture.text("dim", LEFT + 68, top - 18, "Refused before the first byte while a blob of the file is missing.", 13)
    for number, (title, crate) in enumerate(BACK):
        x = column(number)
        picture.box("card", x, top, CARD, height)
        picture.text("title", x + CARD / 2, top + (27 if crate else 37), title, 15, "middle", bold=True)
        picture.text("dim", x + CARD / 2, top + 47, crate, 11, "middle", mono=True)
    for number, word in enumerate(WAYS_OUT):
        x, y = column(number) + CARD, top + height / 2
        picture.arrow("out", f"M{x + BETWEEN - 4} {y} H{x + 4}")
        picture.text("out-text", x + BETWEEN / 2, y - 8, word, 12, "middle")
    x, y = column(3), top + height
    picture.arrow("out", f"M{x + CARD / 2} {y + 4} V{y + 46}")
    picture.text("out-text", x + CARD / 2 + 10, y + 32, "write", 12)
    picture.box("card", x, y + 50, CARD, 36)
    picture.text("title", x + CARD / 2, y + 73, "lines of text", 14, "middle", bold=True)


def draw_data():
    picture = Picture(
        2 * LEFT + 5 * CARD + 4 * BETWEEN, 496, "The way of the data",
        "import: a file is cut into frames, the blob of a frame is unpacked into a block, the block is decoded into elements, and "
        "these are stored as rows, each blob in one transaction. export: held blobs are loaded in the order of their offsets, and "
        "their elements are written as lines of text, or encoded into blocks, frames and a new file.",
    )
    draw_import(picture, 62, 186)
    draw_export(picture, 332, 62)
    picture.arrow("out", f"M{column(4) + CARD / 2} 252 V328")
    picture.text("dim", LEFT, 467, "The offsets and ids are those of data/liechtenstein-raw.osm.pbf.", 12)
    picture.save(HERE / "data.svg")


# The crates in layers.

SAYS = {
    "pbf_wire": "numbers and fields",
    "osm_value": "elements and their lines",
    "pbf_frame": "frames and raw blobs",
    "osm_block": "reading blocks",
    "osm_write": "writing blocks",
    "osm_columns": "elements in columns",
    "pbfrow_c": "the library for C",
    "osm_reading": "frames read, good or bad",
    "pbfrow_reading": "commands on a file alone",
    "osm_rows": "the rows of a map",
    "osm_sql_store": "blobs in a database, by SQL",
    "osm_old_store": "the first layout, by SQL",
    "osm_tree_writes": "blobs put below SQL",
    "osm_tree_audits": "rows of trees, told",
    "osm_trees": "blobs below SQL",
    "osm_index_orders": "orders of any index",
    "osm_openings": "files opened",
    "osm_databases": "which store it is",
    "osm_restarts": "laws of stores in files",
    "pbfrow_files": "files, read or written",
    "osm_import": "imports, gaps, exports",
    "osm_parts": "parts of one file",
    "osm_verify": "databases against a file",
    "osm_vectors": "tests of reading and columns",
    "store_vectors": "what tests of stores share",
    "memory_vectors": "tests of stores in memory",
    "import_vectors": "tests of import and damage",
    "command_vectors": "tests of the commands",
    "pbfrow_words": "the command line",
    "pbfrow_counts": "counts of elements",
    "pbfrow_commands": "what each command does",
    "pbfrow_terminal": "how a program begins",
    "pbfrow_databases": "commands on databases",
    "pbfrow": "the program",
    "pbfrow_reader": "the small program",
}
UNNAMED = ("thiserror",)  # texts of errors, used nearly everywhere


def read_crates():
    """Each crate with what it stands on: crates of this repository, and those of the kit beside them."""
    said = [line.partition("#")[0] for line in CRATES.read_text().splitlines()]
    lines = [(line.partition(":")[0].split()[0], line.partition(":")[2]) for line in said if line.strip()]
    own = [name for name, _ in lines]
    below = {name: [word for word in words.split() if word in own] for name, words in lines}
    kit = {name: [family(word) for word in words.split() if word not in own and word not in UNNAMED] for name, words in lines}
    return below, {name: list(dict.fromkeys(words)) for name, words in kit.items()}


def family(library):
    """The library that one of the kit's is a part of."""
    return "sqlite" if library.startswith("sqlite_") else library


BOX, TALL, MARGIN, TOP = 216, 50, 20, 76
INCH = 72  # what a length is in that dot takes and gives in inches


def laid_out(below):
    """Where `dot` puts the crates and the arrows between them, those left out that follow from others."""
    named = [f'"{name}" [shape=box, fixedsize=true, width={BOX / INCH}, height={TALL / INCH}]' for name in below]
    edges = [f'"{name}" -> "{word}"' for name, words in below.items() for word in words]
    graph = "digraph { ranksep=0.6; nodesep=0.35; edge [arrowhead=none]; " + "; ".join(named + edges) + " }"
    reduced = subprocess.run(["tred"], input=graph, capture_output=True, text=True, check=True).stdout
    plain = subprocess.run(["dot", "-Tplain"], input=reduced, capture_output=True, text=True, check=True).stdout
    return [shlex.split(line) for line in plain.splitlines()]


def draw_crates():
    below, kit = read_crates()
    said = laid_out(below)
    width, height = (float(word) * INCH for word in said[0][2:4])

    def point(x, y):
        return f"{float(x) * INCH + MARGIN:.0f} {TOP + height - float(y) * INCH:.0f}"

    edges = [line for line in said if line[0] == "edge"]
    picture = Picture(
        round(width + 2 * MARGIN), round(TOP + height + MARGIN), "The crates in layers",
        "; ".join(f"{upper} depends on {lower}" for _, upper, lower, *_ in edges),
    )
    picture.text("dim", MARGIN, 32, "Arrows lead to the crates that a crate builds on; what follows from other arrows is left out.", 13)
    picture.text("dim", MARGIN, 52, "Dashed boxes hold only tests. + names a library of the kit, sqlite with its parts.", 13)
    for _, _, _, count, *points in edges:
        ends = [point(*points[number : number + 2]) for number in range(0, 2 * int(count), 2)]
        picture.arrow("edge", f"M{ends[0]} C{' '.join(ends[1:])}")
    for _, name, *at in (line for line in said if line[0] == "node"):
        x, y = map(int, point(*at[:2]).split())
        is_test = name.endswith("_vectors")
        picture.box("test" if is_test else "card", x - BOX // 2, y - TALL // 2, BOX, TALL)
        beside = "" if is_test else " ".join(f"+ {word}" for word in kit[name])
        picture.text("title", x, y - 4, name, 13, "middle", mono=True, bold=True, beside=beside)
        picture.text("dim", x, y + 14, SAYS.get(name, ""), 12, "middle")
    picture.save(HERE / "crates.svg")


if __name__ == "__main__":
    draw_data()
    draw_crates()
