#!/usr/bin/env python3
"""Draws the tables of a text as bars: bars.py TEXT FOLDER.

Each Markdown table of the text that has a column `wall s`, or else `processor s`, or else `of the undisturbed`, becomes a picture
FOLDER/bars-NUMBER.svg, numbered from 1 in the order of the text, with a bar for each row; pbfrow's own are filled. The documents
show those of docs/BENCHMARKS.md, so run it after a change of its figures: bench/bars.py docs/BENCHMARKS.md docs/pictures
"""
import sys
from pathlib import Path

sys.path.insert(0, str(Path(__file__).resolve().parent.parent / "docs" / "pictures"))
from draw import Picture  # noqa: E402

# what is drawn, by the head of its column
TITLES = {
    "wall s": "wall time in seconds",
    "processor s": "processor time in seconds",
    "of the undisturbed": "time of an import behind a kill at its half, divided by that of an undisturbed one",
}
NAMES, BARS, ROW, TOP, LEFT = 330, 420, 26, 44, 16


def cells(line):
    return [cell.strip().replace("`", "") for cell in line.strip().strip("|").split("|")]


def tables(lines):
    """Each table of the text: its measure, and its rows' names with what was measured."""
    rows = []
    for line in [*lines, ""]:
        if line.lstrip().startswith("|"):
            rows.append(cells(line))
            continue
        if rows:
            measure = next((it for it in TITLES if it in rows[0]), None)
            if measure:
                at = rows[0].index(measure)
                # a median has the least and the greatest behind it, in brackets
                yield measure, [(row[0], float(row[at].split()[0])) for row in rows[2:]]
        # `make bench` says the size of a database between two rows
        if not line.startswith("    "):
            rows = []


def draw(measure, rows, path):
    title = TITLES[measure]
    said = "; ".join(f"{name}: {seconds:.2f}" for name, seconds in rows)
    picture = Picture(LEFT + NAMES + BARS + 70, TOP + len(rows) * ROW + 12, title, said)
    picture.text("dim", LEFT, 26, f"{title}; shorter is better", 12)
    longest = max(seconds for _, seconds in rows) or 1
    for number, (name, seconds) in enumerate(rows):
        y = TOP + number * ROW
        ours = name.startswith("pbfrow")
        width = max(1, round(BARS * seconds / longest))
        # where a program's source lies, which stands in brackets, has no room beside the bars
        picture.text("title" if ours else "text", LEFT, y + 14, name.partition(" (")[0], 12, bold=ours)
        picture.box("in-head" if ours else "card", LEFT + NAMES, y + 2, width, ROW - 9, 2)
        picture.text("dim", LEFT + NAMES + width + 7, y + 14, f"{seconds:.2f}", 12)
    picture.save(path)


def main(text, folder):
    lines = Path(text).read_text(encoding="utf-8").splitlines()
    for number, (measure, rows) in enumerate(tables(lines), 1):
        draw(measure, rows, Path(folder) / f"bars-{number}.svg")


if __name__ == "__main__":
    main(*sys.argv[1:])
