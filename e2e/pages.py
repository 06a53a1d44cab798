#!/usr/bin/env python3
"""pages.py TOP PBFROW [PAGE..]: runs what the pages show, each page in a folder of its own in this one, and compares what comes out.

A page needs no marks. A block of code is, in the order of the page:
- indented, with lines that begin with `$ `: commands, each with what it writes below it. `[...]` stands for any lines.
- indented, and its first word is a program: commands. The next indented block, if it isn't commands, is what the last one writes.
- fenced `sql`: a query of country.db, with its result as a table below it, or nothing if there is none.
- fenced `python`: it is run, and the next indented block is what it writes; or, as `c`, `cpp` and `xml`, a file by the name below.
- fenced without a language: the tables as the database declares them.
Whatever a page says is run, unless it stands in the tables below by its text. And each option of a command of pbfrow that a page
names has to be in that command's help, and each link to a file has to lead to it, and to its heading.
"""
import os
import re
import shutil
import subprocess
import sys
from typing import NamedTuple

TOP, PBFROW = sys.argv[1:3]
ARCHIVE = os.environ.get("PBFROW_ARCHIVE", f"{TOP}/crates/pbfrow_c/out/libpbfrow_c.a")
COUNTRY = "data/liechtenstein-raw.osm.pbf"
HISTORY = r"""printf '%s\n' 'n1 v1 dV c10 t2020-01-01T00:00:00Z i5 uann Tamenity=cafe x1.5 y2.5' 'n1 v2 dD c11 t2020-02-01T00:00:00Z i5 uann T x y' |
  osmium cat -F opl - -o berlin.osh.pbf"""

# The files that a page only names, made in its folder before its first line.
MADE = {
    "README.md": f"osmium cat {COUNTRY} -o country.osm.pbf",
    "docs/GUIDE.md": f"osmium cat {COUNTRY} -o berlin.osm.pbf; {HISTORY}",
    # with the guide's file with history
    "docs/SCHEMA.md": f"""pbfrow import {COUNTRY} country.db
      sed -n '/^    \\$ cat history.opl/,/^    \\$ osmium/p' docs/GUIDE.md | sed -n 's/^    \\([nwr].*\\)/\\1/p' > history.opl
      osmium cat history.opl -f osh.pbf,pbf_compression=none -o history.osh.pbf && pbfrow import history.osh.pbf history.db""",
    "docs/SCALE.md": f"cp {COUNTRY} berlin-raw.osm.pbf",
    "docs/LIBRARY.md": f"""osmium cat {COUNTRY} -o country.osm.pbf && library/build "$PWD/library-built" &&
      sed -n '/^#define ROOM/,/^}}/p' examples/count.c > room.h""",
    "docs/REPAIR.md": f"cp {COUNTRY} country-raw.osm.pbf && pbfrow import country-raw.osm.pbf country.db",
}

# What has to be there right before a command.
BEFORE = {
    "pbfrow migrate old.db country.db": "python3 bench/older.py country.db old.db && rm -f country.db*",
    "pbfrow status part-3.db part-1.db part-4.db part-2.db --size 1311970": f"""rm -f part-*
      pbfrow ranges {COUNTRY} 4 | while read -r from to; do n=$((n + 1)); pbfrow import {COUNTRY} part-$n.db --from $from --to $to; done""",
}

# What is run in the place of a command.
RENAMED = 'rm -f country.db country.db-* && for file in new.db*; do mv "$file" "country.db${file#new.db}"; done'
INSTEAD = {
    # where the kill comes depends on the machine; that an import goes on from there is for 60-interruptions
    f"timeout -s KILL 0.25 pbfrow import {COUNTRY} killed.db": f"pbfrow import {COUNTRY} killed.db --to 227151 | sed '$d'; echo Killed",
    # what comes later is asked of the old one
    RENAMED: f"mkdir moved && cp country.db* new.db* moved && cd moved && {RENAMED} && pbfrow verify ../new-raw.osm.pbf country.db --elements",
    # the page shows the picture
    "sqlite3 -readonly country.db < docs/pictures/map.sql > map.svg": "sqlite3 -readonly country.db < docs/pictures/map.sql | cmp - docs/pictures/map.svg",
    "package/wheel": 'package/wheel "$(ls "$PWD"/library-built/lib/libpbfrow.so.*.*.*)" out/dist',
    "env/bin/pip install out/dist/pbfrow-*.whl": "env/bin/pip install --quiet --no-index --no-deps out/dist/pbfrow-*.whl",
}

# The blocks that no command writes, by their first line.
SHOWN = {
    "64.9 MB of 210.1 MB, 608 blobs, 8.1 MB/s, 17 s left": "what a terminal shows for a moment: 80-progress",
    "blob      off": "which columns tables have in common",
}

# The lines that aren't run, and why.
LEFT_OUT = {
    "sqlitebrowser -R country.db": "a program with windows",
    "pbfrow ranges FILE N                                   N ranges FROM TO, which begin and end between two frames": "a synopsis",
    "pbfrow import FILE part-FROM.db --from FROM --to TO    a range; of the rest only the byte before it is read": "a synopsis",
    "pbfrow verify FILE part-*.db                           whether the parts are together all of FILE, and nothing else": "a synopsis",
    "pbfrow merge whole.db part-*.db                        one database, if you want one": "a synopsis",
    "pbfrow ranges planet-raw.osm.pbf 1000 > plan": "the planet",
    "sbatch --array=1-$(wc -l < plan) --requeue --wrap \\": "a cluster: 49-scale",
    "curl -r $FROM-$((TO - 1)) URL | pbfrow import /dev/stdin part-$FROM.db --at $FROM --to $TO": "a download: 49-scale feeds a range by a pipe",
    "dask-scheduler &": "servers that don't end: 49-scale",
    "for n in 1 2 3 4; do dask-worker tcp://127.0.0.1:8786 --nthreads 1 & done": "servers that don't end: 49-scale",
    "examples/dask_import.py tcp://127.0.0.1:8786 berlin-raw.osm.pbf 16": "its servers: 49-scale",
    "sudo apt install ./pbfrow_0.1.0_amd64.deb": "changes the system: 90-install",
    "make library && sudo make install-library && sudo ldconfig": "proves, and changes the system: 97-library",
}

# What makes pbfrow say a line that a page shows by itself: what sqlite3 does to country.db, and the command.
LIST = "type, name, tbl_name, rootpage, sql"
SAID = {
    "it has a trigger": ("CREATE TABLE mine (a); CREATE TRIGGER told AFTER INSERT ON element BEGIN DELETE FROM mine; END", "import"),
    "its index tag_by_lower": ("CREATE INDEX tag_by_lower ON tag (lower(val))", "import"),
    "its table element": ("ALTER TABLE element ADD COLUMN more INTEGER", "import"),
    "its index element_by_id": ("DROP INDEX element_by_id", "import"),
    "it has two objects": ("CREATE TABLE mine (a); CREATE TRIGGER tag AFTER INSERT ON mine BEGIN DELETE FROM mine; END", "import"),
    "its object odd": ('CREATE VIEW odd AS SELECT "\udcff"', "import"),
    # a row changes while the index isn't listed
    "damaged: its index tag_by_key": (
        f"""CREATE INDEX tag_by_key ON tag (key, val);
            PRAGMA writable_schema = ON; CREATE TEMP TABLE kept AS SELECT rowid AS at, {LIST} FROM sqlite_schema WHERE name = 'tag_by_key';
            DELETE FROM sqlite_schema WHERE name = 'tag_by_key'; PRAGMA writable_schema = RESET; UPDATE tag SET val = val || 'x' WHERE rowid = 1000;
            PRAGMA writable_schema = ON; INSERT INTO sqlite_schema (rowid, {LIST}) SELECT * FROM kept""",
        "verify",
    ),
}

# The files that fenced code is kept in, by its first line, for the commands behind it.
FILES = {
    "<OGRVRTDataSource>": "cafes.vrt",
    "#include <fcntl.h>": "cafes.c",
    "#include <cstdio>": "cafes.cpp",
    "import pbfrow": "cafes.py",
}
# Fenced code that isn't a whole program: what has to stand before it.
BEFORE_CODE = {
    "static std::vector<std::uint8_t> inflated(pbfrow::Compression compression, pbfrow::View<std::uint8_t> from, std::uint64_t raw_size) {":
        "#include <pbfrow.hpp>\n#include <zlib.h>\n[[maybe_unused]]",
    'country = pbfrow.read("data/liechtenstein-raw.osm.pbf")': "import pbfrow\n",
}
# the database of a query that isn't one of country.db, by the first line of the query
DATABASES = {"SELECT link.k, node.id, node.version, node.visible, node.lat / 1e9 AS lat, node.lon / 1e9 AS lon": "history.db"}

# seconds that a command may take; all of them take less than two minutes where nothing else runs
LONGEST = 120

# What may be missing on a machine; any other program that isn't there is a command that can't be run.
OPTIONAL = {"ogr2ogr", "ogrinfo", "sqlite-utils", "parallel", "make", "cc", "c++", "pkg-config", "env/bin/python", "env/bin/pip", "package/wheel"}

PYTHON = os.path.abspath("bin/python3")
counts = {"ok": 0, "FAILED": 0}
COMMANDS = re.findall(r"^  ([a-z]+) +[A-Z]", subprocess.run([PBFROW, "--help"], capture_output=True, text=True).stdout, re.MULTILINE)
COMMANDS = [command for command in COMMANDS if command != "help"]


def tell(result, name, more=()):
    counts[result] = counts.get(result, 0) + 1
    print(f"{result:7} {name}")
    for line in more:
        print("    " + "".join(it if it.isprintable() else "?" for it in line[:200]))


def pass_(name):
    tell("ok", name)


def fail(name, *more):
    tell("FAILED", name, more)


def skip(name, why):
    print(f"skipped {name}: {why}")


class Block(NamedTuple):
    kind: str  # indented, fenced, table, text
    line: int  # the number of its first line
    language: str
    lines: list


def indent_of(line):
    return len(line) - len(line.lstrip(" "))


def blocks_of(text):
    """The blocks of a page, which blank lines part; a fence's lines are those between its marks."""
    lines, at = text.split("\n"), 0
    while at < len(lines):
        start, line = at, lines[at]
        at += 1
        if line.lstrip().startswith("```"):
            while lines[at].strip() != "```":
                at += 1
            yield Block("fenced", start + 2, line.strip()[3:], lines[start + 1 : at])
            at += 1
        elif line.strip():
            while at < len(lines) and lines[at].strip() and not lines[at].lstrip().startswith("```"):
                at += 1
            found = lines[start:at]
            least = min(map(indent_of, found))
            kind = "indented" if least >= 4 else "table" if line.startswith("|") else "text"
            yield Block(kind, start + 1, "", [line[least:] for line in found])


def is_whole(text):
    """Whether no quote, brace or line is left open."""
    return not text.endswith("\\") and subprocess.run(["bash", "-n"], input=text, capture_output=True, text=True).returncode == 0


def commands_of(lines, number):
    """The commands of these lines, each with the number of its first line."""
    piece = []
    for at, line in enumerate(lines):
        piece.append(line)
        if is_whole("\n".join(piece)):
            yield number + at - len(piece) + 1, "\n".join(piece)
            piece = []
    if piece:
        yield number + len(lines) - len(piece), "\n".join(piece)


def sessions_of(lines, number):
    """The commands behind `$ `, each with the number of its line and the lines that it is said to write."""
    at = 0
    while at < len(lines):
        first, piece = at, [lines[at].removeprefix("$ ")]
        at += 1
        while not is_whole("\n".join(piece)) and at < len(lines):
            piece.append(lines[at])
            at += 1
        shown = []
        while at < len(lines) and not lines[at].startswith("$ "):
            shown.append(lines[at])
            at += 1
        yield number + first, "\n".join(piece), shown


def programs_of(command):
    """The words of a command that are programs, more or less: the first one of each part of a pipe."""
    plain = re.sub(r"'[^']*'|\"[^\"]*\"", "''", command)
    for part in re.split(r"\|\||&&|[|;&\n]|\$\(|\bxargs(?: -[A-Z] ?\S+)* ", plain):
        words = [word for word in part.split() if "=" not in word]
        if words:
            yield words[0]


def is_program(word, folder):
    return bool(shutil.which(word)) or os.access(os.path.join(folder, word), os.X_OK) or word in OPTIONAL or word in ("for", "cd")


class Said(NamedTuple):
    """What a command wrote, and with which status it ended."""

    status: int
    out: str
    err: str

    def lines(self):
        return (self.err + self.out).splitlines()

    def is_as(self, shown):
        """Whether this is what a page shows, where nothing says which of the two outputs comes first."""
        pattern = "".join(r"(?:.*\n)*?" if line == "[...]" else re.escape(line.rstrip()) + r"\n" for line in shown)
        either = (self.err + self.out, self.out + self.err)
        return any(re.fullmatch(pattern, "".join(f"{line.rstrip()}\n" for line in text.splitlines())) for text in either)


def compared(name, shown, said):
    if said.is_as(shown):
        pass_(name)
    else:
        fail(name, "the page shows:", *(f"  {line}" for line in shown[:12]), "this came:", *(f"  {line}" for line in said.lines()[:12]))


def ran(name, said):
    """Whether a program whose output isn't shown here ended well."""
    if said.status == 0:
        pass_(name)
    else:
        fail(name, f"it ended with {said.status}", *said.lines()[-12:])


class Page:
    def __init__(self, path, folder):
        self.path = path
        self.folder = folder
        self.unread = None  # what the last command or program said, if no block has shown it yet
        os.mkdir(folder)
        for name in ("bench", "data", "docs", "examples", "library", "package", "python", "crates", "include"):
            os.symlink(f"{TOP}/{name}", f"{folder}/{name}")

    def name(self, line, text):
        return f"{self.path}:{line}: {text.splitlines()[0]}"

    def run(self, command, words=("bash", "-c"), given=None):
        built = f"{self.folder}/library-built"
        surroundings = dict(os.environ, PKG_CONFIG_PATH=f"{built}/lib/pkgconfig", LD_LIBRARY_PATH=f"{built}/lib")
        try:
            done = subprocess.run([*words, command] if command else words, cwd=self.folder, env=surroundings, input=given or "",
                                  capture_output=True, text=True, timeout=LONGEST, errors="replace")
        except subprocess.TimeoutExpired:
            return Said(124, "", f"it didn't end in {LONGEST} s\n")
        return Said(done.returncode, done.stdout, done.stderr)

    def lacks(self, command):
        """The first program that a command needs, and that may be missing and is."""
        if not os.path.exists(PYTHON) and re.search(r"\b(venv|env/bin|package/wheel)\b", command):
            return "a Python with numpy, pandas and venv"
        if "parallel" in programs_of(command) and "GNU parallel" not in self.run("parallel --version").out:
            return "GNU parallel"
        return next((it for it in programs_of(command) if it in OPTIONAL and not shutil.which(it) and not os.path.exists(f"{self.folder}/{it}")), None)

    def make(self, text):
        if text:
            said = self.run(f"set -e -o pipefail\n{text}")
            if said.status != 0:
                fail(f"{self.path}: {text.splitlines()[0]}, which the page needs", *said.lines()[-5:])

    def command(self, line, text, shown):
        """Runs a command; shown are the lines that it is said to write, or None if the page doesn't say here."""
        name = self.name(line, text)
        self.unread = None
        if text.splitlines()[0] in LEFT_OUT:
            skip(name, LEFT_OUT[text.splitlines()[0]])
            return
        if self.lacks(text):
            skip(name, f"{self.lacks(text)} isn't installed")
            return
        file = re.fullmatch(r"cat (\S+)", text)
        if file and shown and not os.path.exists(f"{self.folder}/{file[1]}"):
            with open(f"{self.folder}/{file[1]}", "w", encoding="utf-8") as listed:
                listed.write("\n".join(shown) + "\n")
        self.make(BEFORE.get(text))
        said = self.run("set -o pipefail\n" + INSTEAD.get(text, text))
        if shown is None:
            self.unread = said
        if said.status != 0 and not shown or shown is None:
            ran(name, said)
        else:
            compared(name, shown, said)

    def said(self, block):
        """Lines of pbfrow on standard error, each of which something in SAID brings about."""
        for at, line in enumerate(block.lines):
            self.unread = None
            sql, command = next((made for words, made in SAID.items() if line.startswith(f"pbfrow: country.db: {words}")), (None, None))
            name = self.name(block.line + at, line[:90])
            if sql is None:
                fail(name, "nothing in e2e/pages.py makes pbfrow say this")
                continue
            compared(name, [line], self.say(sql, command))

    def say(self, sql, command):
        """What a command says on standard error of a copy of country.db that sqlite3 has changed so."""
        folder = f"{self.folder}/said"
        os.makedirs(folder, exist_ok=True)
        shutil.copyfile(f"{self.folder}/country.db", f"{folder}/country.db")
        for log in ("country.db-wal", "country.db-shm"):
            if os.path.exists(f"{folder}/{log}"):
                os.remove(f"{folder}/{log}")
        made = subprocess.run(["sqlite3", "country.db"], cwd=folder, input=sql.encode("utf-8", "surrogateescape"), capture_output=True)
        done = subprocess.run([PBFROW, command, f"{TOP}/{COUNTRY}", "country.db"], cwd=folder, capture_output=True, text=True)
        return Said(done.returncode, "", made.stderr.decode() + done.stderr)

    def indented(self, block):
        first = block.lines[0]
        if first.startswith("$ "):
            for line, text, shown in sessions_of(block.lines, block.line):
                self.command(line, text, shown)
        elif first in SHOWN:
            skip(self.name(block.line, first), SHOWN[first])
        elif first in LEFT_OUT or is_program(next(programs_of(first), ""), self.folder):
            for line, text in commands_of(block.lines, block.line):
                self.command(line, text, None)
        elif first.startswith("pbfrow: country.db: "):
            self.said(block)
        elif self.unread is None:
            fail(self.name(block.line, first), "no command or program before it writes this, and its first word is no program")
        else:
            compared(self.name(block.line, first), block.lines, self.unread)
            self.unread = None

    def fenced(self, block, following):
        code, first = "\n".join(block.lines) + "\n", block.lines[0]
        name = self.name(block.line, first)
        self.unread = None
        if block.language == "sql":
            database = DATABASES.get(first, "country.db")
            said = self.run(None, ("sqlite3", "-readonly", "-markdown", database), code)
            compared(name, following.lines if following and following.kind == "table" else [], said)
        elif block.language == "":
            said = self.run("sqlite3 -readonly country.db .schema")
            same = code.split() == said.out.split()
            pass_(name) if same else fail(name, "the database declares:", *said.lines())
        elif self.kept(first):
            pass
        elif block.language == "python":
            python = "env/bin/python" if "LIBRARY" in self.path else sys.executable
            if self.lacks(python):
                skip(name, "numpy, pandas or venv isn't installed")
                return
            self.unread = self.run(None, (python, "-"), BEFORE_CODE.get(first, "") + code)
            ran(name, self.unread)
        elif block.language == "cpp" and first in BEFORE_CODE:
            words = ("c++", "-std=c++17", "-Wall", "-fsyntax-only", "-Iinclude", "-x", "c++", "-")
            ran(name, self.run(None, words, f"{BEFORE_CODE[first]} {code}"))
        elif block.language == "cmake":
            skip(name, "97-library finds the library by CMake")
        else:
            fail(name, "nothing in e2e/pages.py says what to do with this code")

    def kept(self, first):
        return first in FILES and not (first == "import pbfrow" and "LIBRARY" not in self.path)

    def check(self, text):
        found = list(blocks_of(text))
        for block in found:
            if block.kind == "fenced" and self.kept(block.lines[0]):
                with open(f"{self.folder}/{FILES[block.lines[0]]}", "w", encoding="utf-8") as file:
                    file.write("\n".join(block.lines) + "\n")
        if self.path == "docs/LIBRARY.md":
            missing = next((it for it in ("cc", "c++", "ld", "objcopy", "ar", "pkg-config", "readelf", "rt") if not shutil.which(it)), None)
            if missing or not os.path.exists(ARCHIVE):
                skip(self.path, f"{missing} isn't installed" if missing else "the library isn't proved and compiled: make library")
                return
        self.make(MADE.get(self.path))
        for block, following in zip(found, [*found[1:], None]):
            if block.kind == "indented":
                self.indented(block)
            elif block.kind == "fenced":
                self.fenced(block, following)


def options(path, text):
    """Each option that a page names with a command of pbfrow is in its help."""
    named = {}
    for number, line in enumerate(text.splitlines(), 1):
        parts = re.findall(r"`([^`]+)`", line) if indent_of(line) < 4 else [line]
        for part in parts:
            for command, words in re.findall(r"(?:\bpbfrow +|^)([a-z]+)\b([^|;&>]*)", part.replace("\\|", "/").strip().removeprefix("$ ")):
                if command in COMMANDS:
                    for option in re.findall(r"(?<![\w-])--[a-z][a-z-]*", words):
                        named.setdefault((command, option), number)
    for (command, option), number in named.items():
        name = f"{path}:{number}: pbfrow {command} has {option}"
        said = subprocess.run([PBFROW, command, "--help"], capture_output=True, text=True).stdout
        pass_(name) if re.search(rf"{option}\b", said.split("Options:")[-1]) else fail(name)


def anchors_of(path):
    """The headings of a page, as links name them."""
    with open(path, encoding="utf-8") as file:
        headings = re.findall(r"^#+ (.*)$", re.sub(r"^```.*?^```", "", file.read(), flags=re.MULTILINE | re.DOTALL), re.MULTILINE)
    return {re.sub(r"[^\w\- ]", "", heading.lower()).replace(" ", "-") for heading in headings}


def links(path, text):
    """Each link of a page to a file leads to one, and to a heading of it if it names one."""
    for number, line in enumerate(text.splitlines(), 1):
        for link in re.findall(r"\]\(([^)\s]+)\)", line):
            file, _, heading = link.partition("#")
            to = os.path.join(os.path.dirname(f"{TOP}/{path}"), file) if file else f"{TOP}/{path}"
            if not link.startswith("http") and (not os.path.exists(to) or heading and heading not in anchors_of(to)):
                fail(f"{path}:{number}: a link to {link}")
    pass_(f"the links of {path}")


def main():
    os.mkdir("bin")
    os.symlink(PBFROW, "bin/pbfrow")
    os.environ["PATH"] = f"{os.getcwd()}/bin:{os.environ['PATH']}"
    os.environ["PBFROW"] = PBFROW
    os.environ["PYTHONDONTWRITEBYTECODE"] = "1"
    # a Python with numpy, pandas and venv, if there is one; the first one of PATH need not have them
    for python in ("python3", "/usr/bin/python3"):
        if subprocess.run([python, "-c", "import ensurepip, numpy, pandas, venv"], capture_output=True).returncode == 0:
            with open(PYTHON, "w", encoding="utf-8") as file:
                file.write(f'#!/bin/sh\nexec "{shutil.which(python)}" "$@"\n')
            os.chmod(PYTHON, 0o755)
            break
    for path in sys.argv[3:] or [*MADE, "python/README.md"]:
        with open(f"{TOP}/{path}", encoding="utf-8") as file:
            text = file.read()
        if path in MADE:
            Page(path, f"{os.getcwd()}/{path.replace('/', '-').removesuffix('.md')}").check(text)
        options(path, text)
        links(path, text)
    print(f"{counts['ok']} passed, {counts['FAILED']} failed")


main()
