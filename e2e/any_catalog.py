#!/usr/bin/env python3
"""Random objects of a user's own in a database of pbfrow's, made by stock SQLite: tables of each kind, indexes, views, triggers and
virtual tables, with names in any letters, in any order, before and after VACUUM, ANALYZE or a dump. Beside each of them an import,
a merge, verify, an export, status and find have to give what they give beside nothing and tell nothing, or to refuse the database,
with an object named, and to leave it as it is; and nothing that isn't pbfrow's may change. Where two objects have one name, or a
table or the index of pbfrow's was changed, each of them has to refuse it.

One thing that docs/REPAIR.md says isn't so yet is let pass: where an index with DESC or COLLATE is on an expression, or on a table with
a computed column, verify may also end with fault 65 without a name.

usage: any_catalog.py PROGRAM EXTRACT HOW_MANY SEED, in an empty folder. Of the extract the first and the last data blob are taken.
"""
import collections
import hashlib
import multiprocessing
import os
import random
import shutil
import sqlite3
import subprocess
import sys

PROGRAM, EXTRACT = sys.argv[1], "two.osm.pbf"
HOW_MANY, SEED = int(sys.argv[3]), int(sys.argv[4])
# as many processes as there are processors
SHARES = len(os.sched_getaffinity(0))
OF_PBFROW = ("meta", "blob", "element", "tag", "link", "element_by_id", "sqlite_autoindex_element_1", "sqlite_autoindex_tag_1",
             "sqlite_autoindex_link_1")
NAMES = ("mine", "Mine", "roads", "Way", "node", "tags", "elements", "Element2", "a b", 'a"b', "a'b", "straße", "道路", "select", "order",
         "t-1", "x;y", "[x]", "`y`", "blob2", "metadata", "tag_by_key", "ELEMENT_BY_ID2", "1st", "a.b", "main", "rowid", "é", "-- x")
TYPES = ("", " INTEGER", " TEXT", " REAL", " BLOB", " VARCHAR(12)", " NUMERIC")
VALUES = ("NULL", "0", "-1", "9223372036854775807", "1.5", "'a'", "'Vaduz und Schaan'", "'道'", "x'00ff'", "1e300", "''", "zeroblob(5000)")


def quoted(name):
    return '"' + name.replace('"', '""') + '"'


def run(*words):
    got = subprocess.run((PROGRAM, *words), stdin=subprocess.DEVNULL, capture_output=True)
    return got.returncode, got.stdout, got.stderr.decode()


class Maker:
    """Makes random statements, and remembers what they named."""

    def __init__(self, choose):
        self.choose, self.tables, self.indexes, self.views, self.taken = choose, [], [], [], set()

    def pick(self, options):
        return self.choose.choice(options)

    def name(self):
        while True:
            name = self.pick(NAMES)
            if self.choose.random() < 0.3:
                name += str(self.choose.randrange(9))
            if name.lower() not in self.taken:
                self.taken.add(name.lower())
                return name

    def trigger_name(self):
        """A name of its own, or now and then that of another object, which SQLite lets a trigger have."""
        if self.choose.random() < 0.06:
            return self.pick([name for name, _ in self.tables] + self.indexes + ["tag", "Element", "ELEMENT_BY_ID"])
        return self.name()

    def columns(self):
        return [(f"c{at}", self.pick(TYPES)) for at in range(self.choose.randint(1, 4))]

    def table(self):
        name, columns = self.name(), self.columns()
        parts = [column + kind + self.pick(("", "", " NOT NULL DEFAULT 0", " UNIQUE", " DEFAULT 'x'", " CHECK (1)", " COLLATE NOCASE",
                                             " COLLATE NOCASE UNIQUE"))
                 for column, kind in columns]
        ending = ""
        shape = self.choose.randrange(7)
        if shape == 0:
            parts[0] = columns[0][0] + " INTEGER PRIMARY KEY" + self.pick(("", " AUTOINCREMENT", " DESC"))
        elif shape == 1:
            parts[0] = columns[0][0] + " TEXT PRIMARY KEY" + self.pick(("", " DESC", " COLLATE RTRIM"))
            ending = " WITHOUT ROWID"
        elif shape == 2:
            parts = [column + self.pick((" INT", " INTEGER", " TEXT", " ANY", " BLOB")) for column, _ in columns]
            ending = " STRICT"
        elif shape == 3:
            parts.append(f"g{self.pick((' AS', ' GENERATED ALWAYS AS'))} ({columns[0][0]} || 'x'){self.pick((' STORED', ' VIRTUAL', ''))}")
        elif shape == 4:
            parts.append(f"FOREIGN KEY ({columns[0][0]}) REFERENCES {self.pick(('element', 'blob (off)', quoted(name)))}")
        elif shape == 5 and len(columns) > 1:
            parts.append(f"PRIMARY KEY ({columns[1][0]}{self.pick(('', ' DESC', ' COLLATE RTRIM'))}, {columns[0][0]})")
            ending = self.pick(("", " WITHOUT ROWID"))
        made = f"CREATE TABLE {quoted(name)} ({', '.join(parts)}){ending}"
        if self.choose.random() < 0.05:
            made = f"CREATE TABLE {quoted(name)} AS SELECT * FROM element LIMIT 20"
            columns = [("id", ""), ("lat", "")]
        self.tables.append((name, columns))
        return [made] + [self.insertion(name, columns) for _ in range(self.choose.randint(0, 12))]

    def insertion(self, name, columns):
        many = self.pick(("", "", "OR IGNORE ", "OR REPLACE "))
        return (f"INSERT {many}INTO {quoted(name)} ({', '.join(c for c, _ in columns)}) VALUES "
                f"({', '.join(self.pick(VALUES) for _ in columns)})")

    def index(self):
        if not self.tables:
            return self.table()
        name, columns = self.pick(self.tables)
        parts = [self.pick((column, column, f"lower({column})", f"{column} || 'x'")) + self.pick(("", "", " DESC", " COLLATE NOCASE"))
                 for column, _ in columns]
        where = self.pick(("", "", "", f" WHERE {columns[0][0]} IS NOT NULL"))
        self.indexes.append(self.name())
        return [f"CREATE {self.pick(('', '', 'UNIQUE '))}INDEX {quoted(self.indexes[-1])} ON {quoted(name)} ({', '.join(parts)}){where}"]

    def index_of_pbfrow(self):
        on = self.pick(("tag (key, val)", "tag (val)", "link (ref, kind)", "element (user)", "element (time, id)", "element (lat, lon)",
                        "tag (key COLLATE NOCASE, val DESC)", "element (uid DESC)"))
        return [f"CREATE INDEX {quoted(self.name())} ON {on}"]

    def index_not_kept(self):
        on = self.pick(("UNIQUE INDEX @ ON element (off, pos, kind)", "INDEX @ ON tag (lower(key))", "INDEX @ ON blob (n)",
                        "INDEX @ ON tag (key) WHERE key > 'm'"))
        return ["CREATE " + on.replace("@", quoted(self.name()))]

    def view(self):
        name = self.name()
        self.views.append(name)
        return [f"CREATE VIEW {quoted(name)} AS " + self.pick((
            "SELECT * FROM element WHERE kind = 0", "SELECT count(*) FILTER (WHERE kind = 1) AS many FROM element",
            "SELECT row_number() OVER (PARTITION BY kind ORDER BY id) AS at, id FROM element",
            "WITH RECURSIVE n (i) AS (VALUES (1) UNION ALL SELECT i + 1 FROM n WHERE i < 5) SELECT i FROM n",
            "SELECT e.id, t.val FROM element e LEFT JOIN tag t USING (off, pos)", "SELECT '{\"a\":1}' -> 'a' AS b",
            "SELECT * FROM no_such_table", "SELECT CASE kind WHEN 0 THEN 'n' ELSE 'w' END AS k FROM element /* ; */"))]

    def trigger(self):
        if self.views and self.choose.random() < 0.3:
            return [f"CREATE TRIGGER {quoted(self.trigger_name())} INSTEAD OF {self.pick(('INSERT', 'DELETE', 'UPDATE'))} ON "
                    f"{quoted(self.pick(self.views))} BEGIN SELECT 1; END"]
        if not self.tables:
            return self.table()
        name, columns = self.pick(self.tables)
        event = self.pick(("AFTER INSERT", "BEFORE UPDATE", "AFTER DELETE", f"AFTER UPDATE OF {columns[0][0]}"))
        return [f"CREATE TRIGGER {quoted(self.trigger_name())} {event} ON {quoted(name)} {self.pick(('', 'WHEN 1 = 2 '))}"
                f"BEGIN DELETE FROM {quoted(name)} WHERE 0; SELECT 'a;b'; END"]

    def trigger_of_pbfrow(self):
        return [f"CREATE TRIGGER {quoted(self.name())} AFTER INSERT ON {self.pick(('element', 'TAG', 'Blob', 'meta'))} BEGIN SELECT 1; END"]

    def change_of_pbfrow(self):
        return self.pick((["ALTER TABLE element ADD COLUMN more"], ["ALTER TABLE blob ADD COLUMN more INTEGER"], ["DROP INDEX element_by_id"],
                          ["ALTER TABLE tag RENAME COLUMN val TO value", "ALTER TABLE tag RENAME COLUMN value TO val"]))

    def virtual(self):
        name = self.name()
        return self.pick((
            [f"CREATE VIRTUAL TABLE {quoted(name)} USING fts5 (word, other)",
             f"INSERT INTO {quoted(name)} VALUES ('Vaduz und Schaan', 'x'), ('Triesen', 'y')"],
            [f"CREATE VIRTUAL TABLE {quoted(name)} USING fts5 (val, content='tag', content_rowid='rowid')",
             f"INSERT INTO {quoted(name)} ({quoted(name)}) VALUES ('rebuild')"],
            [f"CREATE VIRTUAL TABLE {quoted(name)} USING fts4 (word)", f"INSERT INTO {quoted(name)} VALUES ('Balzers')"],
            [f"CREATE VIRTUAL TABLE {quoted(name)} USING rtree (id, west, east, south, north)",
             f"INSERT INTO {quoted(name)} SELECT rowid, lon / 1e9, lon / 1e9, lat / 1e9, lat / 1e9 FROM element WHERE lat IS NOT NULL LIMIT 300"]))

    def change(self):
        if not self.tables:
            return self.table()
        name, columns = self.pick(self.tables)
        return self.pick(([f"DROP TABLE {quoted(name)}"], [f"ALTER TABLE {quoted(name)} ADD COLUMN more"],
                          [f"ALTER TABLE {quoted(name)} RENAME TO {quoted(self.name())}"], [f"DELETE FROM {quoted(name)}"]))

    def statements(self):
        made = []
        for _ in range(self.choose.randint(1, 8)):
            kind = self.choose.choices((self.table, self.index, self.index_of_pbfrow, self.view, self.trigger, self.virtual, self.change,
                                        self.index_not_kept, self.trigger_of_pbfrow, self.change_of_pbfrow),
                                       (6, 4, 2, 3, 3, 3, 1, 0.3, 0.3, 0.2))[0]
            made += kind()
        made += self.pick(([], [], ["ANALYZE"]))
        made += self.pick(([], ["VACUUM"]))
        return made


def told(path):
    """All that isn't pbfrow's: the rows of the list, and what the tables and the virtual tables hold."""
    base = sqlite3.connect(f"file:{path}?mode=ro", uri=True)
    base.text_factory = bytes
    listed = list(base.execute("SELECT rowid, * FROM sqlite_schema ORDER BY rowid"))
    ours = [row for row in listed if row[1] != b"trigger" and row[2].decode() in OF_PBFROW]
    rows = [row for row in listed if row not in ours]
    held = []
    for row in rows:
        # what stands in external content is pbfrow's, and is brought up to date by whoever made the index
        if row[1] == b"table" and b"content='tag'" not in row[5]:
            held.append((row[2], list(base.execute(f"SELECT * FROM {quoted(row[2].decode())}"))))
    base.close()
    return rows, ours, held


def untold(row, rows):
    """Whether it tells of an index whose order pbfrow can't tell, and which may be another than that of bytes."""
    if row[1] != b"index":
        return False
    # that of an index which a UNIQUE or a PRIMARY KEY makes stands in its table's
    text = row[5] or b""
    made = [other[5] for other in rows if other[1] == b"table" and other[2].lower() == row[3].lower()]
    told = b"".join([text, *made])
    return (b"DESC" in told or b"COLLATE" in told) and (b"lower(" in text or b"||" in text or b" AS (" in b"".join(made))


def texts(ours):
    """Name and text of each of pbfrow's tables and indexes."""
    return {row[2].decode(): row[5] for row in ours}


def stoppers(rows, ours, made):
    """The names of what stops every command: names that two objects have, and objects of pbfrow's that aren't as they were made."""
    names = [row[2].decode() for row in rows + ours]
    plain = [name.encode().lower() for name in names]
    return [name for name in names if plain.count(name.encode().lower()) > 1] + [name for name in made if texts(ours).get(name) != made[name]]


def digest(path):
    with open(path, "rb") as file:
        return hashlib.sha256(file.read()).hexdigest()


def whole(path):
    base = sqlite3.connect(path)
    said = base.execute("PRAGMA integrity_check").fetchall()
    base.close()
    return said == [("ok",)]


def take_two(extract):
    """Makes a file of the header, the first and the last data blob of an extract, and gives the offset of the last."""
    offsets = [int(line.split()[0]) for line in run("list", extract)[1].decode().splitlines()]
    with open(extract, "rb") as file:
        data = file.read()
    first = data[:offsets[2]]
    with open(EXTRACT, "wb") as file:
        file.write(first + data[offsets[-1]:])
    return len(first)


class Checker:
    """What the commands give beside nothing, and whether they give it beside something."""

    def __init__(self):
        last = take_two(sys.argv[2])
        run("import", EXTRACT, "plain.db")
        run("import", "/dev/null", "none.db")
        run("import", EXTRACT, "last.db", "--from", str(last))
        self.made = texts(told("none.db")[1])
        self.counts = {"stored": 0, "not stored": 0, "verified": 0, "not verified": 0, "stopped": 0, "statements": 0, "not taken by SQLite": 0}

    def refuses(self, path, got, before, names):
        """Whether a command refused the database, with an object named, and left it as it was."""
        code, out, err = got
        return code == 1 and b"fault 65" in out and any(name in err for name in names) and digest(path) == before

    def check(self, choose):
        """None where all is well, else what isn't."""
        path, maker = "any.db", Maker(choose)
        for name in os.listdir("."):
            if name.startswith("any.db"):
                os.remove(name)
        held = choose.choice(("none.db", "last.db", "plain.db"))
        shutil.copy(held, path)
        statements = maker.statements()
        base = sqlite3.connect(path, isolation_level=None)
        for statement in statements:
            self.counts["statements"] += 1
            try:
                base.execute(statement)
            except sqlite3.Error:
                self.counts["not taken by SQLite"] += 1
        base.close()
        if choose.random() < 0.25:
            dump = subprocess.run(("sqlite3", path, ".dump"), capture_output=True).stdout
            os.remove(path)
            if subprocess.run(("sqlite3", path), input=dump, capture_output=True).returncode != 0:
                return None  # a dump that SQLite itself doesn't take
        if not whole(path):
            return None  # SQLite's own statements left it so
        rows, ours, own = told(path)
        names = [row[2].decode() for row in rows]
        before = digest(path)

        def said(what, got):
            return f"{what}: {got}\n    " + "\n    ".join(statements) + f"\n    catalog: {[(r[0], r[1], r[2], r[3]) for r in rows]}"

        merges = choose.random() < 0.3
        stops = stoppers(rows, ours, self.made)
        if stops:
            self.counts["stopped"] += 1
            for words in (("import", EXTRACT, path), ("merge", path, "plain.db"), ("verify", EXTRACT, path), ("export", path), ("status", path),
                          ("find", path, "n14690")):
                got = run(*words)
                if not self.refuses(path, got, before, stops):
                    return said(words[0], got)
            return None
        got = run("merge", path, "plain.db") if merges else run("import", EXTRACT, path)
        refused = self.refuses(path, got, before, names)
        if not refused and (got[0] != 0 or got[2]):
            return said("merge" if merges else "import", got)
        self.counts["not stored" if refused else "stored"] += 1
        after = held if refused else "plain.db"
        if not whole(path):
            return said("sqlite3 doesn't find it whole", got)
        if told(path) != (rows, ours, own):
            return said("what isn't pbfrow's has changed", got)
        before = digest(path)
        for words in (("export", path), ("status", path), ("find", path, "n14690")):
            want, got = run(*[after if word == path else word for word in words]), run(*words)
            if got != want:
                return said(words[0], (got[0], got[2]))
        words = ("verify", EXTRACT, path, "--elements")
        want, got = run(*[after if word == path else word for word in words]), run(*words)
        right = got == want
        self.counts["verified" if right else "not verified"] += 1
        if not right and not self.refuses(path, got, before, names):
            if not any(untold(row, rows) for row in rows) or got[:2] != (1, b"fault 65 Disk\n"):
                return said("verify", (got, want))
        return None


def check_share(share):
    """Checks one of SHARES equal shares of the catalogs, in a folder of its own. Gives what is wrong with those that aren't as they
    have to be, and what was counted."""
    os.mkdir(f"share{share}")
    os.chdir(f"share{share}")
    checker = Checker()
    faults = [(at, checker.check(random.Random(f"{SEED} {at}"))) for at in range(share, HOW_MANY, SHARES)]
    return [f"catalog {at}: {fault}"[:3000] for at, fault in faults if fault is not None], checker.counts


def main():
    faults, counts = [], collections.Counter()
    with multiprocessing.Pool(SHARES) as pool:
        for wrong, counted in pool.imap(check_share, range(SHARES), 1):
            faults += wrong
            counts.update(counted)
    print(*faults, sep="\n", end="\n" if faults else "")
    print(f"{HOW_MANY} catalogs, seed {SEED}: {dict(counts)}")
    sys.exit(bool(faults))


main()
