#!/usr/bin/env python3
"""A database as an earlier pbfrow made it, in which each element is a block of its own, from one of rows.

  older.py NEW.db OLD.db

Each block has one element as the format has it: a string table whose first string is empty, and a group with a node, a way
or a relation. No code of pbfrow is used."""

import os
import sqlite3
import sys

NEW, OLD = sys.argv[1:3]


def varint(number):
    out = bytearray()
    while number > 127:
        out.append(number & 127 | 128)
        number >>= 7
    out.append(number)
    return bytes(out)


def zigzag(number):
    return varint(number << 1 if number >= 0 else (-number << 1) - 1)


def unsigned(number):
    return varint(number & (1 << 64) - 1)


def field(number, value):
    return varint(number << 3) + value


def bytes_field(number, value):
    return varint(number << 3 | 2) + varint(len(value)) + value


def packed(number, values):
    return bytes_field(number, b"".join(values)) if values else b""


def differences(numbers):
    return [zigzag(number - before) for number, before in zip(numbers, [0] + numbers)]


class Texts:
    """The string table of a block."""

    def __init__(self):
        self.numbers = {"": 0}

    def number(self, text):
        return self.numbers.setdefault(text, len(self.numbers))

    def message(self):
        return b"".join(bytes_field(1, text.encode()) for text in self.numbers)


def info(element, texts):
    said = [(1, element["version"], unsigned), (2, element["time"], unsigned), (3, element["changeset"], unsigned),
            (4, element["uid"], unsigned), (6, element["visible"], varint)]
    out = b"".join(field(number, code(value)) for number, value, code in said if value is not None)
    if element["user"] is not None:
        out += field(5, varint(texts.number(element["user"])))
    return bytes_field(4, out) if out else b""


def block(element, tags, links):
    """A primitive block with times in milliseconds and places in nanodegrees."""
    texts = Texts()
    keys = [varint(texts.number(key)) for key, _ in tags]
    values = [varint(texts.number(value)) for _, value in tags]
    about = packed(2, keys) + packed(3, values) + info(element, texts)
    if element["kind"] == 0:
        group = bytes_field(1, field(1, zigzag(element["id"])) + about + field(8, zigzag(element["lat"])) + field(9, zigzag(element["lon"])))
    elif element["kind"] == 1:
        group = bytes_field(3, field(1, unsigned(element["id"])) + about + packed(8, differences([ref for _, ref, _ in links])))
    else:
        roles = [varint(texts.number(role)) for _, _, role in links]
        refs = packed(9, differences([ref for _, ref, _ in links]))
        group = bytes_field(4, field(1, unsigned(element["id"])) + about + packed(8, roles) + refs + packed(10, [varint(kind) for kind, _, _ in links]))
    return bytes_field(1, texts.message()) + bytes_field(2, group) + field(17, varint(1)) + field(18, varint(1))


def rows_of(new, statement, blob):
    """The rows of a blob by the position of their element."""
    found = {}
    for position, *row in new.execute(statement, (blob,)):
        found.setdefault(position, []).append(row)
    return found


def main():
    new = sqlite3.connect(f"file:{NEW}?mode=ro", uri=True)
    new.row_factory = sqlite3.Row
    if os.path.exists(OLD):
        os.remove(OLD)
    old = sqlite3.connect(OLD)
    old.executescript("""
      CREATE TABLE meta (version INTEGER PRIMARY KEY) STRICT;
      CREATE TABLE blob (off INTEGER PRIMARY KEY, fin INTEGER NOT NULL, digest BLOB NOT NULL, kind INTEGER NOT NULL, n INTEGER NOT NULL) STRICT;
      CREATE TABLE body (off INTEGER NOT NULL, pos INTEGER NOT NULL, kind INTEGER NOT NULL, id INTEGER NOT NULL, data BLOB NOT NULL, PRIMARY KEY (off, pos)) STRICT;
      CREATE INDEX body_element ON body (kind, id);
      INSERT INTO meta VALUES (1);""")
    for blob in new.execute("SELECT off, fin, digest, kind, n FROM blob ORDER BY off").fetchall():
        old.execute("INSERT INTO blob VALUES (?, ?, ?, ?, ?)", tuple(blob))
        tags = rows_of(new, "SELECT pos, key, val FROM tag WHERE off = ? ORDER BY pos, k", blob["off"])
        links = rows_of(new, "SELECT pos, kind, ref, role FROM link WHERE off = ? ORDER BY pos, k", blob["off"])
        for element in new.execute("SELECT * FROM element WHERE off = ? ORDER BY pos", (blob["off"],)):
            at = element["pos"]
            data = block(element, tags.get(at, []), links.get(at, []))
            old.execute("INSERT INTO body VALUES (?, ?, ?, ?, ?)", (blob["off"], at, element["kind"], element["id"], data))
    old.commit()


main()
