#!/usr/bin/env python3
"""Reads OPL, as `osmium cat -f opl` writes it, and writes the same elements as the lines of `pbfrow show`.

It shares nothing with the program: it is what the lines are compared with. It wants an input whose objects have all of
version, time, changeset, uid and user, as osmium writes them. With the word `history` it writes the flag of visibility,
which OPL always has and a file only where it is one with history.
"""
import re
import sys
from datetime import datetime, timezone

SEPARATORS = b"%=,@[]{}()"

# What osmium writes as the latitude and longitude of a node that has none: 2^31 - 1 units of 100 nanodegrees.
NOWHERE = (2**31 - 1) * 100


def text(word):
    """A text of OPL, where %HEX% is a character, as the bytes that it stands for."""
    return re.sub("%([0-9a-f]+)%", lambda m: chr(int(m[1], 16)), word).encode()


def escaped(word):
    return b"".join(
        b"%%%02X" % b if b < 33 or b == 127 or b in SEPARATORS else bytes([b]) for b in text(word)
    )


def nanodegrees(word):
    if not word:
        return NOWHERE
    sign, rest = (-1, word[1:]) if word.startswith("-") else (1, word)
    whole, _, part = rest.partition(".")
    return sign * (int(whole) * 10**9 + int((part + "0" * 9)[:9]))


def milliseconds(word):
    if not word:
        return 0
    when = datetime.strptime(word, "%Y-%m-%dT%H:%M:%SZ").replace(tzinfo=timezone.utc)
    return int(when.timestamp()) * 1000


def members(word):
    for member in word.split(",") if word else []:
        name, _, role = member.partition("@")
        yield name.encode() + b"@" + escaped(role)


def line(words, has_flags):
    fields = {word[0]: word[1:] for word in words[1:]}
    kind, number = words[0][0], words[0][1:].encode()
    info = "v=%s,t=%d,c=%s,i=%s,u=" % (fields["v"], milliseconds(fields["t"]), fields["c"], fields["i"])
    info = info.encode() + escaped(fields["u"])
    if has_flags:
        info += {"V": b",x=1", "D": b",x=0"}[fields["d"]]
    tags = b",".join(
        b"=".join(escaped(part) for part in tag.split("=")) for tag in fields["T"].split(",") if tag
    )
    if kind == "n":
        place = b"%d %d" % (nanodegrees(fields["y"]), nanodegrees(fields["x"]))
    elif kind == "w":
        place = b"(" + b",".join(ref[1:].encode() for ref in fields["N"].split(",") if ref) + b")"
    else:
        place = b"(" + b",".join(members(fields["M"])) + b")"
    return kind.encode() + b" " + number + b" " + place + b" [" + info + b"] {" + tags + b"}\n"


def main():
    has_flags = sys.argv[1:] == ["history"]
    for row in sys.stdin:
        sys.stdout.buffer.write(line(row.rstrip("\n").split(" "), has_flags))


main()
