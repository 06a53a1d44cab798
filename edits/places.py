"""What the tools of this folder share: the edits, the functions of a crate's code, which of them an edit changes, and the goals that a check refuses."""
import glob
import os
import re
import shutil
import subprocess
import tempfile

TOP = os.path.dirname(os.path.dirname(os.path.realpath(__file__)))
FUNCTION = re.compile(r"""^( *)(?:pub(?:\([a-z]+\))? )?(?:const |extern "C" )?fn (\w+)""")
ITEM = re.compile(r"^(?:pub(?:\([a-z]+\))? )?(?:const|static|macro_rules!|struct|enum) (\w+)")
IMPL = re.compile(r"^impl(?:<.*?>)? (?:(\w+)(?:<.*?>)? for )?(\w+)")


class Function:
    """A function of a crate: its file, its name, the type that it is a method of and whether by a trait, its lines."""

    def __init__(self, path, name, owner, by_trait, first, last, text):
        self.path, self.name, self.owner, self.by_trait = path, name, owner, by_trait
        self.first, self.last, self.text = first, last, text
        self.module = [it for it in path[len("src/") : -len(".rt")].split("/") if it not in ("lib", "main")]

    def key(self):
        return self.path, self.owner, self.name

    def asked(self):
        """The path by which a check is asked for it: for a method of a trait's impl that of its module, for another method the
        end of it, since a type may stand in another module than its impl."""
        if self.owner and not self.by_trait:
            return f"{self.owner}::{self.name}"
        return "::".join(self.module if self.by_trait else [*self.module, self.name])

    def is_called(self, path):
        """Whether this is the function of that path, where an impl has the names of its type and its trait together."""
        words = path.split("::")
        if self.owner and not self.by_trait and words[-2:] == [self.owner, self.name]:
            return words[:1] == self.module[:1]
        middle = words[len(self.module) : -1]
        return words[: len(self.module)] == self.module and words[-1] == self.name and (middle[0].startswith(self.owner) if middle else not self.owner)

    def __str__(self):
        return f"{self.owner}::{self.name}" if self.owner else self.name


def end_of(lines, first, margin):
    """The last line of the function that begins at this one: a brace as far in as it, or, without a body, a semicolon."""
    has_body = False
    for at in range(first, len(lines)):
        has_body = has_body or lines[at] == margin + "{" or lines[at].endswith(" {")
        if lines[at] in (margin + "}", margin + "{}") or not has_body and lines[at].endswith(";"):
            return at
    return first


def functions_of(path, text):
    """The functions of a file in rt fmt's layout."""
    owner, by_trait, found, lines = "", False, [], text.split("\n")
    for number, line in enumerate(lines):
        if IMPL.match(line):
            owner, by_trait = IMPL.match(line).group(2), bool(IMPL.match(line).group(1))
        elif line == "}":
            owner, by_trait = "", False
        begun = FUNCTION.match(line)
        if begun:
            last = end_of(lines, number, begun.group(1))
            found.append(Function(path, begun.group(2), owner, by_trait, number, last, "\n".join(lines[number : last + 1])))
    return found


def code(crate):
    """The files of a crate's code, by their path in it."""
    paths = glob.glob("src/**/*.rt", root_dir=f"{TOP}/crates/{crate}", recursive=True)
    return {it: read(f"{TOP}/crates/{crate}/{it}") for it in sorted(paths)}


def all_functions(files):
    return [it for path, text in files.items() for it in functions_of(path, text)]


def read(path):
    with open(path, encoding="utf-8") as file:
        return file.read()


def pairs(edit):
    """The replacements of an edit, each with its file."""
    path = old = ""
    for line in read(edit).split("\n"):
        word, _, rest = line.partition(" ")
        if word == "file:":
            path = rest
        elif word == "old:":
            old = rest
        elif word == "new:":
            yield path, old, rest


def crates_with_edits():
    """The crates that have edits, of the gate or others, by name."""
    found = glob.glob(f"{TOP}/crates/*/must-fail/*.edit") + glob.glob(f"{TOP}/edits/*/*.edit")
    return sorted({os.path.relpath(it, TOP).split("/")[1] for it in found})


def edits_of(crate):
    """A crate's edits: those that the gate tries, and then the others."""
    return sorted(glob.glob(f"{TOP}/crates/{crate}/must-fail/*.edit")) + sorted(glob.glob(f"{TOP}/edits/{crate}/*.edit"))


def places(replacements, files):
    """The places of the code that an edit changes: where, the functions there, and the words by which others name it."""
    made = {}
    for path, old, new in replacements:
        if path not in files or new.startswith("*/") or old.startswith("use "):
            continue
        text = made.get(path, files[path])
        number = text[: text.index(old)].count("\n")
        made[path] = text.replace(old, new)
        here = [it for it in functions_of(path, text) if it.first <= number <= it.last]
        # a piece that ends one function and begins another changes both
        begun = re.findall(r"\bfn (\w+)", new)
        here += [it for it in functions_of(path, files[path]) if here and it.name in begun and it.owner == here[0].owner and it.name != here[0].name]
        item = next((ITEM.match(it).group(1) for it in reversed(text.split("\n")[: number + 1]) if ITEM.match(it)), "")
        yield f"{path}: {new.strip()[:60]}", here, [it.name for it in here] or [item]


def with_items(words, files):
    """These words, and the names of the constants and macros that stand on them."""
    words = set(words)
    items = [(name, it) for text in files.values() for it in text.split("\n\n") for name in re.findall(f"(?m){ITEM.pattern}", it)]
    for _ in items:
        words |= {name for name, text in items if name not in words and re.search(r"\b(?:" + "|".join(words) + r")\b", text)}
    return sorted(words)


def callers(words, functions):
    """The functions that name one of the words."""
    named = re.compile(r"\b(?:" + "|".join(words) + r")\b")
    return [it for it in functions if named.search(it.text) and it.name not in words]


class Goal:
    """A goal that a check refused, or, as `gone`, a written answer that it can't read since it names what an edit took away."""

    # how a goal is refused, the strongest first
    WAYS = "answered", "false", "searched", "gone"

    def __init__(self, name, way):
        self.name, self.way = name, way

    def is_promised(self):
        """Whether it is that of a clause, of a loop's invariant or of a condition, and not one of safety, as of an overflow."""
        # (a loop's goals begin with `loop`, or with its label where it has one)
        return re.search(r"^returns|-(init|preserved)\b|requires", self.name) is not None


def goals_in(said):
    """The goals that a check refused, by the path of their function."""
    found, searched = {}, []
    # a message goes on in lines that begin with two spaces
    for line in re.sub(r"\n  (?=\S)", " ", said).split("\n"):
        written = re.match(r"\./proofs/(.+)/\w+\.antt:\d+:\d+: error: `([^`]+)`: (.*)", line)
        if written and not re.search(r"was not admitted", written.group(3)):
            is_gone = re.search(r"has no field|is not in scope|has no `", written.group(3))
            found.setdefault(written.group(1).replace("/", "::"), []).append(Goal(written.group(2), "gone" if is_gone else "answered"))
        # the goals without a written answer stand in notes above their function's line
        noted = re.match(r"note: src/\S+: .*\(`([^`]+)`\)(.*)", line)
        if noted:
            searched.append(Goal(noted.group(1), "false" if "values at which this goal is false" in noted.group(2) else "searched"))
        function = re.match(r"fn \w+::(\S+): (.*)", line)
        if function:
            if searched and not function.group(2).startswith("proved"):
                found.setdefault(function.group(1), []).extend(searched)
            searched = []
    return found


def goals_of(functions, goals):
    """The goals of these functions that were refused, those that say most first, each with its function."""
    found = [(it, goal) for it in functions for path, many in goals.items() if it.is_called(path) for goal in many]
    return sorted(found, key=lambda pair: (not pair[1].is_promised(), Goal.WAYS.index(pair[1].way)))


def check(crate, copy, texts, functions):
    """What a check of these functions says in a copy of the repository in which the crate's files have these texts."""
    folder = f"{copy}/crates/{crate}"
    for path, text in texts.items():
        with open(f"{folder}/{path}", "w", encoding="utf-8") as file:
            file.write(text)
    only = [word for it in sorted({it.asked() for it in functions}) for word in ("--only", it)]
    how = {"cwd": folder, "stdout": subprocess.PIPE, "stderr": subprocess.STDOUT, "text": True, "errors": "replace"}
    said = subprocess.run(["nice", "-n", "10", "rt", "check", "--jobs", os.environ.get("JOBS", "2"), *only], **how).stdout
    with open(f"{copy}/{crate}.said", "a", encoding="utf-8") as kept:
        kept.write(f"== rt check {' '.join(only)}\n{said}")
    for path in texts:
        shutil.copyfile(f"{TOP}/crates/{crate}/{path}", f"{folder}/{path}")
    return said


def ended(said):
    """Whether a check came to its end, whatever it refused."""
    return re.search(r"(?m)^only=", said) is not None


def copied():
    """A copy of the repository, with the libraries and the proofs that are kept here: a new one, or that in $PBFROW_EDITS."""
    copy = os.environ.get("PBFROW_EDITS") or tempfile.mkdtemp(prefix="pbfrow-edits-")
    tracked = subprocess.run(["git", "ls-files", "-z"], cwd=TOP, check=True, stdout=subprocess.PIPE).stdout.decode().split("\0")
    for path in filter(None, tracked):
        os.makedirs(os.path.dirname(f"{copy}/{path}"), exist_ok=True)
        shutil.copy(f"{TOP}/{path}", f"{copy}/{path}")
    for built in glob.glob(f"{TOP}/crates/*/out/rlib"):
        shutil.rmtree(f"{copy}/{os.path.relpath(built, TOP)}", ignore_errors=True)
        shutil.copytree(built, f"{copy}/{os.path.relpath(built, TOP)}", symlinks=True)
    for kept in glob.glob(f"{TOP}/crates/*/out/incremental"):
        if not os.path.exists(f"{copy}/{os.path.relpath(kept, TOP)}"):
            shutil.copytree(kept, f"{copy}/{os.path.relpath(kept, TOP)}", symlinks=True)
    return copy


def let_go(copy):
    if copy != os.environ.get("PBFROW_EDITS"):
        shutil.rmtree(copy, ignore_errors=True)
