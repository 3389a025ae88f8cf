#!/usr/bin/env python3
"""What has to be believed for a clause: the definitions behind a name, and their lines.

`believed.py NAME..` follows the names that a definition of `crates/*/specs` is made of, and those behind them, and
prints how many definitions that are, and how many lines they have without comments, in all and by crate. A name is
`CRATE.FILE.NAME`, or `NAME` where one definition alone has it. `--list` prints each. `--check` compares the counts with
the most that `scripts/believed.txt` allows: a rise is refused, and a fall has to be noted.
"""
import collections
import glob
import os
import re
import sys

ROOT = os.path.dirname(os.path.dirname(os.path.realpath(__file__)))
MOST = f"{ROOT}/scripts/believed.txt"
WORD = re.compile(r"[A-Za-z_][\w'-]*(?:\.[A-Za-z_0-9][\w'-]*)*")


class File:
    """A file of definitions: what it imports, and the lines of each of its definitions."""

    def __init__(self, path):
        crate, name = path.split("/")[-3], path.split("/")[-1].removesuffix(".antt")
        self.module = f"{crate}.{name}"
        self.names, self.modules, self.lines, self.variants = {}, {}, {}, {}
        current = None
        with open(path, encoding="utf-8") as text:
            for line in text:
                code = line.split("--")[0].rstrip()
                if code.startswith("use "):
                    self.read_import(code.removeprefix("use "))
                elif code:
                    current = current if code[0].isspace() else self.begun_by(code, current)
                    self.lines.setdefault(current, []).append(code)
        for name, lines in self.lines.items():
            if re.match(r"(pub )?data ", lines[0]):
                self.read_variants(name, lines[1:])

    def begun_by(self, code, current):
        """The definition that a line at the margin belongs to: a new one, or one of those above it."""
        name = re.match(r"(?:(?:pub|abbrev|unfoldable|record|data)\s+)*([A-Za-z_][\w'-]*)?", code).group(1)
        begins = re.match(r"(pub|abbrev|unfoldable|record|data)\b|[A-Za-z_][\w'-]*\s*:", code)
        return name if name in self.lines or begins else current

    def read_import(self, text):
        found = re.match(r"Rattle\.(\w+)\.specs\.([\w.]+?)(?:\.\{(.*)\})?(?: as (\w+))?$", text)
        if not found or found.group(1) == "std" or found.group(2).startswith("declared"):
            return
        crate, path, names, other = found.groups()
        if names is None:
            self.modules[other or path.split(".")[-1]] = f"{crate}.{path}"
        for name in re.split(r",\s*", names or ""):
            own, _, other = name.partition(" as ")
            self.names[other or own] = f"{crate}.{path}.{own}"

    def read_variants(self, name, lines):
        for line in lines:
            found = re.match(r"\s+((?:[A-Za-z_][\w'-]*\s+)*[A-Za-z_][\w'-]*)\s*:", line)
            for variant in found.group(1).split() if found else []:
                self.variants.setdefault(variant, name)

    def meant(self, word):
        """What a word of this file may mean."""
        first, _, rest = word.partition(".")
        if first in self.lines or first in self.variants:
            yield f"{self.module}.{first}"
        if first in self.names:
            yield self.names[first]
        if first in self.modules and rest:
            yield f"{self.modules[first]}.{rest.split('.')[0]}"


class Definitions:
    """All definitions of the repository."""

    def __init__(self):
        read = [File(path) for path in glob.glob(f"{ROOT}/crates/*/specs/*.antt")]
        self.files = {it.module: it for it in read}

    def lines(self, name):
        crate, file, own = name.split(".")
        return self.files[f"{crate}.{file}"].lines[own]

    def settled(self, name):
        """The definition that a name means: itself, or the type whose variant it is; none, if it isn't one of these."""
        crate, file, *parts = name.split(".")
        it = self.files.get(f"{crate}.{file}")
        for part in parts if it else []:
            own = part if part in it.lines else it.variants.get(part)
            if own:
                return f"{it.module}.{own}"
        return None

    def behind(self, name):
        """The names of the definitions behind this one, itself among them."""
        seen, todo = set(), [name]
        while todo:
            here = todo.pop()
            if here in seen:
                continue
            seen.add(here)
            file = self.files[here.rpartition(".")[0]]
            words = {word for line in self.lines(here) for word in WORD.findall(line)}
            todo += filter(None, (self.settled(meant) for word in words for meant in file.meant(word)))
        return seen

    def found(self, name):
        if name.count(".") == 2 and self.settled(name) == name:
            return name
        there = [f"{it.module}.{name}" for it in self.files.values() if name in it.lines]
        if len(there) != 1:
            sys.exit(f"{name}: {'no definition has this name' if not there else 'one of ' + ', '.join(there)}")
        return there[0]

    def counted(self, name):
        """How many definitions are behind this one, and how many lines they have."""
        seen = self.behind(self.found(name))
        return len(seen), sum(len(self.lines(it)) for it in seen)


def show(known, name, with_names):
    seen = sorted(known.behind(known.found(name)))
    print(f"{name}: {len(seen)} definitions, {sum(len(known.lines(it)) for it in seen)} lines")
    for crate, number in collections.Counter(it.split(".")[0] for it in seen).most_common():
        lines = sum(len(known.lines(it)) for it in seen if it.split(".")[0] == crate)
        print(f"  {crate}: {number}, {lines}")
    for it in seen if with_names else []:
        print(f"    {it}")


def check(known):
    failed = 0
    with open(MOST, encoding="utf-8") as rows:
        for name, *most in (row.split() for row in rows if row.strip() and not row.startswith("#")):
            counts = known.counted(name)
            if counts != tuple(map(int, most)):
                failed = 1
                told = f"{counts[0]} definitions and {counts[1]} lines, where {MOST} has {' and '.join(most)}"
                print(f"{name}: {told}", file=sys.stderr)
    print(f"{1 - failed} passed, {failed} failed")
    return failed


def main():
    words = sys.argv[1:]
    known = Definitions()
    if words == ["--check"]:
        sys.exit(check(known))
    names = [word for word in words if word != "--list"]
    if not names:
        sys.exit(__doc__)
    for name in names:
        show(known, name, "--list" in words)


if __name__ == "__main__":
    main()
