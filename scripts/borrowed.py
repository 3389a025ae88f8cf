#!/usr/bin/env python3
"""Counts the imports of another crate's proofs, crate by crate: what a crate knows of another otherwise than by its
contracts and laws. The last line tells those of the crates above `refinement`, which are to become none. With a crate's
name, lists its own.
"""
import collections
import os
import re
import sys

sys.dont_write_bytecode = True
import toolchain

BORROWED = re.compile(r"^(?:(?:ghost|pub) )?use Rattle\.(\w+)\.proofs\.([\w+]+(?:\.[\w+]+)*)", re.M)


def borrowed(crate, names):
    """The crate and the module of each import of another crate's proofs."""
    for at, folders, files in os.walk(crate.folder):
        folders[:] = [it for it in folders if it != "out"]
        for file in sorted(files):
            if file.endswith((".antt", ".rt")):
                with open(f"{at}/{file}", encoding="utf-8") as it:
                    found = BORROWED.findall(it.read())
                    yield from (it for it in found if it[0] in names and it[0] != crate.name)


def main():
    crates = toolchain.crates()
    names = {it.name for it in crates}
    found = {it.name: list(borrowed(it, names)) for it in crates}
    for name in sys.argv[1:]:
        for (of, module), count in sorted(collections.Counter(found[name]).items()):
            print(f"borrowed: {name} {count} of {of}, {module}")
    each = sorted(((len(it), name) for name, it in found.items() if it), reverse=True)
    print("borrowed: imports of another crate's proofs: " + ", ".join(f"{name} {count}" for count, name in each))
    above = {it.name for it in crates if any(below.name == "refinement" for below in it.below())}
    high = sum(count for count, name in each if name in above)
    print(f"borrowed: {high} of them in crates above refinement, {sum(it[0] for it in each)} in all")


main()
