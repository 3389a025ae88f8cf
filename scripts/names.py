#!/usr/bin/env python3
"""Checks that what the documents name is there: each definition of docs/DEFINITIONS.md in its file, each path, each
file and heading that a link leads to, and each name in backticks somewhere in the crates or scripts; that no name is
defined in two crates; and that README.md names the logic of the toolchain that is installed. The last line is 'N
passed, M failed', of documents, of all definitions together, and of the toolchain.
"""
import collections
import glob
import os
import re
import subprocess
import sys

ROOT = os.path.dirname(os.path.dirname(os.path.realpath(__file__)))
DOCUMENTS = sorted(
    it for pattern in ("*.md", "docs/*.md", "examples/*/README.md") for it in glob.glob(pattern, root_dir=ROOT)
)
PLACES = ("crates", "scripts", "examples", "bench", "docs", ".ci")
CODE = (".rt", ".rs", ".antt", ".py", ".sh", ".toml", ".script", ".edit")
# What is made by a run, or stands for a name.
MADE = re.compile(r"out/|/NAME|NAME\b|FILE|CRATE")
PATH = re.compile(r"(?:crates|scripts|examples|bench|docs|src|specs|proofs)/[\w./+-]*[\w/+]")
NAME = re.compile(r"[A-Za-z_]\w*(?:(?:::|\.)[A-Za-z_]\w*)*")
LINK = re.compile(r"\]\(([^)\s]+)\)")


def read(path):
    with open(f"{ROOT}/{path}", encoding="utf-8") as it:
        return it.read()


def words():
    """All words of the repository's code, and the stems of its files' names."""
    found = set()
    for place in (*PLACES, "crates.txt"):
        for at, folders, names in os.walk(f"{ROOT}/{place}"):
            folders[:] = [it for it in folders if it != "out"]
            found |= {it.rpartition("/")[2] for it in folders}
            for name in names:
                found |= {name, name.partition(".")[0]}
                if at != f"{ROOT}/docs" and name.endswith(CODE):
                    found |= {*re.findall(r"\w+", read(os.path.relpath(f"{at}/{name}", ROOT)))}
    return found | {*re.findall(r"\w+", read("crates.txt"))}


def definitions(text):
    """Of each row of a table of definitions its names and the file that they have to stand in."""
    folder = ""
    for line in text.split("\n"):
        heading = re.match(r"## .*?(?:\(`(crates/\w+/specs)`|$)", line)
        folder = heading[1] if heading else folder
        row = re.match(r"\| (.+?) \| `([\w/]+\.antt)` \|", line)
        if row and (folder or row[2].startswith("crates/")):
            path = row[2] if row[2].startswith("crates/") else f"{folder}/{row[2]}"
            yield from ((name, path) for name in re.findall(r"`([^`]+)`", row[1]))


def lacking_definitions(text):
    for name, path in definitions(text):
        where = f"{ROOT}/{path}"
        if not os.path.isfile(where):
            yield f"{path} isn't there, which has to have {name}"
        elif not re.search(rf"(?<![\w-]){re.escape(name.rpartition('.')[2])}(?![\w-])", read(path)):
            yield f"{path} has no {name}"
        else:
            yield None


def prose(document):
    """The text of a document without its blocks of code."""
    return re.sub(r"^```.*?^```$", "", read(document), flags=re.S | re.M)


def headings(document):
    """The headings of a document, as links name them."""
    titles = re.findall(r"^#+ (.+)$", prose(document), re.M)
    return {re.sub(r"[^\w -]", "", it.lower()).replace(" ", "-") for it in titles}


def lacking_links(document):
    """Of each link to a place in the repository what is wrong with it, if anything is."""
    for target in LINK.findall(prose(document)):
        file, _, heading = target.partition("#")
        path = os.path.normpath(os.path.join(os.path.dirname(document), file)) if file else document
        if "://" in target:
            continue
        if not os.path.exists(f"{ROOT}/{path}"):
            yield f"{document}: there is no {path}"
        elif heading and heading not in headings(path):
            yield f"{document}: {path} has no heading {heading}"
        else:
            yield None


def lacking_names(document, known):
    """Of each path and each name in backticks what is wrong with it, if anything is."""
    for word in sorted({*re.findall(r"`([^`\n]+)`", prose(document))}):
        if MADE.search(word):
            continue
        if PATH.fullmatch(word) and word.startswith(PLACES):
            yield None if os.path.exists(f"{ROOT}/{word}") else f"{document}: there is no {word}"
        elif NAME.fullmatch(word) and re.search(r"[a-z]", word):
            missing = [it for it in re.split(r"::|\.", word) if it not in known]
            yield f"{document}: nothing is named {word}" if missing else None


def doubled():
    """Of each name that specs of two crates define what is wrong with it. (In `Laws.antt` each crate of the driver has
    its own kinds of accesses, by the same words.)"""
    crates = collections.defaultdict(set)
    for path in glob.glob("crates/*/specs/*.antt", root_dir=ROOT):
        if not path.endswith(("/Laws.antt", "/AccessPurposes.antt", "/Lib.antt")):
            for name in re.findall(r"^(?:(?:pub|abbrev|unfoldable|record|data) )+([\w'-]+)", read(path), re.M):
                crates[name].add(path.split("/")[1])
    yield from (f"{', '.join(sorted(its))} define {name}" for name, its in sorted(crates.items()) if len(its) > 1)


def other_logic():
    """What is wrong with what README.md says of the toolchain, if anything is."""
    version = subprocess.run(["rt", "version"], capture_output=True, text=True, check=True).stdout.strip()
    logic = re.search(r"logic \w+", version)
    is_named = logic and f"`{logic[0]}`" in read("README.md")
    return None if is_named else f"README.md doesn't name the logic of this toolchain, which is {version}"


def main():
    known, passed = words(), 0
    for document in DOCUMENTS:
        told = [*lacking_names(document, known), *lacking_links(document)]
        if document == "docs/DEFINITIONS.md":
            told += lacking_definitions(read(document))
        for line in filter(None, told):
            print(f"names: {line}")
        passed += bool(told) and not any(told)
    twice = [*doubled()]
    for line in twice:
        print(f"names: {line}")
    passed += not twice
    other = other_logic()
    if other:
        print(f"names: {other}")
    passed += not other
    failed = len(DOCUMENTS) + 2 - passed
    print(f"names: {passed} passed, {failed} failed")
    return 1 if failed else 0


if __name__ == "__main__":
    sys.exit(main())
