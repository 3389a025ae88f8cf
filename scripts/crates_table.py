#!/usr/bin/env python3
"""The table of crates in docs/ARCHITECTURE.md, made of crates.txt and of the first line of each crate's comment; and
the numbers of edits in the table of crates of docs/CLAIMS.md.

Without an argument both are compared with what they have to be, and each such line is looked at: it is a sentence of at
most 110 characters. The last line is 'N passed, M failed', of crates. With `--write` the table between the two marks is
made anew, and the numbers are put in.
"""
import glob
import os
import re
import sys

ROOT = os.path.dirname(os.path.dirname(os.path.realpath(__file__)))
DOCUMENT = f"{ROOT}/docs/ARCHITECTURE.md"
CLAIMS = f"{ROOT}/docs/CLAIMS.md"
# A row of the claims' table: its crates, what stands between, and the number of their edits.
CLAIM = re.compile(r"^(\| (`\w+`(?:, `\w+`)*) \|.*\| )(\d+)( \|[^|]*\|)$", flags=re.M)
BEGIN, END = "<!-- crates: scripts/crates_table.py --write -->", "<!-- end of crates -->"
MOST = 110


def read(path):
    with open(path, encoding="utf-8") as it:
        return it.read()


def crates():
    """The names of the crates, lowest first."""
    return re.findall(r"^(\w+):", read(f"{ROOT}/crates.txt"), flags=re.M)


def sentence(crate):
    """The first line of the crate's comment."""
    paths = (f"{ROOT}/crates/{crate}/src/{name}.rt" for name in ("lib", "main"))
    text = read(next(path for path in paths if os.path.isfile(path)))
    first = text.partition("\n")[0]
    return first.removeprefix("//! ") if first.startswith("//! ") else ""


def row(crate):
    return f"| `{crate}` | {sentence(crate)} |"


def is_sentence(text):
    return text[:1].isupper() and text.endswith(".") and len(text) <= MOST


def parts(text):
    """What stands before the table, the table's rows, and what stands behind it."""
    before, begin, rest = text.partition(f"{BEGIN}\n")
    rows, end, after = rest.partition(f"{END}\n")
    if not begin or not end:
        sys.exit(f"{DOCUMENT} has no table between its two marks")
    return before, rows, after


def edits(names):
    """How many edits the crates have that the prover must refuse."""
    return sum(len(glob.glob(f"{ROOT}/crates/{it}/edits/*.edit")) for it in re.findall(r"\w+", names))


def counted(text):
    """The claims' table with the numbers as they are."""
    return CLAIM.sub(lambda row: f"{row[1]}{edits(row[2])}{row[4]}", text)


def write():
    before, _, after = parts(read(DOCUMENT))
    table = ["| Crate | |", "|---|---|", *map(row, crates())]
    with open(DOCUMENT, "w", encoding="utf-8") as it:
        it.write("\n".join([f"{before}{BEGIN}", *table, f"{END}\n{after}"]))
    text = counted(read(CLAIMS))
    with open(CLAIMS, "w", encoding="utf-8") as it:
        it.write(text)


def check():
    names, passed = crates(), 0
    found = parts(read(DOCUMENT))[1].split("\n")[2:-1]
    for crate, line in zip(names, [*found, *names]):
        if not is_sentence(sentence(crate)):
            print(f"crates: the first line of {crate} is no sentence of at most {MOST} characters")
        elif line != row(crate):
            print(f"crates: the row of {crate} isn't there, or is another (scripts/crates_table.py --write)")
        else:
            passed += 1
    failed = len(names) - passed + max(0, len(found) - len(names))
    claims = read(CLAIMS)
    told = {name for row in CLAIM.finditer(claims) for name in re.findall(r"\w+", row[2])}
    if told != {*names} or counted(claims) != claims:
        print("crates: docs/CLAIMS.md lacks a crate, or has another number of edits (scripts/crates_table.py --write)")
        failed += 1
    print(f"crates: {passed} passed, {failed} failed")
    return 1 if failed else 0


def main():
    if sys.argv[1:] == ["--write"]:
        write()
    elif sys.argv[1:]:
        sys.exit(__doc__)
    else:
        sys.exit(check())


if __name__ == "__main__":
    main()
