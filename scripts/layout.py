#!/usr/bin/env python3
"""Checks how long lines and files are: no line of code, definitions, scripts or documents has over 120 columns, imports
and rows of tables aside; and no file of code has 800 lines. What is over is told. The last line is 'N passed, M
failed', of files.
"""
import glob
import os
import re
import sys

ROOT = os.path.dirname(os.path.dirname(os.path.realpath(__file__)))
COLUMNS = 120
CODE_LINES = 799
CODE = ["crates/*/src/**/*.rt", "crates/*/specs/**/*.antt", "examples/**/*.rt.txt", "examples/*/host/src/*.rs"]
SCRIPTS = ["scripts/*", "examples/*.sh", "examples/*/*.sh", "examples/*/*.py", "examples/vfio/machine/*", "bench/*.py"]
SCRIPTS += [".ci/run"]
DOCUMENTS = ["*.md", "docs/*.md", "examples/*/README.md"]
# An import can't be broken, and a row of a table neither.
WHOLE = re.compile(r"\s*(ghost use |pub use |use |import |open |\|)")


def files(patterns):
    found = {it for pattern in patterns for it in glob.glob(pattern, root_dir=ROOT, recursive=True)}
    return sorted(it for it in found if os.path.isfile(f"{ROOT}/{it}") and "__pycache__" not in it)


def faults(path, is_code):
    """What is over in a file."""
    with open(f"{ROOT}/{path}", encoding="utf-8") as it:
        text = it.read()
    lines = text.splitlines()
    for number, line in enumerate(lines, 1):
        if len(line) > COLUMNS and not WHOLE.match(line):
            yield f"{path}:{number} has {len(line)} columns"
    if is_code and len(lines) > CODE_LINES:
        yield f"{path} has {len(lines)} lines, and may have {CODE_LINES}"


def main():
    code, documents = files(CODE), files(DOCUMENTS)
    passed = failed = 0
    for path in [*code, *files(SCRIPTS), *documents]:
        over = [*faults(path, path in code)]
        passed, failed = (passed, failed + 1) if over else (passed + 1, failed)
        for line in over:
            print(f"layout: {line}")
    print(f"{passed} passed, {failed} failed")
    return failed != 0


if __name__ == "__main__":
    sys.exit(main())
