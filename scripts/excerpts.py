#!/usr/bin/env python3
"""The code in the documents, which is taken from the crates.

A line `<!-- code: PATH: ITEM -->` stands before each block. The block has the item of that file whose first line begins
with ITEM (after `pub `), with the comments and attributes above it, and all lines down to the item's end. Several items
are parted by ` | `, and stand in the block one behind another.

Without an argument each block is compared with its item, and a block of Rust without such a line is refused. The last
line is 'N passed, M failed', of blocks. With `--write` the blocks are made anew.
"""
import glob
import os
import re
import sys

ROOT = os.path.dirname(os.path.dirname(os.path.realpath(__file__)))
DOCUMENTS = ["*.md", "docs/*.md", "examples/*/README.md"]
BLOCK = re.compile(r"^(?:<!-- code: ([\w/.]+): ([^\n]+) -->\n)?```rust\n(.*?)^```$", flags=re.M | re.S)


def read(path):
    with open(f"{ROOT}/{path}", encoding="utf-8") as it:
        return it.read()


def item(lines, begin):
    """The lines of the item that begins so; `None` if none does, or several do. (What is in an item is indented.)"""
    found = [at for at, line in enumerate(lines) if line.removeprefix("pub ").startswith(begin)]
    if len(found) != 1:
        return None
    first = last = found[0]
    while first > 0 and lines[first - 1].startswith(("///", "#[")):
        first -= 1
    while not lines[last].startswith("}") and (lines[last][:1].isspace() or not lines[last].endswith(";")):
        last += 1
    return lines[first : last + 1]


def excerpt(path, items):
    """The text of the items; `None` if one of them isn't there."""
    lines = read(path).split("\n")
    parts = [item(lines, begin) for begin in items.split(" | ")]
    return None if None in parts else "\n\n".join("\n".join(it) for it in parts) + "\n"


def fault(block):
    """What is wrong with a block, if anything is."""
    path, items, text = block.groups()
    if path is None:
        return "a block of Rust names no code: " + text.partition("\n")[0]
    if not os.path.isfile(f"{ROOT}/{path}"):
        return f"there is no {path}"
    wanted = excerpt(path, items)
    if wanted is None:
        return f"{path} doesn't have one item each that begins with {items}"
    return None if wanted == text else f"{path}: {items} is another (scripts/excerpts.py --write)"


def written(block):
    """The block as it has to be."""
    path, items, _ = block.groups()
    text = excerpt(path, items) if path else None
    return f"<!-- code: {path}: {items} -->\n```rust\n{text}```" if text else block[0]


def main():
    passed = failed = 0
    for document in sorted(it for pattern in DOCUMENTS for it in glob.glob(pattern, root_dir=ROOT)):
        text = read(document)
        if sys.argv[1:] == ["--write"]:
            made = BLOCK.sub(written, text)
            if made != text:
                with open(f"{ROOT}/{document}", "w", encoding="utf-8") as it:
                    it.write(made)
            text = made
        for block in BLOCK.finditer(text):
            wrong = fault(block)
            passed, failed = (passed, failed + 1) if wrong else (passed + 1, failed)
            if wrong:
                print(f"excerpts: {document}: {wrong}")
    print(f"excerpts: {passed} passed, {failed} failed")
    return 1 if failed else 0


if __name__ == "__main__":
    if sys.argv[1:] not in ([], ["--write"]):
        sys.exit(__doc__)
    sys.exit(main())
