#!/usr/bin/env python3
"""Checks that the files of all crates are formatted as `rt fmt` does it: it formats a copy of them, and compares. With
--write it formats the crates themselves. The last line is 'N passed, M failed', of crates.
"""
import filecmp
import glob
import os
import shutil
import subprocess
import sys
import tempfile

sys.dont_write_bytecode = True
import toolchain

ROOT = os.path.dirname(os.path.dirname(os.path.realpath(__file__)))
PARTS = ("src", "specs", "proofs")


def formatted(folder):
    """Formats the crate in this folder, and returns whether that went well."""
    did = subprocess.run(["rt", "fmt"], cwd=folder, capture_output=True, text=True)
    if did.returncode != 0:
        print(f"format: {os.path.basename(folder)}: {did.stdout}{did.stderr}")
    return did.returncode == 0


def copy_of_crates(place):
    """Copies what `rt fmt` reads to another place."""
    shutil.copy(f"{ROOT}/crates.txt", place)
    for crate in toolchain.crates():
        for part in PARTS:
            if os.path.isdir(f"{crate.folder}/{part}"):
                shutil.copytree(f"{crate.folder}/{part}", f"{place}/crates/{crate.name}/{part}")


def differing(crate, place):
    """The files of a crate that aren't formatted."""
    copy = f"{place}/crates/{crate.name}"
    for path in sorted(glob.glob("**/*.*", root_dir=copy, recursive=True)):
        if os.path.isfile(f"{copy}/{path}") and not filecmp.cmp(f"{copy}/{path}", f"{crate.folder}/{path}", False):
            yield path


def main():
    crates = toolchain.crates()
    if "--write" in sys.argv[1:]:
        failed = sum(not formatted(crate.folder) for crate in crates)
    else:
        failed = 0
        with tempfile.TemporaryDirectory() as place:
            copy_of_crates(place)
            for crate in crates:
                went_well = formatted(f"{place}/crates/{crate.name}")
                files = [*differing(crate, place)]
                for path in files:
                    print(f"format: crates/{crate.name}/{path} isn't as `rt fmt` leaves it")
                failed += not went_well or bool(files)
    print(f"{len(crates) - failed} passed, {failed} failed")
    return failed != 0


if __name__ == "__main__":
    sys.exit(main())
