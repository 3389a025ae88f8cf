#!/usr/bin/env python3
"""Plays examples/surprise_removal and examples/lost_caches over wrong servers: each has one of the wrong bodies of
crates/*/edits, and the test has to find it. Each line of its file `wrong` names an edit, and what it is found by: a
case that is enough; or, of lost caches, in how many runs: each in which a flush matters, or some of them. Names of
edits behind the command leave the others out. It is no part of the check, since each wrong server is compiled anew,
which takes a processor one to two minutes. The last line is 'N passed, M failed'.
"""
import concurrent.futures
import os
import pathlib
import re
import shutil
import subprocess
import sys
import tempfile
import time

ROOT = pathlib.Path(__file__).resolve().parent.parent
TESTS = ("surprise_removal", "lost_caches")
# Of lost caches: in how many runs a flush matters, and in how many of them its write is missing.
AT_STAKE = re.compile(r": (\d+) runs in which a flush matters$", re.MULTILINE)
MISSING = re.compile(r": (\d+) in which its write is missing$", re.MULTILINE)
# So many runs have to have such a flush, or else the test would find next to nothing.
ENOUGH = 100
# A wrong server takes the compiler one processor, and about 2 GB of memory.
RUNS = len(os.sched_getaffinity(0))


def change(tree, name):
    """Has the tree have the wrong body of an edit: each old line, which stands once in the file, is the new one."""
    crate, edit = name.split("/")
    lines = (tree / f"crates/{crate}/edits/{edit}.edit").read_text(encoding="utf-8").splitlines()
    said = [line.split(": ", 1) for line in lines if ": " in line]
    (file,) = (value.strip() for key, value in said if key == "file")
    path = tree / "crates" / crate / file
    text = path.read_text(encoding="utf-8").split("\n")
    olds, news = ([value for key, value in said if key == wanted] for wanted in ("old", "new"))
    for old, new in zip(olds, news, strict=True):
        places = [place for place, line in enumerate(text) if line.strip() == old.strip()]
        if len(places) != 1:
            raise ValueError(f"{name}: {old!r} stands {len(places)} times")
        text[places[0]] = new
    path.write_text("\n".join(text), encoding="utf-8")


def told_by_sweep(printed):
    """What the sweep tells of a wrong server, if it finds it: what a case prints is compared, too, and isn't meant."""
    told = [line for line in printed.splitlines() if "NOT so" in line and "prints what its file says" not in line]
    return told[0] if told else None


def told_by_losses(printed, how_often):
    """The same of lost caches: queued and plain, in each run in which a flush matters, or in some of them."""
    at_stake, missing = (list(map(int, of.findall(printed))) for of in (AT_STAKE, MISSING))
    is_enough = len(at_stake) == len(missing) == 2 and min(at_stake) > ENOUGH
    is_found = {"each": at_stake == missing, "some": sum(missing) > 0}[how_often]
    return f"missing in {missing} of {at_stake} runs" if is_enough and is_found else None


def played(test, name, by):
    """Plays a test over a wrong server: whether it is found, and what is told of it."""
    begin = time.monotonic()
    with tempfile.TemporaryDirectory() as scratch:
        tree = pathlib.Path(scratch) / "tree"
        shutil.copytree(ROOT, tree, ignore=shutil.ignore_patterns("out", ".git", "__pycache__"))
        change(tree, name)
        words = [tree / "scripts/unproved.py", "--only-fast", test, *([by] if test == "surprise_removal" else [])]
        run = subprocess.run(words, stdin=subprocess.DEVNULL, capture_output=True, text=True)
    told = told_by_sweep(run.stdout) if test == "surprise_removal" else told_by_losses(run.stdout, by)
    is_found = bool(run.returncode and told)
    said = told if is_found else f"NOT found by {test}, '{by}': {run.stdout[-200:]}{run.stderr[-500:]}"
    return is_found, f"{name}: {said} ({time.monotonic() - begin:.0f} s)"


def listed(test):
    """The wrong servers of a test, and what each is found by."""
    lines = (ROOT / "examples" / test / "wrong").read_text(encoding="utf-8").splitlines()
    return [(test, *line.split(": ", 1)) for line in lines]


def main():
    """Plays all wrong servers, or those that are named."""
    all_listed = [row for test in TESTS for row in listed(test)]
    chosen = [row for row in all_listed if row[1] in sys.argv[1:] or not sys.argv[1:]]
    passed = 0
    with concurrent.futures.ThreadPoolExecutor(RUNS) as pool:
        for is_found, said in pool.map(lambda it: played(*it), chosen):
            passed += is_found
            print(said, flush=True)
    print(f"wrong servers: {passed} passed, {len(chosen) - passed} failed")
    return 0 if chosen and passed == len(chosen) else 1


if __name__ == "__main__":
    sys.exit(main())
