#!/usr/bin/env python3
"""What the scripts beside it need of the toolchain: the repository's crates, as its command `rt` sees them.

`toolchain.py above NAME..` lists these crates and all that stand on them, lowest first.
"""
import functools
import hashlib
import importlib.util
import os
import subprocess
import sys

sys.dont_write_bytecode = True
ROOT = os.path.dirname(os.path.dirname(os.path.realpath(__file__)))


def load():
    """The module behind `rt`, which lies beside it."""
    page = subprocess.run(["rt", "doc"], capture_output=True, text=True, check=True).stdout
    spec = importlib.util.spec_from_file_location("rtlib", f"{os.path.dirname(page.strip())}/bin/rtlib.py")
    module = importlib.util.module_from_spec(spec)
    sys.modules["rtlib"] = module
    spec.loader.exec_module(module)
    # A crate's sum is made of those of all crates below it, and no file changes while a script runs: each is made once.
    module.Crate.stamp = functools.cache(module.Crate.stamp)
    return module


rtlib = load()


@functools.cache
def crates():
    """The repository's crates, lowest first."""
    return sorted(rtlib.crates_below(ROOT), key=lambda it: len(it.below()))


def lacking(crate):
    """The names of the libraries below a crate that aren't there, or aren't those of the sources as they are."""
    return [it.name for it in crate.below() if not it.is_built()]


def sum_below(crate):
    """A sum of what a check of a crate reads beside its own files: the libraries below it as they were built, and the
    toolchain."""
    kit = [rtlib.sum_of(f"{rtlib.KIT}/{name}") for name in ("KIT-ID", "WHAT")]
    it = hashlib.sha256(repr((crate.said, kit)).encode())
    # (a library's format has the sum of its files)
    it.update(repr([(below.name, rtlib.sum_of(f"{below.rlib}/format")) for below in crate.below()]).encode())
    return it.hexdigest()


def words_of(crate):
    """The words by which the prover reads a crate, in one process."""
    return crate.words(["--jobs", "1"], keeps=False)


def processors():
    """How many processors this process may run on."""
    return len(os.sched_getaffinity(0))


def free_memory():
    """How many bytes of memory are free."""
    with open("/proc/meminfo", encoding="utf-8") as it:
        kilobytes = next(line.split()[1] for line in it if line.startswith("MemAvailable:"))
    return 1024 * int(kilobytes)


def stamp(names):
    """Marks the libraries that `rt ci` has just made of these crates as those of the sources as they are, so that `rt
    check` and the scripts take them."""
    for it in crates():
        if it.name in names and it.makes_rlib() and os.path.isdir(it.rlib):
            with open(f"{os.path.dirname(it.rlib)}/stamp", "w", encoding="utf-8") as out:
                out.write(it.stamp())


def above(names):
    known = crates()
    unknown = {*names} - {it.name for it in known}
    if unknown:
        sys.exit(f"no crate is named {', '.join(sorted(unknown))}")
    for it in known:
        if it.name in names or any(below.name in names for below in it.below()):
            print(it.name)


if __name__ == "__main__":
    if sys.argv[1:2] == ["above"]:
        above(sys.argv[2:])
    else:
        sys.exit(__doc__)
