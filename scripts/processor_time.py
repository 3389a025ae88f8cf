#!/usr/bin/env python3
"""Runs a command, and tells on standard error the processor seconds that the prover took meanwhile: for each of the ten
dearest crates, and in all. Ends with the command's status.

The prover's processes are looked at once a second, so up to a second of each isn't counted.
"""
import os
import subprocess
import sys
import time

ROOT = os.path.dirname(os.path.dirname(os.path.realpath(__file__)))
KINDS = ("proof", "tests", "edits")
TICKS = os.sysconf("SC_CLK_TCK")


def prover(pid):
    """The crate and kind of work of a process of the prover, or None."""
    with open(f"/proc/{pid}/cmdline", "rb") as it:
        words = it.read().decode(errors="replace").split("\0")
    if os.path.basename(words[0]) != "rattle" or "--crate-name" not in words:
        return None
    at = os.readlink(f"/proc/{pid}/cwd")
    kind = "edits" if "/rt-edit-" in at or "/edits-" in at else "tests" if "--test" in words else "proof"
    return words[words.index("--crate-name") + 1], kind


def seconds(pid):
    """When the process began, and the processor seconds that it took itself."""
    with open(f"/proc/{pid}/stat", encoding="utf-8", errors="replace") as it:
        fields = it.read().rpartition(")")[2].split()
    return fields[19], (int(fields[11]) + int(fields[12])) / TICKS


def look(taken):
    for pid in filter(str.isdigit, os.listdir("/proc")):
        try:
            of = prover(pid)
            if of:
                begun, so_far = seconds(pid)
                taken[pid, begun] = of, so_far
        except (OSError, IndexError, ValueError):
            pass


def lines_of_code():
    found = 0
    for at, _, names in os.walk(f"{ROOT}/crates"):
        for name in names:
            if name.endswith(".rt") and "/out/" not in f"{at}/":
                with open(f"{at}/{name}", "rb") as it:
                    found += it.read().count(b"\n")
    return found


def tell(taken):
    crates = {}
    for (name, kind), so_far in taken.values():
        crates.setdefault(name, dict.fromkeys(KINDS, 0.0))[kind] += so_far
    print("time: processor seconds, the ten dearest crates (proof, tests, edits):", file=sys.stderr)
    for name, by_kind in sorted(crates.items(), key=lambda it: -sum(it[1].values()))[:10]:
        print(f"time: {name:18}" + "".join(f"{by_kind[it]:7.0f}" for it in KINDS), file=sys.stderr)
    in_all, hundreds = {it: sum(of[it] for of in crates.values()) for it in KINDS}, lines_of_code() / 100
    parts = ", ".join(f"{it} {in_all[it]:.0f} ({in_all[it] / hundreds:.1f})" for it in KINDS)
    each = f"{sum(in_all.values()) / hundreds:.1f} for each of {hundreds:.0f} hundred lines of code"
    print(f"time: in all {sum(in_all.values()):.0f} processor seconds ({each}): {parts}", file=sys.stderr)


def main(words):
    taken = {}
    ran = subprocess.Popen(words)
    while ran.poll() is None:
        look(taken)
        time.sleep(1)
    tell(taken)
    return ran.returncode if ran.returncode >= 0 else 128 - ran.returncode


if __name__ == "__main__":
    sys.exit(main(sys.argv[1:]))
