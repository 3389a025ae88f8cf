#!/usr/bin/env python3
"""Runs the parts of the whole check side by side, and is its verdict. `parts.py NAME..` runs the named ones alone, over
what is proved and built here.

Each part is a command that ends with a line 'N passed, M failed', perhaps behind a word, or 'N passed, M failed, K
skipped': so many were left out for want of a program, and a line that begins with 'skipped:' tells which. What a part
prints is kept apart, and printed whole when it has ended, with the time that it took. The first failure ends the rest.
The last line is the sum of all.

`rt ci` has as many processors as there are. The other parts run beside it with a low priority, as many at a time as
there are processors and as memory holds, the longest first: they take what `rt ci` leaves. One that needs proved crates
begins once `rt ci` has told these, whose libraries are there then. One that looks at a clock begins once it has ended.
"""
import os
import re
import signal
import subprocess
import sys
import tempfile
import threading
import time
from dataclasses import dataclass, field

sys.dont_write_bytecode = True
import toolchain

ENDED = re.compile(r"(\d+) passed, (\d+) failed(?:, (\d+) skipped)?$")
# What `rt ci` tells of a crate whose library or program is there.
PROVED = re.compile(r"^rt: (\w+) (?:proved|is kept: .*)$")
RT_CI = "rt ci"
GIGABYTE = 1 << 30
# How much of the free memory is planned with.
SHARE = 0.85
# What a process of the prover takes of memory, in gigabytes: most take less than two.
PROVER = 2.5


@dataclass
class Part:
    """A part of the check: its command, the crates that it needs proved, or `rt ci`, about how many processor seconds
    it takes, how many processors it uses, and how much memory, in gigabytes."""

    name: str
    words: list
    needs: set = field(default_factory=set)
    seconds: int = 5
    processors: int = 1
    memory: float = 1


@dataclass
class Running:
    """A part that runs: its process, the file in which what it prints is kept, when it began, and how many seconds of
    a processor it took in all, once it has ended."""

    part: Part
    process: subprocess.Popen
    printed: object
    begun: float
    used: float = 0

    def has_ended(self):
        """Whether its process has ended."""
        if self.process.returncode is None:
            pid, status, usage = os.wait4(self.process.pid, os.WNOHANG)
            if pid:
                self.process.returncode = os.waitstatus_to_exitcode(status)
                self.used = usage.ru_utime + usage.ru_stime
        return self.process.returncode is not None


def parts(processors):
    """The parts, but for `rt ci`. (Two that have processes of their own side by side are given one processor, and more
    time than they take, so that they begin as soon as they can.)"""
    yield Part("tests without a proof", ["scripts/unproved.py"], set(), 350, min(processors, 2), 4)
    hostile = ["scripts/hostile_runs.py", "crates/blockd/out/blockd"]
    yield Part("hostile runs", hostile, {RT_CI}, 900, 1, 2)
    yield Part("a PCI adapter", ["examples/vfio/test.sh"], {RT_CI}, 1000, 1, 3)
    yield Part("examples", ["scripts/examples.sh"], {RT_CI}, 60)
    yield Part("QEMU's adapter", ["examples/qemu/test.sh"], {RT_CI}, 40, 1)
    yield Part("instructions", ["bench/check.sh"], {RT_CI}, 40, 1)
    yield Part("compile-fail", ["scripts/compile-fail.sh"], set(), 20, 1, 2)
    yield Part("names", ["scripts/names.py"])
    yield Part("layout", ["scripts/layout.py"])
    yield Part("format", ["scripts/format.py"])
    yield Part("crates", ["scripts/crates_table.py"])
    yield Part("believed", ["scripts/believed.py", "--check"])
    yield Part("excerpts", ["scripts/excerpts.py"])
    for crate in toolchain.crates():
        folder = f"{crate.folder}/edits"
        edits = [it for it in os.listdir(folder) if it.endswith(".edit")] if os.path.isdir(folder) else []
        if edits:
            needs = {it.name for it in crate.below()}
            words, seconds = ["scripts/edits.py", crate.name], 25 + 6 * len(edits)
            yield Part(f"edits of {crate.name}", words, needs, seconds, 1, PROVER)


def begin(part, is_first=False):
    """Starts a part. What isn't `rt ci` has a low priority: a tenth of what `rt ci` has, where both want a processor.
    (In a session of its own it would have an equal share.)"""
    printed = tempfile.TemporaryFile("w+", encoding="utf-8", errors="replace")
    words = part.words if is_first else ["nice", "-n", "10", *part.words]
    out = subprocess.PIPE if is_first else printed
    how = {"stdin": subprocess.DEVNULL, "stdout": out, "stderr": subprocess.STDOUT if is_first else printed}
    process = subprocess.Popen(words, cwd=toolchain.ROOT, process_group=0, **how)
    return Running(part, process, printed, time.monotonic())


class Check:
    """What runs, what waits, and what was found so far."""

    def __init__(self, waiting, processors):
        self.waiting = sorted(waiting, key=lambda it: -it.seconds)
        self.processors, self.memory = processors, SHARE * toolchain.free_memory() / GIGABYTE
        self.running, self.proved, self.skipped = [], set(), []
        self.passed = self.failed = self.left_out = 0
        self.changed = threading.Condition()

    def follow(self, running):
        """Reads what `rt ci` prints: whose proof is told has its library marked as that of the sources as they are."""
        for line in running.process.stdout:
            text = line.decode(errors="replace")
            running.printed.write(text)
            found = PROVED.match(text)
            if found:
                toolchain.stamp({found[1]})
                with self.changed:
                    self.proved.add(found[1])
                    self.changed.notify()

    def has_room(self, part):
        """Whether a part can begin now."""
        others = [it.part for it in self.running]
        is_free = sum(it.processors for it in others if it.name != RT_CI) + part.processors <= self.processors
        has_memory = sum(it.memory for it in others) + part.memory <= self.memory
        return part.needs <= self.proved and (is_free and has_memory or not others)

    def end(self, it, status):
        """Prints what a part that has ended printed, and counts what it told."""
        it.printed.seek(0)
        text = it.printed.read()
        seconds, used = time.monotonic() - it.begun, it.used
        print(f"==== {it.part.name}\n{text}", end="" if text.endswith("\n") else "\n")
        print(f"time: {it.part.name} took {seconds:.0f} s, and {used:.0f} of a processor", flush=True)
        self.skipped += [line for line in text.splitlines() if line.startswith("skipped:")]
        found = ENDED.search(text.rstrip("\n").rpartition("\n")[2])
        passed, failed, skipped = (int(it or 0) for it in found.groups()) if found else (0, 1, 0)
        self.passed, self.left_out = self.passed + passed, self.left_out + skipped
        self.failed += max(failed, int(status != 0))

    def take_ended(self):
        """Takes the parts that have ended from those that run."""
        for it in [*filter(Running.has_ended, self.running)]:
            self.running.remove(it)
            if it.part.name == RT_CI:
                self.reader.join()
                self.proved.add(RT_CI)
            self.end(it, it.process.returncode)

    def run(self, first):
        """Runs all parts, until one fails."""
        if first:
            self.running.append(begin(first, is_first=True))
            self.reader = threading.Thread(target=self.follow, args=self.running, daemon=True)
            self.reader.start()
        try:
            self.run_waiting()
        finally:
            self.stop()

    def run_waiting(self):
        """Begins each part as soon as it can be, and takes those that have ended, until one fails."""
        while (self.waiting or self.running) and not self.failed:
            for part in [*self.waiting]:
                if self.has_room(part):
                    self.waiting.remove(part)
                    self.running.append(begin(part))
            if not self.running:
                names = ", ".join(it.name for it in self.waiting)
                print(f"parts: what these need isn't proved, or memory for them isn't free: {names}")
                self.failed += 1
            with self.changed:
                self.changed.wait(0.2)
            self.take_ended()

    def stop(self):
        """Ends what still runs."""
        for it in self.running:
            print(f"parts: {it.part.name} is ended, as another part failed")
            os.killpg(it.process.pid, signal.SIGTERM)
        for it in self.running:
            it.process.wait()


def main(names):
    processors = toolchain.processors()
    found = [*parts(processors)]
    unknown = {*names} - {it.name for it in found}
    if unknown:
        known = ", ".join(it.name for it in found)
        sys.exit(f"parts: no part is named {', '.join(sorted(unknown))}: there are {known}")
    check = Check([it for it in found if not names or it.name in names], processors)
    os.environ["RT_JOBS"] = str(processors)
    if names:
        check.proved = {RT_CI, *(it.name for it in toolchain.crates())}
        check.run(None)
    else:
        check.run(Part(RT_CI, ["rt", "ci"], set(), 0, processors, PROVER * processors))
    for line in check.skipped:
        print(line)
    left_out = f", {check.left_out} skipped" if check.left_out else ""
    print(f"{check.passed} passed, {check.failed} failed{left_out}")
    return 1 if check.failed or not check.passed else 0


if __name__ == "__main__":
    signal.signal(signal.SIGTERM, lambda number, _: sys.exit(128 + number))
    sys.exit(main(sys.argv[1:]))
