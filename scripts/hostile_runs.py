#!/usr/bin/env python3
"""Runs a built blockd where memory is refused, where its files are cut, on words and files that were changed by chance,
and where a call on its image fails. `hostile_runs.py PROGRAM`: in four sweeps over the cases in examples/cases

- each request of memory of each session is refused in turn (scripts/refuse_memory.c is put before the program; the
  sweep is skipped where there is no compiler);
- each script and each configuration is cut at each byte;
- words, configurations and scripts are changed by a seed;
- each of the 65,538 sectors of the longest trim, and of a read behind it, fails in turn (scripts/fail_calls.c,
  likewise).

A run ends with a status that docs/FORMATS.md has and what is told with it, it prints a beginning of whole lines of what
the whole script is answered, and the image is as the answered lines leave it. The last line is 'N passed, M failed', of
runs, with ', 2 skipped' behind it where two sweeps are.
"""
import concurrent.futures
import ctypes
import dataclasses
import mmap
import os
import pathlib
import random
import re
import shlex
import shutil
import signal
import struct
import subprocess
import sys
import tempfile

import run_cases
from run_cases import ROOT, SECTOR

SEED = 20261127
CHANGES = 10_000
# Into how many parts a sweep without cases is cut.
PARTS = 100
# The case whose trim has the most calls, and into how many runs these are cut.
LONGEST_TRIM = "a trim of 65,536 sectors"
SHARES = 8
# The requests of memory of a run without lines that are refused in each session.
SHARED = 8
MOST_TOLD = 20
PIECE = 1 << 20
MEMCMP = ctypes.CDLL(None).memcmp
MEMCMP.argtypes = [ctypes.c_void_p, ctypes.c_void_p, ctypes.c_size_t]
# Where a run has its standard input, output and error.
WRITES = os.O_WRONLY | os.O_CREAT | os.O_TRUNC
FILES = [
    (os.POSIX_SPAWN_OPEN, 0, os.devnull, os.O_RDONLY, 0),
    (os.POSIX_SPAWN_OPEN, 1, "printed", WRITES, 0o600),
    (os.POSIX_SPAWN_OPEN, 2, "told", WRITES, 0o600),
]
# What is told with each status.
TOLD = {
    0: re.compile(rb""),
    1: re.compile(rb"blockd: (no memory|image|config [0-8])\n"),
    2: re.compile(rb"blockd: bad command line\n"),
    3: re.compile(rb"blockd: (script|line [1-9][0-9]*: bad)\n"),
}


@dataclasses.dataclass
class Ended:
    """How a run ended, and which sectors of its image are other ones then."""

    status: int
    told: bytes
    printed: bytes
    written: dict

    def is_quiet(self):
        """Nothing was played."""
        return not self.printed and not self.written


class Image:
    """A file that runs write to, and what it has before each run. Both are mapped: only what differs is read."""

    def __init__(self, path, content):
        path.write_bytes(content)
        self.path, self.content, self.size = path, bytearray(content), len(content)
        self.before = ctypes.addressof(ctypes.c_char.from_buffer(self.content)) if content else 0
        self.after = self.mapped()

    def mapped(self):
        """The file's bytes, as they are at any time."""
        if not self.size:
            return None
        with open(self.path, "r+b") as it:
            self.map = mmap.mmap(it.fileno(), self.size)
        return ctypes.addressof(ctypes.c_char.from_buffer(self.map))

    def differing(self, first, end, step):
        """The places from one to another, so far apart, behind which a byte differs."""
        for at in range(first, end, step):
            if MEMCMP(self.before + at, self.after + at, min(step, end - at)):
                yield at

    def take_written(self):
        """The sectors that a run wrote; they are as before then."""
        found = self.path.stat()
        if found.st_mtime_ns == 0:
            return {}
        written, end = {}, min(self.size, found.st_size)
        for piece in self.differing(0, end, PIECE):
            for at in self.differing(piece, min(piece + PIECE, end), SECTOR):
                written[at // SECTOR] = self.map[at : at + SECTOR]
                self.map[at : at + SECTOR] = self.content[at : at + SECTOR]
        if found.st_size != self.size:
            written["length"] = found.st_size
            with open(self.path, "r+b") as it:
                it.truncate(self.size)
                it.seek(end)
                it.write(self.content[end:])
        return written


def awaited(pid):
    """Waits until a process has ended, and answers its status. One that hangs is ended."""
    signal.signal(signal.SIGALRM, lambda *_: os.kill(pid, signal.SIGKILL))
    signal.setitimer(signal.ITIMER_REAL, run_cases.SECONDS)
    _, status = os.waitpid(pid, 0)
    signal.setitimer(signal.ITIMER_REAL, 0)
    return status


class Room:
    """The folder of a worker's runs, which is the folder that it is in."""

    def __init__(self, program, scratch):
        self.program, self.variables = program, dict(os.environ)
        self.path = pathlib.Path(tempfile.mkdtemp(dir=scratch))
        os.chdir(self.path)
        for file in run_cases.GIVEN:
            (self.path / file.name).write_bytes(file.read_bytes())
        self.images = {}

    def place_image(self, size):
        """Has `image` be the image of so many bytes; it is marked as not written to since."""
        if size not in self.images:
            self.images[size] = Image(self.path / f"image-{size}", run_cases.fresh(size))
        os.utime(self.path / f"image-{size}", ns=(0, 0))
        image = self.path / "image"
        image.unlink(missing_ok=True)
        image.symlink_to(f"image-{size}")

    def take_written(self, size):
        """The sectors that a run wrote; they are as before then."""
        return self.images[size].take_written()

    def run(self, case, words=None, **variables):
        """Runs a case, with these words in place of its own if there are some."""
        (self.path / "config").write_bytes(case.configuration)
        (self.path / "script").write_bytes(case.script)
        size = size_of(case)
        self.place_image(size)
        words = [self.program, *(shlex.split(case.words) if words is None else words)]
        # (this takes half the time of what the module `subprocess` does)
        pid = os.posix_spawn(self.program, words, {**self.variables, **variables}, file_actions=FILES)
        status = os.waitstatus_to_exitcode(awaited(pid))
        told, printed = ((self.path / name).read_bytes() for name in ("told", "printed"))
        return Ended(status, told, printed, self.take_written(size))


def size_of(case):
    """How many bytes a case's image has; None where it is made elsewhere."""
    number, _, unit = case.image.partition(" ")
    return int(number) * {"sectors": SECTOR, "bytes": 1}[unit] if unit in ("sectors", "bytes") else None


def cases_of(pattern):
    """The cases of some files, each over an image that is made here, with words that name the three files."""
    for file in sorted(ROOT.glob(f"examples/cases/{pattern}")):
        for case in run_cases.READERS[file.suffix](file):
            if size_of(case) is not None and case.words.startswith(run_cases.FILES) and "\\" not in case.words:
                yield case


def beginning(case, lines):
    """A case whose script has the first lines alone."""
    return dataclasses.replace(case, script=b"".join(case.script.splitlines(keepends=True)[:lines]))


# ---- memory


def requests_of(room, case):
    """How many requests of memory a case makes."""
    counts = room.path / "counts"
    counts.unlink(missing_ok=True)
    room.run(case, COUNTED=str(counts), LD_PRELOAD=os.environ["REFUSING"])
    number = int.from_bytes(counts.read_bytes(), "little")
    if not number:
        raise ValueError(f"{case.name}: no request of memory was seen")
    return number


class Played:
    """What the lines of a session print, one after another, and the image behind each of them."""

    def __init__(self, room, case):
        self.room, self.case = room, case
        self.printed = [b"".join(case.answers[:lines]) for lines in range(len(case.answers) + 1)]
        self.images = {}

    def written_after(self, lines):
        """The sectors that are others after so many lines."""
        if lines not in self.images:
            self.images[lines] = self.room.run(beginning(self.case, lines)).written
        return self.images[lines]

    def ends_with(self, ended):
        """Whether a run played some lines and no more. The trace of a line is made once it was played: it may be that
        for which there is no memory."""
        more = int("--trace" in self.case.words)
        return any(
            ended.printed == printed and ended.written == self.written_after(min(lines + extra, len(self.case.answers)))
            for lines, printed in enumerate(self.printed)
            for extra in range(more + 1)
        )


def refusals(room, case, is_first):
    """Each request of memory of a session is refused in turn: of another session with the same configuration, those
    behind the making of the server. The first ones are of the command line. A step that can't be done asks for room,
    too, and needs none: where a line is answered `no`, a run may go on to its end."""
    played = Played(room, case)
    has_no = any(answer.startswith(b"no\n") for answer in case.answers)
    begin, is_read = 1, not is_first
    if not is_first:
        begin = max(1, requests_of(room, beginning(case, 0)) - SHARED)
    for number in range(begin, requests_of(room, case) + 1):
        ended = room.run(case, REFUSED=str(number), LD_PRELOAD=os.environ["REFUSING"])
        is_told = (ended.status, ended.told) == (1, b"blockd: no memory\n")
        is_read = is_read or is_told
        is_bad = (ended.status, ended.told) == (2, b"blockd: bad command line\n")
        is_whole = (ended.status, ended.told, ended.printed) == (0, b"", played.printed[-1])
        yield f"memory {number} is refused", ended, (
            is_told
            and played.ends_with(ended)
            or is_bad
            and not is_read
            and ended.is_quiet()
            or is_whole
            and has_no
            and ended.written == played.written_after(len(case.answers))
        )


# ---- cut files


def cut_scripts(room, case):
    """A session's script is cut at each byte: where a line begins that isn't whole, it is bad, or another line."""
    played = Played(room, case)
    for size in range(len(case.script)):
        whole, part = case.script[:size].count(b"\n"), case.script[:size].split(b"\n")[-1]
        ended = room.run(dataclasses.replace(case, script=case.script[:size]))
        is_bad = (ended.status, ended.told) == (3, f"blockd: line {whole + 1}: bad\n".encode())
        is_good = (ended.status, ended.told) == (0, b"")
        if not part or case.script[size : size + 1] == b"\n":
            whole += bool(part)
            # (what a boot moves is printed with the first line)
            is_same = ended.printed == played.printed[whole] or not whole and "--trace" in case.words
            is_right = is_good and is_same and ended.written == played.written_after(whole)
        elif is_bad:
            is_right = ended.is_quiet()
        else:
            is_right = is_good and ended.printed.startswith(played.printed[whole])
        yield f"the script is cut at {size}", ended, is_right


def cut_configurations(room, case, texts):
    """Configurations that were cut at a byte: each is refused, or played."""
    case = dataclasses.replace(case, script=b"service\n", words=run_cases.FILES)
    for text in texts:
        ended = room.run(dataclasses.replace(case, configuration=text))
        yield f"the configuration {run_cases.shown(text)}", ended, not ended.written and (
            (ended.status, ended.told, ended.printed) == (0, b"", b"quiet\n")
            or ended.status == 1
            and re.fullmatch(rb"blockd: config [1-8]\n", ended.told)
            and ended.is_quiet()
        )


# ---- changes by chance


def changed(text, chance, others):
    """A text with a few changes: bytes that go, come, or are others; a piece of another text; a piece that stands twice
    or at another place."""
    for _ in range(chance.choice((1, 1, 2, 3, 8))):
        at = chance.randint(0, len(text))
        to = min(len(text), at + chance.choice((0, 1, 1, 2, 8, 40)))
        other = chance.choice(others)
        begin = chance.randint(0, len(other))
        put = chance.choice(
            (
                b"",
                bytes([chance.randrange(256)]),
                chance.choice((b"0", b"9", b"1" * 20, b"-1", b" ", b"\n", b"\0", b"\xff", b'"', b",", b"=", b"#")),
                other[begin : begin + chance.choice((1, 4, 16, 64))],
                text[at:to] * 2,
            )
        )
        text = text[:at] + put + text[to:]
    return text


def changes(room, cases, seed):
    """Words and files that were changed, from this seed on."""
    chance = random.Random(seed)
    scripts, configurations = [case.script for case in cases], [case.configuration for case in cases]
    words = [case.words.encode() for case in cases] + [b"--help --trace --config= --image= -- --script="]
    for number in range(CHANGES // PARTS):
        case, given = chance.choice(cases), None
        kind = chance.choice(("script", "script", "configuration", "configuration", "words"))
        if kind == "script":
            case = dataclasses.replace(case, script=changed(case.script, chance, scripts))
        elif kind == "configuration":
            case = dataclasses.replace(case, configuration=changed(case.configuration, chance, configurations))
        else:
            # (a word has no zero byte; and files outside the folder aren't meant)
            text = changed(case.words.encode(), chance, words).replace(b"\0", b"").replace(b"/", b"")
            given = text.split(b" ")
        ended = room.run(case, given)
        is_told = ended.status in TOLD and TOLD[ended.status].fullmatch(ended.told)
        is_whole = not ended.printed or ended.printed.endswith(b"\n")
        is_played = ended.status == 0 or ended.told == b"blockd: no memory\n"
        yield f"change {seed}.{number} of the {kind}", ended, is_told and is_whole and (is_played or ended.is_quiet())


# ---- calls that fail


RECORD = struct.Struct("=6q")


def children_of(told):
    """What became of each child, by scripts/fail_calls.c."""
    at = 0
    while at < len(told):
        *record, length = RECORD.unpack_from(told, at)
        at += RECORD.size + length
        yield *record, told[at - length : at]


def failing_calls(room, case, share):
    """Of a trim of many sectors, and a read of the last one and the next, each sector of the image fails in turn. Its
    request is told so, the port is ready, and the sector is as it was; the other one is told what it would be."""
    _, _, trimmed, _, _, read, _ = case.answers
    case = dataclasses.replace(case, script=case.script.replace(b"load", b"state 0\nload"))
    first, count = 1000, 65_536
    fault = b"DeviceError 41 40\n"
    given = {"IMAGE": "image", "RECORDS": "records", "SHARE": str(share), "SHARES": str(SHARES)}
    ended = room.run(case, LD_PRELOAD=os.environ["FAILING"], **given)
    told = (room.path / "records").read_bytes()
    # (every 256th sector has zeros at first)
    is_cleared = {*ended.written} == {sector for sector in range(first, first + count) if sector % 256}
    is_cleared = is_cleared and not any(map(any, ended.written.values()))
    yield "each call, failing in a child", ended, ended.status == 0 and is_cleared
    numbers = set()
    for number, place, is_write, status, is_changed, printed in children_of(told):
        numbers.add(number)
        is_read = number >= count
        if is_read:
            trim, read_again, loaded = trimmed, read.replace(b"Ok\n", fault), b"bytes 0000\n"
        else:
            trim, read_again, loaded = trimmed.replace(b"Ok\n", fault), read, b"bytes e7e8\n"
        wanted = b"ok 1\ndid\n" + trim + b"ok 2\ndid\n" + read_again + b"state Ready\n" + loaded
        is_right = printed == wanted and (status, is_changed, is_write) == (0, 0, not is_read)
        is_right = is_right and place == SECTOR * (first + number - is_read)
        yield f"call {number} fails", dataclasses.replace(ended, printed=printed), is_right
    yield "all calls fail", ended, numbers == {*range(share, count + 2, SHARES)}


# ---- all of them


def judged(sweep, *given):
    """Runs a part of a sweep: how many runs there were, and what was wrong."""
    count, wrong = 0, []
    for name, ended, is_right in sweep(ROOM, *given):
        count += 1
        if not is_right:
            printed = run_cases.shown(ended.printed[-600:])
            wrong.append(f"{name}: status {ended.status}, {ended.told}, sectors {[*ended.written][:8]}\n{printed}")
    return count, wrong


def begin_worker(program, scratch):
    """Makes a worker's room in a folder, which is removed when all have ended."""
    global ROOM
    ROOM = Room(program, scratch)


def compiled(scratch):
    """Compiles what refuses memory and what fails calls, and says whether it could."""
    compiler = os.environ.get("CC", "cc")
    if not shutil.which(compiler):
        return False
    for variable, name in (("REFUSING", "refuse_memory"), ("FAILING", "fail_calls")):
        os.environ[variable] = f"{scratch}/{name}.so"
        words = ["-O2", "-shared", "-fPIC", "-o", os.environ[variable], ROOT / f"scripts/{name}.c"]
        subprocess.run([compiler, *words], check=True)
    return True


def parts(has_compiler):
    """The parts of the sweeps: the name of each sweep, and what it is given."""
    sessions = [case for case in cases_of("*.session") if case.answers and case.status == 0]
    sessions += [case for case in run_cases.document(ROOT / "docs/FORMATS.md") if case.answers and case.status == 0]
    # (sessions of thousands of lines show nothing that shorter ones don't)
    short = [case for case in sessions if len(case.script) < 4000]
    if has_compiler:
        trim = next(case for case in sessions if case.name.endswith(LONGEST_TRIM))
        yield from ((failing_calls, trim, share) for share in range(SHARES))
        firsts = {(case.configuration, case.words): case for case in reversed(short)}
        yield from ((refusals, case, firsts[case.configuration, case.words] is case) for case in short)
    yield from ((cut_scripts, case) for case in {case.script: case for case in short}.values())
    whole = {case.configuration for case in [*cases_of("*.session"), *cases_of("*.configurations")]}
    cut = sorted({text[:size] for text in whole for size in range(len(text))})
    yield from ((cut_configurations, short[0], cut[begin::PARTS]) for begin in range(PARTS))
    yield from ((changes, short, SEED + number) for number in range(PARTS))


def main(program):
    """Runs all sweeps, and says how many runs there were of each."""
    counts, failed = {}, 0
    workers = len(os.sched_getaffinity(0))
    with tempfile.TemporaryDirectory() as libraries, run_cases.scratch_folder() as scratch:
        has_compiler = compiled(libraries)
        if not has_compiler:
            print("skipped: refused memory and failing calls: a C compiler is needed (Debian's package gcc)")
        given = (os.path.abspath(program), scratch)
        with concurrent.futures.ProcessPoolExecutor(workers, None, begin_worker, given) as pool:
            asked = list(parts(has_compiler))
            done = [pool.submit(judged, *part) for part in asked]
            for (sweep, *given), it in zip(asked, done):
                count, wrong = it.result()
                counts[sweep.__name__] = counts.get(sweep.__name__, 0) + count
                for fault in wrong[: max(0, MOST_TOLD - failed)]:
                    print(f"{sweep.__name__}: {getattr(given[0], 'name', 'by chance')}: {fault}")
                failed += len(wrong)
    for name, count in counts.items():
        print(f"hostile runs: {name.replace('_', ' ')}: {count}", file=sys.stderr)
    skipped = "" if has_compiler else ", 2 skipped"
    print(f"hostile runs: {sum(counts.values()) - failed} passed, {failed} failed{skipped}")
    return 0 if counts and all(counts.values()) and not failed else 1


if __name__ == "__main__":
    sys.exit(main(*sys.argv[1:]))
