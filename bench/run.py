#!/usr/bin/env python3
"""Measures `blockd` over a file, and prints the tables of docs/PERFORMANCE.md. It builds `bench` and `blockd` first.

    run.py [REQUESTS]    times, instructions and memory
    run.py --store       instructions alone, which are stored in bench/figures.txt
    run.py --check       instructions alone, beside those that are stored: it fails where one rose by more than 2 in 100
                         and by one, or by a tenth where it is below 100

Each script is of requests of eight sectors, if not said otherwise: asked, done by the disk, and answered; in one of
them each is asked after the last is answered, in another 16 at a time, which one service answers. A time is the least
of five runs, less that of a script of one line; `bench` plays the same over a disk in memory. Instructions are those
that callgrind counts: what more requests take, less what fewer take, for each. What plays a line has the server's calls
compiled into it, so the server's own part is what that takes without the model, without what it calls of `script` and
`std` and for printing, and without as many lines that ask nothing of it but what a port's state is.
"""
import collections
import os
import pathlib
import re
import subprocess
import sys
import tempfile
import time
from concurrent.futures import ThreadPoolExecutor
from dataclasses import dataclass
from typing import Callable

ROOT = pathlib.Path(__file__).resolve().parent.parent
FIGURES = ROOT / "bench" / "figures.txt"
# How much a figure may rise, in hundredths, and besides by how many instructions, if it is large or small.
MOST_RISE, MOST_MORE, MOST_MORE_OF_SMALL, SMALL = 2, 1, 0.1, 100
RUNS = 5
SECTORS = 70_000
MEBIBYTE = 1 << 20
# What plays a line of a script, the functions by which the server reaches the model, and what isn't the server's of
# what plays a line.
PLAYS = r"session::play_lines\b"
MODEL = r"device_model::model::(ModelAdapter::(read|write|load|store)|Model::do_step)\b"
LINES = (
    r"^(main::)?(script::|play::printed|std::|core::|__mem|alloc::)"
    r"|read_asked|print|write_out|Answer|memchr|from_utf8"
)
ADAPTER = """frames = 256
slots = 32
ncq = true
depth = 32
trim = "full"
[[port]]
number = 0
"""
# Unanswered requests of one client at most, and frames of each of eight clients; one client alone has all that they
# have.
PLACES = 16
# The first frame that isn't the driver's.
FIRST_FRAME = 76
FEW, MORE = 320, 960
# What the figures of a case are.
PARTS = ("all", "the model", "the server")


def configuration(clients=1, grants=1):
    """So many clients with a grant of all sectors each, after so many less one of client 1 that no line uses: its last
    is the one that lines use."""
    text = ADAPTER
    frames = 8 * PLACES // clients
    for client in range(1, clients + 1):
        text += f"[[client]]\nid = {client}\nfirst_frame = {FIRST_FRAME + frames * (client - 1)}\nframes = {frames}\n"
    named = [(1, number) for number in range(grants - clients + 1)] + [(client, 0) for client in range(2, clients + 1)]
    for client, number in sorted(named, key=lambda name: name == (1, grants - clients)):
        text += f'[[grant]]\nclient = {client}\nnumber = {number}\nport = 0\nfirst = 0\ncount = 1024\nrights = "rwtf"\n'
    return text


def waiting(count, range_of):
    """So many writes by eight clients, none of which is done. `range_of` gives the first sector and the number of
    each."""
    first_frames = [(client, FIRST_FRAME + PLACES * (client - 1)) for client in range(8, 0, -1)]
    names = [(client, first + place) for client, first in first_frames for place in range(PLACES)]
    ranges = map(range_of, range(count))
    return [f"write {client} 0 {first} {count} {frame}" for (client, frame), (first, count) in zip(names, ranges)]


def for_the_first(_number):
    """All are of the same sectors, so all wait for the first."""
    return 200, 8


def for_the_one_before(number):
    """Each shares a sector with the one before it, and waits for it."""
    return 100 + number, 2


def for_the_thirtieth(number):
    """30 are issued, and all others wait for the last of them."""
    return 20 + min(number, 29), 1


def script(requests, at_a_time=1, before=(), grant=0, slot=0, sectors=8):
    """These lines, and then reads of so many sectors, so many of them unanswered at a time; the first goes in this
    slot."""
    lines = list(before)
    wide = sectors // 8
    for _ in range(requests // at_a_time):
        for place in range(at_a_time):
            first = FIRST_FRAME + PLACES - at_a_time + place if wide == 1 else FIRST_FRAME
            frames = ",".join(str(frame) for frame in range(first, first + wide))
            lines.append(f"read 1 {grant} 0 {sectors} {frames}")
        lines += [f"dev finish 0 {slot + place}" for place in range(at_a_time)] + ["service"]
    return "".join(f"{line}\n" for line in lines)


@dataclass
class Taken:
    """What one run executed: all instructions, those of the model, and of what plays lines without reading and printing
    them."""

    whole: float
    model: float
    played: float

    def each(self, fewer, by):
        """What one more takes, where so many more took this in the place of `fewer`."""
        return Taken(*((much - less) / by for much, less in zip(vars(self).values(), vars(fewer).values())))


def counted(profile):
    """What each function executed itself, and what each executed through each function that it calls."""
    names, own, calls = {}, collections.Counter(), collections.Counter()

    def name(text):
        number, _, rest = text.partition(" ")
        return names.setdefault(number, rest)

    caller = callee = None
    lines = iter(profile.read_text(errors="replace").splitlines())
    for line in lines:
        if line.startswith("fn="):
            caller = name(line[3:])
        elif line.startswith("cfn="):
            callee = name(line[4:])
        elif line.startswith("calls="):
            calls[caller, callee] += int(next(lines).split()[1])
        elif caller and re.match(r"[\d+*-]\S* \d+$", line):
            own[caller] += int(line.split()[1])
    return own, calls


def taken(program, room, config, text):
    """What a run of this script takes."""
    with tempfile.TemporaryDirectory(dir=room) as folder:
        folder = pathlib.Path(folder)
        (folder / "config").write_text(config)
        (folder / "script").write_text(text)
        with open(folder / "image", "wb") as image:
            image.truncate(512 * SECTORS)
        told = subprocess.run(
            ["valgrind", "--tool=callgrind", "--callgrind-out-file=profile", *words(program, "script")],
            cwd=folder, capture_output=True, text=True, check=True,
        ).stdout
        # What is refused, or a step that isn't possible, would measure something else.
        assert not re.search(r"^(refused|no)\b", told, re.M), "a line of the script is not done"
        own, calls = counted(folder / "profile")
    assert any(re.search(PLAYS, name) for name in own), "nothing plays lines"
    into_model = {(caller, callee): cost for (caller, callee), cost in calls.items() if re.search(MODEL, callee)}
    model = sum(cost for (caller, _), cost in into_model.items() if not re.search("device_model", caller))
    of_lines = sum(cost for (caller, callee), cost in calls.items()
                   if re.search(PLAYS, caller) and re.search(LINES, callee))
    assert into_model and of_lines, "no calls of the model, or none that read and print"
    played = sum(cost for name, cost in own.items() if re.search(PLAYS, name))
    played += sum(cost for (caller, _), cost in calls.items() if re.search(PLAYS, caller))
    return Taken(sum(own.values()), model, played - of_lines - model)


@dataclass
class Case:
    """What is measured: `text` gives so many of it, each of so many lines."""

    name: str
    text: Callable[[int], str]
    config: str
    lines: float


def reads(name, sectors=8, at_a_time=1, clients=1, grants=1, **how):
    """Reads. One service answers all that are asked at a time."""
    lines = 2 + 1 / at_a_time
    text = lambda requests: script(requests, at_a_time, sectors=sectors, grant=grants - clients, **how)
    return Case(name, text, configuration(clients, grants), lines)


def each(name, *lines):
    """The same lines again and again."""
    return Case(name, lambda requests: "".join(f"{line}\n" for line in lines) * requests, configuration(), len(lines))


DONE = ("dev finish 0 0", "service")
STATE = each("a line `state 0`", "state 0")
CASES = [
    reads("a read"),
    reads("a read, 16 at a time", at_a_time=16),
    reads("a read of 256 sectors", sectors=256),
    reads("a read of 1,024 sectors", sectors=1024),
    each("a write", f"write 1 0 0 8 {FIRST_FRAME}", *DONE),
    each("a trim", "trim 1 0 0 8", *DONE),
    each("a flush", "flush 1 0", *DONE),
    each("a recovery of a read", f"read 1 0 0 8 {FIRST_FRAME}", "dev fetch 0 0", "dev fault 0 0 40", "service"),
    each("a tick", "tick"),
    each("a reset", "reset"),
    each("a service", "service"),
]
# What each grant more costs a read, and each waiting request: how many there are at first and then, and the case.
LAST_GRANT = ("a grant", 1, 64, lambda grants: reads("", grants=grants))
SHAPES = [
    ("a request that waits for the first", 1, for_the_first),
    ("a request that waits for the one before", 1, for_the_one_before),
    ("a request that waits for the thirtieth", 30, for_the_thirtieth),
]
SLOPES = [
    LAST_GRANT,
    *((name, 40, 127, lambda count, slot=slot, range_of=range_of: reads(
        "", clients=8, grants=8, before=waiting(count, range_of), slot=slot)) for name, slot, range_of in SHAPES),
]
# A request that waits is looked at by a tick: so many at first, and then.
TICKED = (16, 128)


def measured(program, room, case):
    """What one of a case takes."""
    few, more = (FEW, MORE) if "1,024" not in case.name else (FEW // 8, MORE // 8)
    fewer = taken(program, room, case.config, case.text(few))
    return taken(program, room, case.config, case.text(more)).each(fewer, more - few)


def of_a_tick(program, room):
    """What each request that isn't answered, nor issued, adds to a tick. With a third one the first wait would end."""
    config = configuration(8, 8)
    costs = []
    for count in TICKED:
        before = "".join(f"{line}\n" for line in waiting(count, for_the_first))
        ticks = [taken(program, room, config, before + "tick\n" * number).whole for number in (0, 2)]
        costs.append((ticks[1] - ticks[0]) / 2)
    return (costs[1] - costs[0]) / (TICKED[1] - TICKED[0])


def all_figures(program, room):
    """By name: of each case all instructions, the model's and the server's, and of each slope what one more adds."""
    with ThreadPoolExecutor(os.cpu_count()) as pool:
        state, *found = (pool.submit(measured, program, room, case) for case in (STATE, *CASES))
        slopes = [
            [pool.submit(measured, program, room, case(count)) for count in (first, then)]
            for _, first, then, case in SLOPES
        ]
        tick = pool.submit(of_a_tick, program, room)
    state = state.result()
    figures = {STATE.name: (state.whole,)}
    for case, future in zip(CASES, found):
        it = future.result()
        figures[case.name] = (it.whole, it.model, it.played - case.lines * state.played)
    for (name, first, then, _), (fewer, more) in zip(SLOPES, slopes):
        figures[name] = ((more.result().whole - fewer.result().whole) / (then - first),)
    figures["a request that isn't answered, to a tick"] = (tick.result(),)
    return figures


def words(program, script_name):
    """How a program is called, over a file or, by `bench`, over memory."""
    if program.endswith("bench"):
        return [program, "config", script_name]
    return [program, "--config", "config", "--image", "image", "--script", script_name]


def build(program):
    """Returns where the program is. It is proved and built where a source is newer."""
    folder = ROOT / "crates" / program
    built = folder / "out" / program
    sources = [it for it in (ROOT / "crates").rglob("*") if it.suffix in (".rt", ".antt") and "out" not in it.parts]
    if built.exists() and all(it.stat().st_mtime < built.stat().st_mtime for it in sources):
        return str(built)
    subprocess.run(["rt", "check"], cwd=folder, stdout=subprocess.DEVNULL, check=True)
    # Without words the one ends with status 2.
    subprocess.run(["rt", "run"], cwd=folder, stdout=subprocess.DEVNULL, stderr=subprocess.DEVNULL, check=False)
    assert built.stat().st_mtime >= max(it.stat().st_mtime for it in sources), f"{program} isn't built"
    return str(built)


def prepare(room, **scripts):
    """A configuration, an image, and these scripts."""
    (room / "config").write_text(configuration())
    with open(room / "image", "wb") as image:
        image.truncate(512 * SECTORS)
    for name, text in scripts.items():
        (room / name).write_text(text)


def seconds(call, room):
    """The least time of a few runs."""
    times = []
    for _ in range(RUNS):
        begin = time.perf_counter()
        subprocess.run(call, cwd=room, stdout=subprocess.DEVNULL, check=True)
        times.append(time.perf_counter() - begin)
    return min(times)


def times(requests, programs, room):
    """Microseconds of a read, by how many are asked at a time: over memory and over a file."""
    for at_a_time in (1, 16):
        prepare(room, one="service\n", many=script(requests, at_a_time))
        spent = [seconds(words(it, "many"), room) - seconds(words(it, "one"), room) for it in programs]
        yield at_a_time, [1e6 * it / requests for it in spent]


def most_memory(program, room, text):
    """The most memory of a run of this script, in MiB, as GNU time tells it."""
    prepare(room, long=text)
    call = ["/usr/bin/time", "-f", "%M", *words(program, "long")]
    ran = subprocess.run(call, cwd=room, stdout=subprocess.DEVNULL, stderr=subprocess.PIPE, text=True, check=True)
    return int(ran.stderr) * 1024 / MEBIBYTE


def print_row(head, unit, row):
    """A table of one row."""
    print(f"\n| {head} | " + " | ".join(row) + " |\n|---|" + "---|" * len(row))
    print(f"| {unit} | " + " | ".join(row.values()) + " |")


def print_tables(requests, blockd, room):
    """The tables of the document."""
    print("| Microseconds | memory | file |\n|---|---|---|")
    for at_a_time, row in times(requests, (build("bench"), blockd), room):
        print(f"| a read, {at_a_time} at a time | " + " | ".join(f"{it:.2f}" for it in row) + " |")
    figures = all_figures(blockd, room)
    print("\n| Instructions | all | model | server |\n|---|---|---|---|")
    for name, row in figures.items():
        if len(row) == 3:
            print(f"| {name} | " + " | ".join(f"{it:,.0f}" for it in row) + " |")
    adds = {name: f"{row[0]:,.{1 if row[0] < 100 else 0}f}" for name, row in figures.items() if len(row) == 1}
    print_row("Each adds", "instructions", adds)
    scripts = {
        "one line": "service\n",
        "1,000,000 lines `state 0`": "state 0\n" * 1_000_000,
        "1,000,000 reads": script(1_000_000),
        "10,000 reads of 1,024 sectors": script(10_000, sectors=1024),
    }
    print_row("Most memory of", "MiB", {name: f"{most_memory(blockd, room, it):.1f}" for name, it in scripts.items()})


def stored():
    """The figures of the file, by name."""
    rows = [line.split("\t") for line in FIGURES.read_text().splitlines() if not line.startswith("#")]
    return {row[0]: [float(it) for it in row[1:]] for row in rows}


def store(blockd, room):
    """Writes all figures."""
    text = "# Instructions: all, the model's, the server's own; or what each adds. Written by `bench/run.py --store`.\n"
    for name, row in all_figures(blockd, room).items():
        text += "\t".join([name, *(f"{it:.1f}" for it in row)]) + "\n"
    FIGURES.write_text(text)


def check(blockd, room):
    """Tells each figure that rose, and gives how many did."""
    before, figures = stored(), all_figures(blockd, room)
    assert before.keys() == figures.keys(), "other figures are stored than measured"
    passed = failed = 0
    for name, row in figures.items():
        for part, was, now in zip(PARTS[: len(row)], before[name], row, strict=True):
            more = MOST_MORE if was >= SMALL else MOST_MORE_OF_SMALL
            is_risen = now > was * (1 + MOST_RISE / 100) + more
            passed, failed = passed + (not is_risen), failed + is_risen
            if is_risen:
                print(f"{name}, {part}: {now:,.1f} instructions, and {was:,.1f} are stored")
    print(f"{passed} passed, {failed} failed")
    return failed


def main():
    asked = sys.argv[1:]
    blockd = build("blockd")
    with tempfile.TemporaryDirectory() as folder:
        room = pathlib.Path(folder)
        if asked == ["--store"]:
            return store(blockd, room)
        if asked == ["--check"]:
            return check(blockd, room) != 0
        return print_tables(int(asked[0]) if asked else 32_000, blockd, room)


if __name__ == "__main__":
    sys.exit(main())
