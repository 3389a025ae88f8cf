#!/usr/bin/env python3
"""Runs the built program at a terminal: `scripts/terminal_run.py PROGRAM`. scripts/examples.sh calls it.

The terminal is stopped before the program begins, as by Ctrl-S. So the program sleeps in its first write, and what it
has played by then is what the image shows: where each line's answers are written at once, nothing after the first line.
Then the terminal goes on, and the whole output comes. A program that gathers its answers has changed the image before
it writes.
"""
import os
import pathlib
import pty
import subprocess
import sys
import tempfile
import termios
import time

ROOT = pathlib.Path(__file__).resolve().parent.parent
SCRIPT = "state 0\nstore 1 76 0 c0c0\nwrite 1 0 100 1 76\ndev finish 0 0\nservice\n"
ANSWERS = "state Ready\nstored\nok 1\ndid\nreply 1 Ok\n"
# The first byte of sector 100 in the image, before and after the write.
PLACE, BEFORE, AFTER = 100 * 512, 100, 0xC0
# Far more seconds than a run takes: past them the program hangs.
LIMIT = 60


def state_of(process):
    """The letter by which the system tells what a process does: S where it sleeps until something comes, Z where it has
    ended."""
    text = pathlib.Path(f"/proc/{process}/stat").read_text()
    return text[text.rindex(")") + 2]


def wait_until_still(process):
    """Waits until a process sleeps or has ended. This program has one thread, and sleeps in nothing but a write."""
    end = time.monotonic() + LIMIT
    while state_of(process) not in "SZ":
        if time.monotonic() > end:
            raise TimeoutError
        time.sleep(0.01)


def read_all(terminal):
    """What is written to a terminal until nobody has it open."""
    text = b""
    while True:
        try:
            part = os.read(terminal, 4096)
        except OSError:
            return text
        if not part:
            return text
        text += part


def play(program, folder):
    """The first byte of sector 100 while the terminal is stopped, all that was written, the status, and that byte at
    the end."""
    image = folder / "disk.img"
    subprocess.run([ROOT / "examples/make_image.sh", image], check=True)
    (folder / "blockd.toml").write_bytes((ROOT / "examples/blockd.toml").read_bytes())
    (folder / "lines.script").write_text(SCRIPT)
    ours, its = pty.openpty()
    settings = termios.tcgetattr(its)
    settings[1] &= ~termios.OPOST
    termios.tcsetattr(its, termios.TCSANOW, settings)
    termios.tcflow(its, termios.TCOOFF)
    words = [program, "--config", "blockd.toml", "--image", "disk.img", "--script", "lines.script"]
    with subprocess.Popen(words, cwd=folder, stdin=subprocess.DEVNULL, stdout=its) as running:
        try:
            wait_until_still(running.pid)
            meanwhile = image.read_bytes()[PLACE]
            termios.tcflow(its, termios.TCOON)
            os.close(its)
            text = read_all(ours)
            status = running.wait(LIMIT)
        finally:
            running.kill()
    return meanwhile, text.decode(), status, image.read_bytes()[PLACE]


def main():
    program = str(pathlib.Path(sys.argv[1]).resolve())
    with tempfile.TemporaryDirectory() as name:
        given = play(program, pathlib.Path(name))
    wanted = (BEFORE, ANSWERS, 0, AFTER)
    names = (
        "a line's answers are written before the next is played",
        "what is written at a terminal",
        "status",
        "the image at the end",
    )
    failed = 0
    for what, one, other in zip(names, wanted, given):
        if one != other:
            print(f"example: {what}: wanted {one!r} but it was {other!r}")
            failed += 1
    print(f"terminal: {len(names) - failed} passed, {failed} failed")
    return failed != 0


if __name__ == "__main__":
    sys.exit(main())
