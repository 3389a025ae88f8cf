#!/usr/bin/env python3
"""Runs the tests of `host`, and then tries hosts that leave a duty out, or do it wrongly: by each file of host/edits
the text behind `old:` is replaced by that behind `new:`, and the test that is named has to fail. The last line is 'N
passed, M failed', of tests and edits; the status is 77 where there is no rustc.
"""
import concurrent.futures
import os
import pathlib
import re
import shutil
import subprocess
import sys
import tempfile

HOST = pathlib.Path(__file__).resolve().parent / "host"


def tests(sources, scratch, name=""):
    """Builds and runs the tests over these sources, or those with this name: how many passed, and which failed."""
    program = scratch / "tests"
    words = ["rustc", "--test", "--edition", "2021", "-C", "debuginfo=0", "-A", "warnings", "-o", program]
    built = subprocess.run([*words, sources / "main.rs"], capture_output=True, text=True, check=False)
    if built.returncode:
        return 0, None, built.stderr
    environment = dict(os.environ, RUST_BACKTRACE="0")
    ran = subprocess.run([program, name], capture_output=True, text=True, env=environment, timeout=60, check=False)
    named = re.findall(r"^test (?:\w+::)*(\w+) \.\.\. (\w+)$", ran.stdout, re.M)
    return sum(went == "ok" for _, went in named), {name for name, went in named if went == "FAILED"}, ran.stdout


def fields(path):
    return dict(line.split(": ", 1) for line in path.read_text().splitlines())


def fault(path):
    """What is wrong with an edit; nothing where the test that it names fails."""
    edit = fields(path)
    with tempfile.TemporaryDirectory() as name:
        scratch = pathlib.Path(name)
        shutil.copytree(HOST / "src", scratch / "src")
        file = scratch / edit["file"]
        text = file.read_text()
        if text.count(edit["old"]) != 1:
            return f"its text stands {text.count(edit['old'])} times"
        file.write_text(text.replace(edit["old"], edit["new"]))
        _, failed, said = tests(scratch / "src", scratch, edit["test"])
    if failed is None:
        return f"it doesn't compile: {said.splitlines()[0]}"
    if edit["test"] not in failed:
        return f"{edit['test']} doesn't fail"
    return None


def main():
    if not shutil.which("rustc"):
        print("rustc isn't there: the tests of the host are left out")
        return 77
    with tempfile.TemporaryDirectory() as name:
        count, failing, said = tests(HOST / "src", pathlib.Path(name))
    if failing is None or failing or not count:
        print(said)
        print(f"{count} passed, {len(failing or {1})} failed")
        return 1
    edits = sorted((HOST / "edits").glob("*.edit"))
    with concurrent.futures.ThreadPoolExecutor(os.cpu_count()) as pool:
        faults = [(path.stem, it) for path, it in zip(edits, pool.map(fault, edits)) if it]
    for name, it in faults:
        print(f"{name}: {it}")
    print(f"host: {count} tests, {len(edits)} wrong hosts")
    print(f"{count + len(edits) - len(faults)} passed, {len(faults)} failed")
    return bool(faults)


if __name__ == "__main__":
    sys.exit(main())
