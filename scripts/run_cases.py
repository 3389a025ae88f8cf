#!/usr/bin/env python3
"""Plays cases by a built blockd, each in a run of its own, and compares what comes of it with what is wanted.

`run_cases.py PROGRAM FILE..`: the files are documents with sessions, and those of examples/cases, whose README.md says
how they are written. A case that comes out otherwise is told with its file and line, what was wanted and what was
given; the status is 0 where none does.
"""
import concurrent.futures
import dataclasses
import os
import pathlib
import re
import shlex
import subprocess
import sys
import tempfile

ROOT = pathlib.Path(__file__).resolve().parent.parent
SECTOR = 512
SECONDS = 60
SHARED_MEMORY = "/dev/shm"
# The files that stand in the folder of a run.
GIVEN = [*ROOT.glob("examples/*.toml"), *ROOT.glob("examples/cases/*.toml"), *ROOT.glob("examples/*.script")]
FILES = "--config config --image image --script script"
ESCAPES = {b"n": b"\n", b"r": b"\r", b"t": b"\t", b"\\": b"\\"}


class Misspelled(Exception):
    """A file of cases that can't be read."""


@dataclasses.dataclass
class Case:
    """A run of the program, and what is wanted of it."""

    name: str
    configuration: bytes
    script: bytes = b""
    image: str = "70000 sectors"
    words: str = FILES
    output: str = "printed"
    printed: bytes = b""
    told: bytes = b""
    status: int = 0
    # The sectors of the image that are other ones afterwards; None where the image isn't looked at.
    written: dict = dataclasses.field(default_factory=dict)
    # Of a session, what is printed of each line of the script.
    answers: list = dataclasses.field(default_factory=list)


def unescaped(text):
    """The bytes of a text with escapes: of a line feed, a return, a tab, a backslash, a byte by two digits, and many
    times a byte."""

    def spelled(found):
        escape = found[1]
        if len(escape) == 3:
            return bytes.fromhex(escape[1:].decode())
        if len(escape) > 3:
            return escape[-2:-1] * int(escape[1:-3])
        if escape not in ESCAPES:
            raise Misspelled(f"the escape \\{escape.decode()}")
        return ESCAPES[escape]

    return re.sub(rb"\\(x[0-9a-f]{2}|\{\d+ .\}|.)", spelled, text.encode(), flags=re.DOTALL)


def changed(configuration, changes):
    """A configuration with another text in the first place of each of some that stand in it."""
    for change in changes.split(" ;; "):
        old, arrow, new = change.partition(" =>")
        old, new = unescaped(old), unescaped(new[1:])
        if not arrow or old not in configuration:
            raise Misspelled(f"no place for the change {change!r}")
        configuration = configuration.replace(old, new, 1)
    return configuration


def given(name):
    """The bytes of one of the files that stand in the folder of a run."""
    for file in GIVEN:
        if file.name == name:
            return file.read_bytes()
    raise Misspelled(f"no file {name}")


def port_after_fault(case, number, told):
    """A case that ends with this status, and tells this."""
    return dataclasses.replace(case, status=number, told=f"blockd: {told}\n".encode() if told else b"")


def with_head(case, key, value):
    """A case with what a line of its head says."""
    if key == "configuration":
        return dataclasses.replace(case, configuration=given(value))
    if key == "change":
        return dataclasses.replace(case, configuration=changed(case.configuration, value))
    if key == "script":
        return dataclasses.replace(case, script=unescaped(value))
    if key == "prints":
        return dataclasses.replace(case, printed=unescaped(value))
    if key == "prints as":
        return dataclasses.replace(case, printed=(ROOT / "examples" / value).read_bytes())
    if key == "more words":
        return dataclasses.replace(case, words=f"{FILES} {value}")
    if key == "ends":
        number, _, told = value.partition(" ")
        return port_after_fault(case, int(number), told)
    if numbers := re.fullmatch(r"sector (\d+)|sectors (\d+) to (\d+)", key):
        one, first, last = numbers.groups()
        sector = bytes.fromhex(value).ljust(SECTOR, b"\0")
        sectors = range(int(first or one), int(last or one) + 1)
        return dataclasses.replace(case, written={**case.written, **dict.fromkeys(sectors, sector)})
    if key in ("image", "words", "output"):
        return dataclasses.replace(case, **{key: value})
    raise Misspelled(f"the key {key!r}")


def session(case, lines):
    """A case of a head and then lines of a script, each with its answers after it."""
    asked, answered, in_head = [], [], True
    for line in lines:
        if line.startswith("> "):
            in_head = False
            asked.append(f"{line[2:]}\n".encode())
            answered.append(b"")
        elif not in_head:
            answered[-1] += f"{line}\n".encode()
        else:
            key, colon, value = f"{line} ".partition(": ")
            if not colon:
                raise Misspelled(f"{line!r} in a head")
            case = with_head(case, key, value[:-1])
    if in_head:
        return case
    if case.script or case.printed:
        raise Misspelled(f"{case.name} has two scripts")
    return dataclasses.replace(case, script=b"".join(asked), printed=b"".join(answered), answers=answered)


def sessions(file):
    """The cases of a file of sessions: each begins with its name."""
    case, lines = None, []
    for number, line in enumerate(file.read_text(encoding="utf-8").splitlines(), 1):
        if line.startswith("== "):
            if case:
                yield session(case, lines)
            case, lines = Case(f"{file.name}:{number}: {line[3:]}", given("full.toml")), []
        elif line and not line.startswith("#"):
            if not case:
                raise Misspelled(f"{file.name}:{number}: {line!r} in no case")
            lines.append(line)
    if case:
        yield session(case, lines)


def rows(file):
    """The lines of a file of rows, with the number of each; but for comments and empty lines."""
    for number, line in enumerate(file.read_text(encoding="utf-8").splitlines(), 1):
        if line and not line.startswith("#"):
            yield number, line


def bad_lines(file):
    """The cases of a file of bad scripts: the number of the first bad line, and the script."""
    for number, line in rows(file):
        bad, _, script = line.partition(" ")
        case = Case(f"{file.name}:{number}: {script}", given("full.toml"), unescaped(script))
        yield port_after_fault(case, 3, f"line {int(bad)}: bad")


def configurations(file):
    """The cases of a file of configurations: the kind of fault, and a whole text or a change of the base. A good
    configuration is played; a bad one is told though the script is bad, too."""
    base = None
    for number, line in rows(file):
        kind, _, text = line.partition(" ")
        if kind == "base":
            base = given(text)
            continue
        configuration = changed(base, text) if " =>" in text else unescaped(text)
        case = Case(f"{file.name}:{number}: {text}", configuration)
        if kind == "0":
            yield dataclasses.replace(case, script=b"service\n", printed=b"quiet\n")
        else:
            yield port_after_fault(dataclasses.replace(case, script=b"no line\n"), 1, f"config {int(kind)}")


def document(file):
    """The sessions in a document, each over an image of 256 sectors and the document's one configuration, or, if it has
    none, that of examples/blockd.toml. A session may begin with lines of a head."""
    text = file.read_text(encoding="utf-8")
    own = re.findall("^```toml\n(.*?)^```$", text, re.DOTALL | re.MULTILINE)
    (configuration,) = [it.encode() for it in own] or [given("blockd.toml")]
    for found in re.finditer("^```session\n(.*?)^```$", text, re.DOTALL | re.MULTILINE):
        line = text.count("\n", 0, found.start()) + 1
        case = Case(f"{file.name}:{line}: an example", configuration, image="256 sectors", written=None)
        yield session(case, found[1].splitlines())


READERS = {".session": sessions, ".bad-lines": bad_lines, ".configurations": configurations, ".md": document}


def fresh(size):
    """So many bytes of an image whose sector k has the byte k mod 256 alone."""
    period = b"".join(bytes([sector]) * SECTOR for sector in range(256))
    return (period * (size // len(period) + 1))[:size]


class Folder:
    """The folder that the runs are in, and the images there."""

    def __init__(self, path):
        self.path = path
        self.images = {}
        for file in GIVEN:
            (path / file.name).write_bytes(file.read_bytes())

    def write_image(self, size, image):
        """Writes an image, and marks it as not written to since."""
        file = self.path / f"image-{size}"
        file.write_bytes(image)
        os.utime(file, ns=(0, 0))

    def place_image(self, words):
        """Has `image` be of so many sectors or bytes, or be a file that is named: its bytes, if it is made here."""
        image = self.path / "image"
        image.unlink(missing_ok=True)
        number, _, unit = words.partition(" ")
        if unit not in ("sectors", "bytes"):
            image.symlink_to(words)
            return None
        size = int(number) * (SECTOR if unit == "sectors" else 1)
        if size not in self.images:
            self.images[size] = fresh(size)
            self.write_image(size, self.images[size])
        image.symlink_to(f"image-{size}")
        return self.images[size]

    def image_after(self, before):
        """The bytes of the image after a run; it is as before then."""
        file = self.path / f"image-{len(before)}"
        if file.stat().st_mtime_ns == 0:
            return before
        after = file.read_bytes()
        self.write_image(len(before), before)
        return after


def shown(data):
    """Bytes as a text that is told."""
    return data.decode(errors="backslashreplace") or "nothing\n"


def with_sectors(image, written):
    """An image with other sectors in the place of some."""
    if not written:
        return image
    image = bytearray(image)
    for sector, data in written.items():
        image[sector * SECTOR : (sector + 1) * SECTOR] = data
    return bytes(image)


def sectors_that_differ(wanted, image):
    """Which sectors of two images differ, and how long each image is, as texts."""
    if wanted is image or wanted == image:
        return b"", b""
    begins = range(0, max(len(wanted), len(image)), SECTOR)
    places = [at for at in begins if wanted[at : at + SECTOR] != image[at : at + SECTOR]]

    def told(data):
        lines = [f"sector {at // SECTOR} {data[at:at + SECTOR].hex()[:64]}..\n" for at in places[:4]]
        return "".join([f"{len(data)} bytes\n", *lines]).encode()

    return told(wanted), told(image)


def play(program, folder, case):
    """Plays a case: of each thing that comes out otherwise its name, what was wanted, and what was given."""
    (folder.path / "config").write_bytes(case.configuration)
    (folder.path / "script").write_bytes(case.script)
    before = folder.place_image(case.image)
    words = [unescaped(word) for word in shlex.split(case.words.replace("\\", "\\\\"))]
    output = folder.path / case.output
    with open(output, "wb") as into:
        files = set(os.listdir(folder.path))
        try:
            run = subprocess.run(
                [program, *words],
                cwd=folder.path,
                stdin=subprocess.DEVNULL,
                stdout=into,
                stderr=subprocess.PIPE,
                timeout=SECONDS,
            )
        except subprocess.TimeoutExpired:
            return [("end", f"within {SECONDS} seconds\n".encode(), b"none\n")]
    printed = output.read_bytes() if output.is_file() else b""
    made = set(os.listdir(folder.path)) ^ files
    pairs = [
        ("status", f"{case.status}\n".encode(), f"{run.returncode}\n".encode()),
        ("standard error", case.told, run.stderr),
        ("standard output", case.printed, printed),
        ("files that were made", b"", "".join(f"{name}\n" for name in sorted(made)).encode()),
    ]
    if before is not None:
        after = folder.image_after(before)
        if case.written is not None:
            pairs.append(("the image afterwards", *sectors_that_differ(with_sectors(before, case.written), after)))
    elif case.written:
        raise Misspelled(f"{case.name}: sectors of an image that isn't made here")
    return [(what, wanted, found) for what, wanted, found in pairs if wanted != found]


def cases_of(files):
    """The cases of some files."""
    for file in map(pathlib.Path, files):
        cases = list(READERS[file.suffix](file))
        if not cases:
            raise Misspelled(f"{file.name} has no case")
        yield from cases


def scratch_folder():
    """A folder for images that are written again and again: in memory, where the system has a place there."""
    return tempfile.TemporaryDirectory(dir=SHARED_MEMORY if os.path.isdir(SHARED_MEMORY) else None)


def begin_worker(scratch):
    """Makes a worker's folder in another one, which is removed when all have ended."""
    global FOLDER
    FOLDER = Folder(pathlib.Path(tempfile.mkdtemp(dir=scratch)))


def play_here(program, case):
    """Plays a case in a worker's folder."""
    return play(program, FOLDER, case)


def main(program, *files):
    """Plays the cases of the files, and says how many there were."""
    passed = failed = 0
    cases, workers = list(cases_of(files)), len(os.sched_getaffinity(0))
    with scratch_folder() as scratch:
        with concurrent.futures.ProcessPoolExecutor(workers, None, begin_worker, (scratch,)) as pool:
            played = pool.map(play_here, [os.path.abspath(program)] * len(cases), cases, chunksize=8)
            for case, faults in zip(cases, played, strict=True):
                for what, wanted, found in faults:
                    print(f"case {case.name}: {what}: wanted\n{shown(wanted)}but it was\n{shown(found)}", end="")
                failed += bool(faults)
                passed += not faults
    print(f"examples: {passed} passed, {failed} failed")
    return 1 if failed or not passed else 0


if __name__ == "__main__":
    try:
        sys.exit(main(*sys.argv[1:]))
    except Misspelled as fault:
        sys.exit(f"examples: {fault}")
