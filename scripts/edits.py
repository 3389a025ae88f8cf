#!/usr/bin/env python3
"""Tries the edits crates/NAME/edits/*.edit: the prover must refuse each. With names, those of these crates alone; with
--tries, what each try took is told too; with --kept, what an earlier run refused over the same files isn't tried again.

It stands on libraries that were proved (crates/*/out/rlib), as scripts/test.sh has them made. Several edits are tried
at a time, each in a function of its own, on a copy of their crate. An edit is refused where a function that it changes
is told as not proved for a reason of its own: a goal that stays open, or an answer that is wrong, and not merely that
it calls another function that isn't proved, nor that its form is one that the prover doesn't read. A function's goals
rest on the contracts of what it calls, and not on their bodies, so edits of callers and callees can share a try; none
shares one with an edit of a constant that its function reads. What isn't refused so is tried alone. An edit fails, too,
where all that is told is that a proof names what it took away: a right body of another form would be told the same way.
Each try has a function that no edit reaches, which must be proved; so a crate that can't be read, or libraries that
don't fit, refuse nothing. What the edited functions call isn't proved again, and no lemma is: in the copy the proofs of
all other functions and of the lemmas are holes, which the prover takes for proofs. What isn't proved even so isn't
proved at all.

A second edit of one function is made in a twin of it: the function again under another name, with its contract and its
proof. Beside such twins stands one without an edit. Where that one isn't proved, for a reason of its own, they tell
nothing, and their edits are tried alone.

With --kept, an edit that was refused is not tried again on this machine while nothing changes that its try read: the
function with its proof, the crate's definitions and the contracts of its other functions (not their bodies), the
libraries below it as they were built, the toolchain, the edit, and this script. The whole check tries all.

An edit has the form of those of `rt must-fail`: a line 'file: src/NAME.rt', then pairs of lines 'old: TEXT' and
'new: TEXT', where TEXT stands once in that file. An edit of a text outside of functions, such as a constant, names the
function whose meaning it turns by a line 'function: NAME'.

The last line is 'N passed, M failed'.
"""
import functools
import hashlib
import os
import re
import shutil
import subprocess
import sys
import tempfile
import threading
import time
from concurrent.futures import ThreadPoolExecutor
from dataclasses import dataclass, field

sys.dont_write_bytecode = True
import toolchain

PARTS = ("src", "specs", "proofs")
# A proof that is taken as given: the prover then goes on as if the function's theorem were proved.
HOLE = (
    "use Rattle.{crate}.proofs.{place}.Statement.{{statement}}\n\n"
    "pub {name}_spec : {{M : Type 1}} → statement M\n{name}_spec 𝓤 𝓛 𝓜 𝓡 w = ?\n"
)
# A definition without a mark but `pub`, whose body no other one can see unless it says so by `unfolding` or `unfold`.
SIGNATURE = re.compile(r"(?:pub )?(\S+)(?: \{[^}]*\})? :(?:\s|$)")
UNFOLDS = re.compile(r"^.*\bunfold(?:ing)?\b.*$", re.M)
# The files of a function's own proof.
OWN = ("Answers.antt", "Invariants.antt", "Proof.antt")
# As many edits stand in one try at the most: a text that can't be read spoils it for all.
MOST = 130
# Whether each try is told, with the time that it took: for finding what is dear.
SHOWS_TRIES = "--tries" in sys.argv
# Whether what an earlier run found is taken over.
IS_KEPT = "--kept" in sys.argv
# What earlier runs on this machine refused: a file for each edit, named by the sum of all that its try read.
STORE = os.path.join(os.environ.get("XDG_CACHE_HOME") or os.path.expanduser("~/.cache"), "block-server-edits")
PRINTING = threading.Lock()


def say(text):
    with PRINTING:
        print(f"edits: {text}", flush=True)


def read(path):
    with open(path, encoding="utf-8") as it:
        return it.read()


class BadEdit(Exception):
    """Why an edit can't be tried."""


@dataclass
class Function:
    """A function of a crate: the name that the prover prints, its lines, and the words of its body."""

    name: str
    file: str
    first: int
    last: int
    words: set
    simple: str
    is_of_trait: bool
    reaches: set = field(default_factory=set)


# ---- the functions of a crate, by the layout of `rt fmt` ----

HEAD = re.compile(r"^( *)(?:pub(?:\([a-z ]+\))? )?(?:const )?(?:unsafe )?fn (\w+)")
TEXT = re.compile(r'"(?:[^"\\]|\\.)*"')
BLOCK = re.compile(r"^( *)(?:pub(?:\([a-z ]+\))? )?(impl|trait|mod)\b(.*)\{$")


def end_of(lines, at, indent):
    """The line that ends what begins at a line: the first brace with its indentation."""
    for place in range(at, len(lines)):
        line = lines[place]
        is_there = line.startswith(indent) and not line.startswith(indent + " ")
        if is_there and (line.strip().startswith("}") or line.rstrip().endswith("{}")):
            return place
    return len(lines) - 1


def body_at(lines, first, last):
    """The line whose end begins a function's body, if the body has lines of its own. Its clauses stand deeper than its
    head."""
    deep = len(lines[first]) - len(lines[first].lstrip())
    begin = next(
        (
            at
            for at in range(first, last)
            if lines[at].endswith("{") and len(lines[at]) - len(lines[at].lstrip()) == deep
        ),
        None,
    )
    return begin if begin is not None and begin + 1 < last else None


def body_of(lines, first, last, indent):
    """The words of a function's body. Its clauses name definitions, and call nothing. A text with braces may be filled
    in by any `fmt`."""
    begin = next((at for at in range(first, last + 1) if lines[at].rstrip() == indent + "{"), first)
    code = re.sub(r"//[^\n]*", "", "\n".join(lines[begin : last + 1]))
    filled = any("{" in text.replace("{{", "") for text in TEXT.findall(code))
    return {*re.findall(r"\w+", TEXT.sub('""', code)), *(["fmt"] if filled else [])}


def without_parameters(text):
    """A path without what stands in angle brackets."""
    while "<" in text:
        shorter = re.sub(r"<[^<>]*>", "", text)
        if shorter == text:
            break
        text = shorter
    return text


def block_name(kind, head):
    """What a block adds to the names of the functions in it, and the type in whose module these stand, if not in that
    of the block."""
    head = re.sub(r"^<(?:[^<>]|<[^<>]*>)*>", "", head.partition(" where ")[0].strip()).strip()
    if kind != "impl":
        return without_parameters(head).partition(":")[0].strip(), None
    of, _, to = head.partition(" for ")
    last = lambda path: without_parameters(path).strip().lstrip("& ").rpartition("::")[2]
    # (where a trait has arguments, their types are a part of the name)
    arguments = of.partition("<")[2].rpartition(">")[0]
    whole = last(to) + last(of) + "".join(map(last, arguments.split(", "))) if to else last(of)
    return whole, None if to else last(of)


def module_of(path):
    inside = path[len("src/") : -len(".rt")]
    parts = [it for it in inside.split("/") if it not in ("lib", "main", "mod")]
    return parts


def functions_in(path, text, types):
    """The functions of a file. A method's name begins with the module in which its type stands, or, where it is a
    trait's, its `impl`."""
    lines, found, inside = text.split("\n"), [], []
    for at, line in enumerate(lines):
        inside = [it for it in inside if at <= it[1]]
        block = BLOCK.match(line)
        if block:
            name, of = block_name(block[2], block[3])
            last = end_of(lines, at + 1, block[1])
            # (what a trait declares has no body, and tests aren't read)
            is_left_out = block[2] == "trait" or name == "tests"
            inside.append((name, last, types.get(of), is_left_out, block[2] == "impl" and of is None))
        head = HEAD.match(line)
        if head and not line.rstrip().endswith(";") and not any(it[3] for it in inside):
            last = end_of(lines, at, head[1])
            module = next((it[2] for it in inside if it[2] is not None), module_of(path))
            name = "::".join([*module, *[it[0] for it in inside], head[2]])
            words, is_of_trait = body_of(lines, at, last, head[1]), any(it[4] for it in inside)
            found.append(Function(name, path, at, last, words, head[2], is_of_trait))
    return found


TYPE = re.compile(r"^(?:pub(?:\([a-z ]+\))? )?(?:struct|enum) (\w+)", re.M)


CONSTANT = re.compile(r"\bconst (\w+)")


# A module that is there for tests alone.
FOR_TESTS = re.compile(r"^#\[cfg\(test\)\]\n(?:pub )?mod (\w+);", re.M)


def functions_of(folder):
    texts = {}
    for at, _, names in sorted(os.walk(f"{folder}/src")):
        for name in sorted(names):
            if name.endswith(".rt"):
                texts[os.path.relpath(f"{at}/{name}", folder)] = read(f"{at}/{name}")
    # (a check of the crate reads none of these)
    left_out = {"tests", *(it for text in texts.values() for it in FOR_TESTS.findall(text))}
    texts = {path: text for path, text in texts.items() if not left_out & {*module_of(path)}}
    types = {name: module_of(path) for path, text in texts.items() for name in TYPE.findall(text)}
    found = [it for path, text in texts.items() for it in functions_in(path, text, types)]
    link(found)
    return found


def link(functions):
    """Fills in which functions each may come to call, by the words of their bodies."""
    by_word = {}
    for it in functions:
        by_word.setdefault(it.simple, []).append(it)
    for it in functions:
        left = [it]
        while left:
            for word in left.pop().words & by_word.keys():
                for callee in by_word[word]:
                    if callee is not it and callee.name not in it.reaches:
                        it.reaches.add(callee.name)
                        left.append(callee)


# ---- lemmas ----


def depth_of(line):
    """How far a line is indented. What is blank, or begins with a bracket's end, belongs to what stands above it."""
    return len(line) - len(line.lstrip()) if line.strip() and line.lstrip()[0] not in ")]}" else sys.maxsize


def end_of_item(lines, at, depth):
    """The line after what begins at a line: all that stands deeper belongs to it."""
    return next((it for it in range(at + 1, len(lines)) if depth_of(lines[it]) <= depth), len(lines))


def without_bodies(lines, opened):
    """The declarations of a file of antt, or of a module in it: those whose bodies nothing else sees with holes in
    place of these."""
    found, at = [], 0
    while at < len(lines):
        depth, end = depth_of(lines[at]), end_of_item(lines, at, depth_of(lines[at]))
        head, after = SIGNATURE.match(lines[at].strip()), end
        names = ("unfolding", head[1]) if head and head[1] not in opened else ()
        while after < len(lines) and lines[after].split()[0] in names:
            after = end_of_item(lines, after, depth)
        if after > end:
            found += [*lines[at:end], f"{' ' * depth}{head[1]} = ?", ""]
        elif lines[at].strip().startswith("module "):
            begin = next((it for it in range(at, end) if lines[it].endswith("where")), end - 1) + 1
            found += [*lines[at:begin], *without_bodies(lines[begin:end], opened)]
        else:
            found += lines[at:end]
        at = after
    return found


def leave_out_bodies(folder):
    """In a copy of a crate, makes holes of the lemmas. Definitions that one of the crate's proofs opens stay."""
    files = [f"{at}/{name}" for at, _, names in os.walk(folder) for name in names if name.endswith(".antt")]
    texts = {it: read(it) for it in files}
    lines = [line for text in texts.values() for line in UNFOLDS.findall(text)]
    opened = {word for line in lines for word in re.findall(r"[^\s(){},.;]+", line)}
    for path, text in texts.items():
        if os.path.basename(path) in OWN:
            continue
        with open(path, "w", encoding="utf-8") as out:
            out.write("\n".join(without_bodies(text.split("\n"), opened)))


# ---- edits ----


@dataclass
class Twin:
    """A function again, under a name of its own: with an edit's pairs of texts, or with none."""

    of: Function
    number: int
    pairs: list

    @property
    def suffix(self):
        return f"_twin_{self.number}"

    @property
    def name(self):
        return f"{self.of.name}{self.suffix}"

    def lines(self, text):
        """Its lines, given the text of the function's file as no edit has changed it."""
        own = "\n".join(text.split("\n")[self.of.first : self.of.last + 1])
        for _, old, new in self.pairs:
            own = own.replace(old, new)
        return own.replace(f"fn {self.of.simple}", f"fn {self.of.simple}{self.suffix}", 1).split("\n")


class Edit:
    """An edit: what it makes of which files, and the functions that it turns."""

    def __init__(self, path, folder, functions):
        self.name = os.path.basename(path)
        self.pairs, self.functions, self.is_named, self.touched = [], {}, False, set()
        self.read(read(path), folder, functions)

    def read(self, text, folder, functions):
        path, old, named, texts = None, None, None, {}
        for line in text.split("\n"):
            if line.startswith("file: "):
                path = line[len("file: ") :].strip()
                if not path.startswith("src/") or not os.path.isfile(f"{folder}/{path}"):
                    raise BadEdit(f"it is of {path}, which is no file of src/: an edit of anything else shows nothing")
            elif line.startswith("function: "):
                named = line[len("function: ") :].strip()
            elif line.startswith("old: "):
                old = line[len("old: ") :]
            elif line.startswith("new:"):
                if not path or not old:
                    raise BadEdit("a line 'new:' stands before any 'file:' or 'old:'")
                self.pairs.append((path, old, line[len("new:") :].removeprefix(" ")))
                old = None
        if not self.pairs:
            raise BadEdit("it has no pair of lines 'old:' and 'new:'")
        self.place(folder, functions, named, texts)

    def place(self, folder, functions, named, texts):
        """Finds the functions that the edit stands in."""
        self.is_named = named is not None
        for path, old, new in self.pairs:
            text = texts.setdefault(path, read(f"{folder}/{path}"))
            if old == new:
                raise BadEdit("it changes nothing")
            if text.count(old) != 1:
                raise BadEdit(f"'{old.strip()}' stands {text.count(old)} times in {path}, and not once")
            line = text[: text.index(old)].count("\n")
            own = [it for it in functions if it.file == path and it.first <= line <= it.last]
            if named is None and not own:
                raise BadEdit("it stands in no function: a line 'function: NAME' has to tell which it turns")
            for it in own[-1:] if named is None else []:
                self.functions[it.name] = it
            texts[path] = text.replace(old, new)
        for it in functions:
            if named is not None and (it.name == named or it.name.endswith("::" + named)):
                self.functions[it.name] = it
        constants = {name for _, old, new in self.pairs for name in CONSTANT.findall(old + new)}
        self.touched = {it.name for it in functions if it.words & constants} if self.is_named else set()
        if not self.functions:
            raise BadEdit(f"there is no function {named}")
        if len(self.functions) > 1 and named is not None:
            raise BadEdit(f"{named} is the end of several functions' names")

    def apply(self, folder):
        """Changes the files. Answers no, and changes nothing, where what others changed is in the way."""
        texts = {}
        for path, old, new in self.pairs:
            text = texts.setdefault(path, read(f"{folder}/{path}"))
            if text.count(old) != 1:
                return False
            texts[path] = text.replace(old, new)
        for path, text in texts.items():
            with open(f"{folder}/{path}", "w", encoding="utf-8") as it:
                it.write(text)
        return True


# ---- trying them ----


@dataclass
class Tried:
    """An edit in a try, with the names of what it turns there, and that of the twin without an edit, if it is in one.
    """

    edit: Edit
    names: list
    plain: str | None = None


VERDICT = re.compile(r"^fn (\S+): (.*)$", re.M)
# What is told of a function itself, also where it calls one that isn't proved.
OPEN = re.compile(r"`(?:search|grind)` did not prove")
# What is told of a function that isn't proved since one that it calls isn't.
CALLS = re.compile(r"it calls|a call of `[^`]*`, which has no proof")
# What is told of a function of a form that the prover doesn't read: it says nothing of the contract.
UNCOVERED = "the borrow checker does not cover this function yet"
# A proof that names what an edit took away says little of the contract.
NAMES = re.compile(r"has no field|is not in scope|has no `|was not admitted|depends on")


class Crate:
    """A crate whose edits are tried, with a folder in which its tries keep what they proved."""

    def __init__(self, crate, room):
        self.crate, self.name, self.folder, self.room = crate, crate.name, crate.folder, f"{room}/{crate.name}"
        self.seconds, self.tries, self.refused, self.failed, self.known = 0.0, 0, [], [], 0
        self.functions = functions_of(self.folder)
        folder = f"{self.folder}/edits"
        self.files = sorted(os.listdir(folder)) if os.path.isdir(folder) else []
        self.edits = []

    def fail(self, edit, why):
        self.failed.append(edit)
        say(f"{self.name}/{edit}: {why}")

    def read_edits(self):
        for it in self.files:
            try:
                if not it.endswith(".edit"):
                    raise BadEdit("its name doesn't end in .edit")
                self.edits.append(Edit(f"{self.folder}/edits/{it}", self.folder, self.functions))
            except (BadEdit, OSError, UnicodeDecodeError) as why:
                self.fail(it, f"BAD EDIT: {why}")

    @functools.cached_property
    def sum_of_contracts(self):
        """A sum of what each try of the crate reads: all but functions' bodies and their proofs."""
        at = self.copy()
        self.leave_out_code(at, set(), [])
        leave_out_bodies(f"{at}/proofs")
        self.leave_holes(at, set())
        it = hashlib.sha256(toolchain.sum_below(self.crate).encode())
        for path in sorted(f"{folder}/{name}" for folder, _, names in os.walk(at) for name in names):
            it.update(repr((os.path.relpath(path, at), read(path))).encode())
        shutil.rmtree(at)
        return it.hexdigest()

    def name_kept(self, edit):
        """The file that says that the edit was refused, if an earlier run found so."""
        it = hashlib.sha256(self.sum_of_contracts.encode())
        paths = [os.path.realpath(__file__), f"{self.folder}/edits/{edit.name}"]
        for of in edit.functions.values():
            lines = read(f"{self.folder}/{of.file}").split("\n")
            it.update("\n".join(lines[of.first : of.last + 1]).encode())
            place = f"{self.folder}/proofs/{of.name.replace('::', '/')}"
            paths += [f"{place}/{name}" for name in OWN if os.path.isfile(f"{place}/{name}")]
        for path in paths:
            it.update(read(path).encode())
        return f"{STORE}/{self.name}-{it.hexdigest()}"

    def copy(self):
        """Makes a copy of the crate's files, and answers where it is."""
        os.makedirs(self.room, exist_ok=True)
        at = tempfile.mkdtemp(prefix="copy-", dir=self.room)
        for part in PARTS:
            if os.path.isdir(f"{self.folder}/{part}"):
                shutil.copytree(f"{self.folder}/{part}", f"{at}/{part}")
        return at

    def is_known(self, edit):
        """Whether an earlier run refused the edit over the same files."""
        return os.path.exists(self.name_kept(edit))

    def keep(self, edit):
        try:
            os.makedirs(STORE, exist_ok=True)
            with open(self.name_kept(edit), "wb"):
                pass
        except OSError as why:
            say(f"{self.name}/{edit.name}: not kept: {why}")

    def control(self, batch):
        """The name of a function that no edit of these reaches: the shortest one."""
        changed = {it for edit in batch for it in (*edit.functions, *edit.touched)}
        left = [it for it in self.functions if it.name not in changed and not it.reaches & changed]
        return min(left, key=lambda it: (len(it.reaches), len(it.words), it.name)).name if left else None

    def batch(self, edits):
        """Edits of these that can be tried at once: each in functions of its own, or in a twin, of which none reads a
        constant that another edit changes; and one function is left to be proved."""
        found, changed, touched = [], set(), set()
        for it in edits:
            has_place = not changed & it.functions.keys() or self.can_be_in_twin(it)
            is_apart = not touched & it.functions.keys() and not changed & it.touched
            if len(found) < MOST and has_place and is_apart and self.control([*found, it]):
                found.append(it)
                changed |= it.functions.keys()
                touched |= it.touched
        return found

    def can_be_in_twin(self, edit):
        """Whether the edit is of one function's body, and a twin of that function can stand beside it."""
        if edit.is_named or len(edit.functions) != 1:
            return False
        [it] = edit.functions.values()
        has_whole_proof = os.path.isfile(f"{self.folder}/proofs/{it.name.replace('::', '/')}/Proof.antt")
        return not it.is_of_trait and not has_whole_proof and not self.calls_itself(self.folder, it)

    def apply(self, batch, at):
        """Makes these edits in a copy of the crate, but for those that are to stand in twins. Answers which are made,
        each with the names of what it turns, and the twins: beside those with an edit one without, for each function.
        """
        tried, twins, changed, plain = [], [], set(), {}
        for it in batch:
            if not changed & it.functions.keys() and it.apply(at):
                tried.append(Tried(it, [*it.functions]))
                changed |= it.functions.keys()
                continue
            if not self.can_be_in_twin(it):
                continue
            [of] = it.functions.values()
            if of.name not in plain:
                plain[of.name] = Twin(of, len(twins), [])
                twins.append(plain[of.name])
            twins.append(Twin(of, len(twins), it.pairs))
            tried.append(Tried(it, [twins[-1].name], plain[of.name].name))
        return tried, twins

    def run(self, batch, control):
        """Proves the functions of a copy of the crate with these edits. Answers what was printed, and which edits are
        in it."""
        at = self.copy()
        tried, twins = self.apply(batch, at)
        names = {name for it in tried for name in it.names}
        self.leave_out_code(at, {control, *names}, twins)
        leave_out_bodies(f"{at}/proofs")
        self.leave_holes(at, {control, *names})
        self.prove_twins(at, twins)
        only = [word for it in [control, *sorted({*names, *(it.name for it in twins)})] for word in ("--only", it)]
        words = [toolchain.rtlib.RATTLE, "check", "--allow-holes", *toolchain.words_of(self.crate)]
        words += ["--incremental", f"{self.room}/kept", *only]
        with tempfile.TemporaryFile("w+", encoding="utf-8", errors="replace") as out:
            ran = subprocess.Popen(words, cwd=at, stdin=subprocess.DEVNULL, stdout=out, stderr=subprocess.STDOUT)
            _, _, usage = os.wait4(ran.pid, 0)
            out.seek(0)
            said = out.read()
        shutil.rmtree(at)
        seconds = usage.ru_utime + usage.ru_stime
        self.seconds, self.tries = self.seconds + seconds, self.tries + 1
        if SHOWS_TRIES:
            say(f"{self.name}: {seconds:.0f} s for {', '.join(it.edit.name for it in tried)}")
        return said, tried

    def leave_out_code(self, at, names, twins):
        """In a copy of the crate, takes away the bodies of all functions but these, so that what they call isn't read,
        and puts in the twins, each behind its function."""
        for path in {it.file for it in self.functions}:
            lines = read(f"{at}/{path}").split("\n")
            here = [it for it in self.functions if it.file == path]
            for it in sorted(here, key=lambda it: -it.first):
                for twin in (twin for twin in twins if twin.of is it):
                    lines[it.last + 1 : it.last + 1] = ["", *twin.lines(read(f"{self.folder}/{path}"))]
                begin = body_at(lines, it.first, it.last) if it.name not in names else None
                if begin is not None and not re.search(r"\bconst\b", lines[it.first]) and not self.calls_itself(at, it):
                    lines[begin + 1 : it.last] = ["unreachable!()"]
            with open(f"{at}/{path}", "w", encoding="utf-8") as out:
                out.write("\n".join(lines))

    def prove_twins(self, at, twins):
        """Gives each twin the proof of its function, under its own name."""
        for twin in twins:
            place, module = f"proofs/{twin.of.name.replace('::', '/')}", f"proofs.{twin.of.name.replace('::', '.')}"
            for file in filter(lambda it: os.path.isfile(f"{self.folder}/{place}/{it}"), OWN):
                proof = read(f"{self.folder}/{place}/{file}").replace(f"{module}.", f"{module}{twin.suffix}.")
                os.makedirs(f"{at}/{place}{twin.suffix}", exist_ok=True)
                with open(f"{at}/{place}{twin.suffix}/{file}", "w", encoding="utf-8") as out:
                    out.write(proof)

    def calls_itself(self, at, it):
        """Whether a function calls itself: its proof stands in a folder of another name then."""
        return os.path.isdir(f"{at}/proofs/{'/'.join([*it.name.split('::')[:-1], f'+{it.simple}'])}")

    def leave_holes(self, at, names):
        """In a copy of the crate, makes a hole of the proof of each function but these."""
        for it in self.functions:
            place = f"{at}/proofs/{it.name.replace('::', '/')}"
            if it.name in names or self.calls_itself(at, it):
                continue
            os.makedirs(place, exist_ok=True)
            for file in os.listdir(place):
                if os.path.isfile(f"{place}/{file}"):
                    os.remove(f"{place}/{file}")
            with open(f"{place}/Proof.antt", "w", encoding="utf-8") as out:
                out.write(HOLE.format(crate=self.name, place=it.name.replace("::", "."), name=it.simple))

    def is_good(self, name, said):
        """Whether a function is proved, given the holes of others."""
        return self.verdicts(said).get(name, "").startswith(("no holes", "depends on a hole in "))

    def verdicts(self, said):
        return {name.partition("::")[2]: text for name, text in VERDICT.findall(said)}

    def errors(self, name, said):
        """What is told of the files of a function's own proof. A long error goes on in lines that begin with two
        spaces."""
        place = re.escape(name.replace("::", "/"))
        found = re.findall(rf"^(?:\./)?proofs/{place}/\S+ error: (.*(?:\n  .*)*)$", said, re.M)
        return [" ".join(it.split()) for it in found]

    def is_refused(self, names, said):
        """Whether one of the functions that an edit turns isn't proved, for a reason of its own, and not only since its
        proof names what is gone."""
        told = self.verdicts(said)
        if self.is_weak(names, said):
            return False
        return any(self.is_own(name, told.get(name, ""), said) for name in names)

    def is_told(self, it, said):
        """Whether what is printed tells of the edit: where it stands in a twin, the twin without an edit is proved, or
        isn't only since it calls what other edits turn."""
        verdict = self.verdicts(said).get(it.plain, "")
        is_calling = CALLS.search(verdict) and not self.is_own(it.plain, verdict, said)
        return it.plain is None or self.is_good(it.plain, said) or is_calling

    def is_own(self, name, verdict, said):
        """Whether the verdict on a function says that it isn't proved, for a reason of its own."""
        if not verdict.startswith(("not proved", "no proof")) or UNCOVERED in verdict:
            return False
        own = (it for it in self.errors(name, said) if not NAMES.search(it))
        return not CALLS.search(verdict) or bool(OPEN.search(verdict)) or any(own)

    def is_weak(self, names, said):
        """Whether all that is told of the functions that an edit turns is that their proofs name what it took away."""
        told = []
        for name in names:
            if self.verdicts(said).get(name, "").startswith("no proof"):
                return False
            told += self.errors(name, said)
        return bool(told) and all(NAMES.search(it) for it in told)

    def try_batch(self, batch):
        """Tries these edits at once, and notes which are refused. Where one spoils the try, the halves are tried apart.
        """
        control = self.control(batch)
        said, tried = self.run(batch, control)
        why = why_unread(said)
        if not why and not self.is_good(control, said):
            why = f"{control}, which they don't change, isn't proved"
        if why:
            if SHOWS_TRIES:
                say(f"{self.name}: that try told nothing: {why}")
            half = len(batch) // 2
            for part in (batch[:half], batch[half:]) if half else ():
                self.try_batch(part)
            return
        for it in tried:
            if self.is_told(it, said) and self.is_refused(it.names, said):
                self.refuse(it.edit)
            elif SHOWS_TRIES:
                verdicts = [self.verdicts(said).get(name, "nothing") for name in [*it.names, it.plain]]
                say(f"{self.name}: to be tried alone: {it.edit.name}: {'; '.join(verdicts)}")

    def try_alone(self, edit):
        control = self.control([edit])
        if control is None:
            why = "each function of its crate may come to call what it changes, so none is left to be proved"
            return self.fail(edit.name, f"BAD EDIT: {why}")
        said, _ = self.run([edit], control)
        why = why_unread(said)
        if why:
            self.fail(edit.name, f"BAD EDIT: the prover can't read it: {why}")
        elif not self.is_good(control, said):
            self.fail(edit.name, f"BAD EDIT: {control}, which it doesn't change, isn't proved beside it")
        elif self.is_refused(edit.functions, said):
            self.refuse(edit)
        elif self.is_weak(edit.functions, said):
            why = "all that is told is that its proof names what it took away: change a value, and keep the form"
            self.fail(edit.name, f"NOT REFUSED: {why}")
        elif any(UNCOVERED in self.verdicts(said).get(it, "") for it in edit.functions):
            why = "the borrow checker doesn't cover it, which says nothing of the contract: change a value"
            self.fail(edit.name, f"BAD EDIT: {why}, and keep the form")
        elif any(CALLS.search(self.verdicts(said).get(it, "")) for it in edit.functions):
            self.fail(edit.name, "NOT REFUSED: its function is told only because it calls another one")
        else:
            self.fail(edit.name, "NOT REFUSED: its function is proved with it")
        return None

    def refuse(self, edit):
        self.refused.append(edit)
        self.keep(edit)

    def try_all(self):
        begin = time.monotonic()
        os.makedirs(self.room, exist_ok=True)
        lacking = toolchain.lacking(self.crate)
        if lacking:
            why = f"the library {lacking[0]} isn't that of its sources"
            self.fail(self.files[0], f"{why}: run scripts/test.sh, or rt check in {self.name}")
            return self
        self.read_edits()
        self.refused += filter(self.is_known, self.edits) if IS_KEPT else []
        self.known = len(self.refused)
        left = [it for it in self.edits if it not in self.refused]
        while left:
            batch = self.batch(left)
            if not batch:
                break
            self.try_batch(batch)
            # (what isn't refused is tried alone in the end)
            left = [it for it in left if it not in batch]
        for it in self.edits:
            if it not in self.refused:
                self.try_alone(it)
        shutil.rmtree(self.room)
        earlier = f", {self.known} of them by earlier runs" if IS_KEPT else ""
        say(
            f"{self.name}: {len(self.refused)} of {len(self.files)} refused{earlier}; "
            f"{self.tries} tries, {self.seconds:.0f} processor seconds, {time.monotonic() - begin:.0f} s"
        )
        return self


def why_unread(said):
    """Why the prover couldn't read an edited text, if it couldn't."""
    lines = said.rstrip("\n").split("\n")
    unread = [it for it in lines if re.match(r"(?:\./)?(?:src|specs)/\S+ error", it)]
    if not unread and lines[-1].startswith("only="):
        return None
    return (unread or [it for it in lines if "error" in it] or lines)[0][:200]


def main(names):
    known = toolchain.crates()
    unknown = {*names} - {it.name for it in known}
    if unknown:
        sys.exit(f"edits: no crate is named {', '.join(sorted(unknown))}")
    with tempfile.TemporaryDirectory(prefix="edits-") as room:
        of = [Crate(it, room) for it in known if not names or it.name in names]
        of = sorted((it for it in of if it.files), key=lambda it: -sum(len(f.words) for f in it.functions))
        with ThreadPoolExecutor(len(os.sched_getaffinity(0))) as pool:
            done = [*pool.map(Crate.try_all, of)]
    failed = [f"{it.name}/{edit}" for it in done for edit in it.failed]
    known = sum(it.known for it in done)
    if known:
        say(f"{known} were refused by earlier runs over the same files, and not tried again")
    if failed:
        say(f"FAILED: {' '.join(failed)}")
    print(f"{sum(len(it.refused) for it in done)} passed, {len(failed)} failed")
    return 1 if failed else 0


if __name__ == "__main__":
    sys.exit(main([it for it in sys.argv[1:] if it not in ("--tries", "--kept")]))
