#!/usr/bin/env python3
"""Random requests of eight clients against the server over QEMU's adapter, while the model follows; what the server
answers is compared with shadow copies.

soak.py [--requests N] [--seed N] [--ports N] [--failures] [--seconds N] [--keep FOLDER]

It writes a configuration and a script, has run.sh play it, and goes through script and answers side by side: each
refusal is the one that the rules say, each reply is of a request that is unanswered, each that is told Revoked had a
grant that was revoked, and each loaded byte is what the shadow of the frame has, by the order in which requests were
accepted. With --failures QEMU's blkdebug fails reads and
writes: README.md says what comes of it. The last line tells how many requests were accepted, how many accesses each
took, and how many differences were found.
"""
import argparse
import collections
import os
import pathlib
import random
import re
import subprocess
import sys
import tempfile

HERE = pathlib.Path(__file__).resolve().parent
SECTOR, FRAME, SECTORS = 512, 4096, 2048
FRAMES, FIRST_FRAME = 512, 76
# A line names so many frames at most.
MOST_FRAMES = 128
# The frames of each client, behind one another's. The first has room for two of the widest requests.
CLIENT_FRAMES = [0, 300, 15, 15, 15, 15, 15, 15, 15]
CLIENTS = len(CLIENT_FRAMES) - 1
MOST_UNANSWERED_OF_ALL_CLIENTS, MOST_COUNT, FAILURES = 16, 1024, 100
# How often the first client's request is a wide one, and of how many sectors it is then.
WIDE, WIDE_COUNTS = 0.1, (256, 257, 512, 1000, 1023, 1024, 1024, 1025)
# How often a grant is revoked, of the times that requests were made and answered.
REVOCATIONS = 0.03
# The numbers of the grants that are revoked now and then.
REVOCABLE = range(16, 19)
RIGHTS = {"read": "r", "write": "w", "trim": "t", "flush": "f"}


def frames_of_client(client):
    first = FIRST_FRAME + sum(CLIENT_FRAMES[:client])
    return range(first, first + CLIENT_FRAMES[client])


def first_bytes(port, sector):
    return bytes([(sector * 7 + port * 91 + 3) % 256]) * SECTOR


class Grants:
    """What each client may do: under number P all of port P's disk, under 8 a part of port 0's, which it may read
    alone, and under 16 to 18 all of a port's disk until the grant is revoked."""

    def __init__(self, ports):
        self.rows = {}
        for client in range(1, CLIENTS + 1):
            for port in range(ports):
                self.rows[client, port] = (port, 0, SECTORS, "rwtf")
            self.rows[client, 8] = (0, 16 * client, 32, "r")
            for number in REVOCABLE:
                self.rows[client, number] = (number % ports, 0, SECTORS, "rwf")

    def text(self):
        lines = []
        for (client, number), (port, first, count, rights) in self.rows.items():
            lines.append(
                f"[[grant]]\nclient = {client}\nnumber = {number}\nport = {port}\n"
                f'first = {first}\ncount = {count}\nrights = "{rights}"\n'
            )
        return "".join(lines)


def configuration(ports, grants):
    text = f'frames = {FRAMES}\nslots = 32\nncq = true\ndepth = 32\ntrim = "none"\n'
    for port in range(ports):
        text += f"[[port]]\nnumber = {port}\n"
    for client in range(1, CLIENTS + 1):
        own = frames_of_client(client)
        text += f"[[client]]\nid = {client}\nfirst_frame = {own.start}\nframes = {len(own)}\n"
    return text + grants.text()


class Writer:
    """The script: what the clients ask, at random."""

    def __init__(self, seed, ports):
        self.random = random.Random(seed)
        self.ports = ports
        self.lines = []

    def frames_of(self, client, count):
        """So many of the client's frames at random; of many, as often neighbours, which one PRD covers."""
        own = frames_of_client(client)
        count = min(count, len(own), MOST_FRAMES)
        frames = self.random.sample(own, count)
        if count > 16 and self.random.random() < 0.5:
            first = self.random.randrange(own.start, own.stop - count + 1)
            frames = list(range(first, first + count))
        if frames and self.random.random() < 0.01:
            frames[0] = self.random.randrange(FRAMES)
        if len(frames) > 1 and self.random.random() < 0.01:
            frames[1] = frames[0]
        return frames

    def store(self, client, frame):
        offset = self.random.randrange(0, FRAME - 64)
        data = self.random.randbytes(self.random.randrange(1, 65))
        self.lines.append(f"store {client} {frame} {offset} {data.hex()}")

    def load(self, client):
        frame = self.random.choice(frames_of_client(client))
        offset = SECTOR * self.random.randrange(8) + self.random.randrange(SECTOR - 64)
        self.lines.append(f"load {client} {frame} {offset} {self.random.randrange(1, 65)}")

    def request(self):
        client = self.random.randrange(1, CLIENTS + 1)
        kind = self.random.choices(["read", "write", "flush", "trim"], [60, 36, 3, 1])[0]
        kinds = [range(self.ports), REVOCABLE, (8, 9)]
        grant = self.random.choice(self.random.choices(kinds, [85, 12, 3])[0])
        if kind == "flush":
            self.lines.append(f"flush {client} {grant}")
            return
        count = self.random.choice([1, 1, 2, 3, 5, 8, 8, 13, 16])
        if client == 1 and self.random.random() < WIDE:
            count = self.random.choice(WIDE_COUNTS)
        first = self.random.randrange(SECTORS - count + (2 if self.random.random() < 0.02 else 0))
        if kind == "trim":
            self.lines.append(f"trim {client} {grant} {first} {count}")
            return
        frames = self.frames_of(client, (count + 7) // 8)
        if kind == "write":
            for frame in frames:
                self.store(client, frame)
        names = ",".join(str(frame) for frame in frames)
        self.lines.append(f"{kind} {client} {grant} {first} {count} {names}")

    def revoke(self):
        """Revokes a grant, while a read waits under it for a write of its sectors, if both are accepted."""
        client, grant = self.random.randrange(1, CLIENTS + 1), self.random.choice(REVOCABLE)
        first, frames = self.random.randrange(SECTORS - 8), self.frames_of(client, 2)
        for kind, frame in zip(("write", "read"), frames):
            self.lines.append(f"{kind} {client} {grant} {first} 8 {frame}")
        self.call(f"revoke {client} {grant}")

    def call(self, name):
        """A call that may have several answers, and a line behind it that tells where these end."""
        self.lines += [name, "state 0"]

    def play(self, requests, ticks, resets):
        asked = 0
        while asked < requests:
            for _ in range(self.random.randrange(1, 30)):
                self.request()
                asked += 1
            for _ in range(self.random.randrange(1, 5)):
                self.call("service")
            for _ in range(self.random.randrange(0, 12)):
                self.load(self.random.randrange(1, CLIENTS + 1))
            if self.random.random() < 0.3:
                self.lines.append(f"dev finish {self.random.randrange(self.ports)} {self.random.randrange(8)}")
            if self.random.random() < ticks:
                self.call("tick")
            if self.random.random() < resets:
                self.call("reset")
            if self.random.random() < REVOCATIONS:
                self.revoke()
        for _ in range(8):
            # Each is waited for, or hangs, and then the third tick restarts its port.
            for _ in range(4):
                self.lines += [f"dev finish {port} {slot}" for port in range(self.ports) for slot in range(32)]
                self.call("service")
            self.call("tick")
        self.lines += [f"state {port}" for port in range(self.ports)]
        return "\n".join(self.lines) + "\n"


class Shadow:
    """What the server has to say, and what frames and disks hold."""

    def __init__(self, ports, grants, may_fail):
        self.grants = grants
        self.ports = ports
        # Where the disks don't fail, nothing but Ok is right.
        self.may_fail = may_fail
        self.outcomes = collections.Counter()
        self.frames = {}
        self.known = {}
        self.versions = {}
        self.lent = {}
        self.open = {}
        self.count = 0
        self.answered = 0
        self.differences = []

    def differs(self, place, text):
        self.differences.append(f"line {place}: {text}")

    def owner(self, frame):
        return next((client for client in range(1, CLIENTS + 1) if frame in frames_of_client(client)), None)

    def bytes_of(self, frame):
        return self.frames.setdefault(frame, bytearray(FRAME))

    def refusal(self, client, number, kind, first, count, frames):
        row = self.grants.rows.get((client, number))
        if row is None:
            return "1 NoGrant"
        port, start, length, rights = row
        if RIGHTS[kind] not in rights:
            return "2 NoRight"
        if kind in ("read", "write") and not 1 <= count <= MOST_COUNT or kind == "trim" and count < 1:
            return "3 BadCount"
        if kind != "flush" and not (start <= first and first + count <= start + length):
            return "4 OutsideGrant"
        if len(frames) != ((count + 7) // 8 if kind in ("read", "write") else 0):
            return "5 FrameCount"
        for place, frame in enumerate(frames):
            if self.owner(frame) != client:
                return f"6 FrameForeign {place}"
        for place, frame in enumerate(frames):
            if frame in frames[:place]:
                return f"7 FrameTwice {place}"
        for place, frame in enumerate(frames):
            if frame in self.lent:
                return f"8 FrameLent {place}"
        if kind == "trim":
            return "11 TrimUnsupported"
        if sum(1 for request in self.open.values() if request["client"] == client) >= MOST_UNANSWERED_OF_ALL_CLIENTS:
            return "12 ClientFull"
        return None

    def submit(self, place, words, said):
        kind, client, number = words[0], int(words[1]), int(words[2])
        first, count = (int(words[3]), int(words[4])) if kind != "flush" else (0, 0)
        frames = [int(name) for name in words[5].split(",")] if kind in ("read", "write") else []
        refusal = self.refusal(client, number, kind, first, count, frames)
        expected = f"refused {refusal}" if refusal else f"ok {self.count + 1}"
        if said != expected:
            self.differs(place, f"{' '.join(words)}: {said} in place of {expected}")
        if not said.startswith("ok "):
            return
        self.count = int(said.split()[1])
        port = self.grants.rows.get((client, number), (0,))[0]
        self.open[self.count] = dict(
            kind=kind, client=client, number=number, port=port, first=first, count=count, frames=frames
        )
        for frame in frames:
            self.lent[frame] = self.count
        if kind == "write":
            for sector in range(count):
                frame, offset = frames[sector // 8], sector % 8 * SECTOR
                whole = (frame, sector % 8) not in self.known or self.known[frame, sector % 8]
                data = bytes(self.bytes_of(frame)[offset : offset + SECTOR]) if whole else None
                self.versions.setdefault((port, first + sector), []).append([self.count, data])

    def left(self, port, sector, before):
        """What the writes that were accepted before this id left; nothing where that isn't known."""
        for number, data in reversed(self.versions.get((port, sector), [])):
            if number < before:
                return data
        return first_bytes(port, sector)

    def revoke(self, place, words, said):
        """The client's row goes, if there is one."""
        is_there = self.grants.rows.pop((int(words[1]), int(words[2])), None) is not None
        expected = "done" if is_there else "refused 1 NoGrant"
        if said != expected:
            self.differs(place, f"{' '.join(words)}: {said} in place of {expected}")

    def is_told(self, request, outcome, words):
        """Whether a request may be told so by the call of these words: in a revocation, Revoked under its grant."""
        if words[0] == "revoke":
            return outcome == "Revoked" and [request["client"], request["number"]] == [*map(int, words[1:3])]
        if outcome == "Revoked":
            return (request["client"], request["number"]) not in self.grants.rows
        return outcome == "Ok" or self.may_fail and (outcome == "Aborted" or outcome.startswith("DeviceError 41 "))

    def reply(self, place, number, outcome, words):
        request = self.open.pop(number, None)
        if request is None:
            self.differs(place, f"reply {number}, which isn't unanswered")
            return
        self.answered += 1
        for frame in request["frames"]:
            del self.lent[frame]
        fine = outcome == "Ok"
        self.outcomes[outcome.split()[0]] += 1
        if not self.is_told(request, outcome, words):
            self.differs(place, f"{' '.join(words)}: reply {number} {outcome}")
        for sector in range(request["count"]):
            key = request["port"], request["first"] + sector
            if request["kind"] == "write" and words[0] == "revoke":
                # It wasn't issued, so it left nothing.
                self.versions[key] = [it for it in self.versions[key] if it[0] != number]
            elif request["kind"] == "write" and not fine:
                for version in self.versions[key]:
                    if version[0] == number:
                        version[1] = None
            if request["kind"] == "read":
                frame, offset = request["frames"][sector // 8], sector % 8 * SECTOR
                data = self.left(*key, number) if fine else None
                self.known[frame, sector % 8] = data is not None
                if data is not None:
                    self.bytes_of(frame)[offset : offset + SECTOR] = data

    def access(self, place, words, said):
        client, frame, offset = int(words[1]), int(words[2]), int(words[3])
        length = int(words[4]) if words[0] == "load" else len(words[4]) // 2
        if self.owner(frame) != client:
            expected = "refused FrameForeign"
        elif frame in self.lent:
            expected = "refused FrameLent"
        elif offset + length > FRAME:
            expected = "refused OutsideFrame"
        elif words[0] == "store":
            expected = "stored"
            self.bytes_of(frame)[offset : offset + length] = bytes.fromhex(words[4])
        else:
            pieces = range(offset // SECTOR, (offset + length - 1) // SECTOR + 1)
            if not all(self.known.get((frame, piece), True) for piece in pieces):
                return
            expected = "bytes " + bytes(self.bytes_of(frame)[offset : offset + length]).hex()
        if said != expected:
            self.differs(place, f"{' '.join(words)}: {said} in place of {expected}")

    def check(self, script, answers):
        answers = iter(answers)
        held = next(answers, None)
        for place, line in enumerate(script, 1):
            words = line.split()
            if held is None:
                self.differs(place, "no answer")
                return
            said, held = held, next(answers, None)
            if words[0] in RIGHTS:
                self.submit(place, words, said)
            elif words[0] in ("load", "store"):
                self.access(place, words, said)
            elif words[0] == "dev":
                if said not in ("did", "no"):
                    self.differs(place, f"{line}: {said}")
            elif words[0] == "state":
                if said != "state Ready":
                    self.differs(place, f"{line}: {said}")
            else:
                if words[0] == "revoke":
                    self.revoke(place, words, said)
                elif said not in ("quiet", "done") and not said.startswith("reply "):
                    self.differs(place, f"{line}: {said}")
                while said is not None and not said.startswith("state "):
                    if said.startswith("reply "):
                        _, number, outcome = said.split(" ", 2)
                        self.reply(place, int(number), outcome, words)
                    if held is None or not held.startswith("reply "):
                        break
                    said, held = held, next(answers, None)


def blkdebug(scratch, port, seed):
    """A drive of which one read or write after another fails, each once."""
    rules = random.Random(seed * 8 + port)
    text, state = "", 1
    for _ in range(FAILURES):
        # So far apart that no request fails four times.
        gap = rules.randrange(40, 80)
        for place in range(gap):
            event = rules.choice(["read_aio", "write_aio"])
            if place == gap - 1:
                text += f'[inject-error]\nevent = "{event}"\nerrno = "5"\nstate = "{state}"\nonce = "on"\n'
            text += f'[set-state]\nevent = "{event}"\nstate = "{state}"\nnew_state = "{state + 1}"\n'
            state += 1
    path = scratch / f"blkdebug{port}"
    path.write_text(text)
    return f"blkdebug:{path}:"


def main():
    words = argparse.ArgumentParser()
    words.add_argument("--requests", type=int, default=26000)
    words.add_argument("--seed", type=int, default=1)
    words.add_argument("--ports", type=int, default=4, choices=range(1, 5))
    words.add_argument("--failures", action="store_true")
    words.add_argument("--seconds", type=int, default=900)
    words.add_argument("--keep", type=pathlib.Path)
    words = words.parse_args()
    grants = Grants(words.ports)
    script = Writer(words.seed, words.ports).play(words.requests, 0.5 if words.failures else 0.02, 0.002)
    with tempfile.TemporaryDirectory() as name:
        scratch = words.keep or pathlib.Path(name)
        (scratch / "soak.toml").write_text(configuration(words.ports, grants))
        (scratch / "soak.script").write_text(script)
        images = []
        for port in range(words.ports):
            images.append(scratch / f"disk{port}.img")
            images[-1].write_bytes(b"".join(first_bytes(port, sector) for sector in range(SECTORS)))
        environment = dict(os.environ, SECONDS_AT_MOST=str(words.seconds))
        if words.failures:
            environment["QEMU_DRIVES"] = " ".join(blkdebug(scratch, port, words.seed) for port in range(words.ports))
        ran = subprocess.run(
            [HERE / "run.sh", "--proved", scratch / "soak.toml", scratch / "soak.script", *images],
            capture_output=True,
            text=True,
            env=environment,
            check=False,
        )
        if words.keep:
            (scratch / "answers").write_text(ran.stdout)
    if ran.returncode == 77:
        print(ran.stderr, end="", file=sys.stderr)
        return 77
    shadow = Shadow(words.ports, grants, words.failures)
    shadow.check(script.splitlines(), ran.stdout.splitlines())
    counted = re.search(r"follow: (\d+) accesses, (\d+) looks", ran.stderr)
    accesses = int(counted[1]) if counted else 0
    if ran.returncode != 0:
        print(ran.stderr, end="", file=sys.stderr)
        shadow.differences.append(f"run.sh ended with status {ran.returncode}")
    if shadow.open:
        shadow.differences.append(f"{len(shadow.open)} requests are unanswered")
    failed = sum(count for outcome, count in shadow.outcomes.items() if outcome not in ("Ok", "Revoked"))
    # Each failure of a disk fails one command, and a request is told so once at most.
    if failed > FAILURES * words.ports:
        most = FAILURES * words.ports
        shadow.differences.append(f"{failed} requests weren't answered Ok, with {most} failures at most")
    print(", ".join(f"{count} {outcome}" for outcome, count in sorted(shadow.outcomes.items())))
    for difference in shadow.differences[:20]:
        print(difference, file=sys.stderr)
    each = accesses / max(1, shadow.count)
    told = f"{each:.1f} accesses a request, {len(shadow.differences)} differences"
    print(f"{shadow.count} requests accepted, {shadow.answered} answered, {told}")
    return 0 if not shadow.differences else 1


if __name__ == "__main__":
    sys.exit(main())
