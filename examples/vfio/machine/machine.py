#!/usr/bin/env python3
"""The server on a PCI adapter behind Linux's VFIO, in a machine of QEMU's with an IOMMU.

machine.py intel|amd|none [--requests N] [--seconds N] [--keep FOLDER] [--figures]

The machine runs the distribution's kernel, which has the adapters first (build.sh makes it; its first process is init).
There docs/HARDWARE.md's commands are followed, either program is killed, and the soaks of examples/qemu/soak.py are
played, without failures and with them; what they answer, and the images, are looked at here. `none` has no IOMMU. With
--figures nothing is tried, but what the lines of the first soak cost is measured (replay.rs). The last line is 'N
passed, M failed'; the status is 77 where QEMU, a program or a package isn't there. FOLLOW names another program than
crates/follow/out/follow, and ACCELERATOR what QEMU runs the machine by (tcg).
"""
import argparse
import hashlib
import importlib.util
import os
import pathlib
import re
import shutil
import subprocess
import sys
import tempfile
import time

sys.dont_write_bytecode = True
HERE = pathlib.Path(__file__).resolve().parent
VFIO = HERE.parent
ROOT = VFIO.parent.parent
OUT = VFIO / "out"
FOLLOW = pathlib.Path(os.environ.get("FOLLOW", ROOT / "crates/follow/out/follow"))
# What each machine has to tell, so that nothing is left out unseen.
WITHOUT = ["Linux has the disks", "without an IOMMU nothing is taken", "without an IOMMU host ends"]
WITH = [
    "Linux has the disks",
    "a mounted disk is refused",
    "a disk that is swapped to is refused",
    "a block device in use is refused",
    "a group that isn't viable is refused",
    "docs/HARDWARE.md is followed",
    "what follow passes over is named",
    "follow is killed: host resets the adapter and ends",
    "host is killed: follow ends",
    "a configuration of another disk strays",
    "what host is told is shown, but not what the server decides by",
    "what was killed plays again, and the disk is as the model's",
    "the soak ends",
    "the soak with failures ends",
    "the disks of the soak are as the model's",
]
SERIALS = ["IMAGEDISK", "IMAGEDISK1", "IMAGEDISK2", "IMAGEDISK3"]
IOMMU = {
    "intel": ["-cpu", "max", "-device", "intel-iommu,intremap=on"],
    "amd": ["-cpu", "EPYC", "-device", "amd-iommu"],
    "none": ["-cpu", "max"],
}
MIB = 1 << 20


def load_soak():
    """The soak over QEMU's adapter, which this one plays, too."""
    spec = importlib.util.spec_from_file_location("soak", ROOT / "examples/qemu/soak.py")
    module = importlib.util.module_from_spec(spec)
    spec.loader.exec_module(module)
    return module


soak = load_soak()


class Soak:
    """One soak: what is asked, and what the disks hold at first."""

    def __init__(self, name, function, seed, requests, failures):
        self.name, self.function, self.seed, self.failures = name, function, seed, failures
        self.grants = soak.Grants(4)
        ticks = 0.5 if failures else 0.02
        self.script = soak.Writer(seed, 4).play(requests, ticks, 0.002)

    def write(self, folder):
        folder.mkdir(parents=True)
        (folder / "config").write_text(soak.configuration(4, self.grants))
        (folder / "function").write_text(self.function + "\n")
        (folder / "soak.script").write_text(self.script)
        for port in range(4):
            (folder / f"disk{port}.img").write_bytes(self.image(port))

    def image(self, port):
        return b"".join(soak.first_bytes(port, sector) for sector in range(soak.SECTORS))

    def differences(self, answers):
        shadow = soak.Shadow(4, self.grants, self.failures)
        shadow.check(self.script.splitlines(), answers)
        differences = list(shadow.differences)
        if shadow.open:
            differences.append(f"{len(shadow.open)} requests are unanswered")
        outcomes = ", ".join(f"{count} {outcome}" for outcome, count in sorted(shadow.outcomes.items()))
        print(f"{self.name}: {shadow.count} requests accepted, {shadow.answered} answered: {outcomes}")
        if not shadow.count:
            differences.append("no request was accepted")
        return differences


def commands():
    """The commands of docs/HARDWARE.md, but for the one that builds: that is done outside of the machine."""
    block = re.search(r"```sh\n(.*?)```", (ROOT / "docs/HARDWARE.md").read_text(), re.S)[1]
    lines = block.splitlines()
    assert len(lines) == 5 and lines[0].startswith("examples/vfio/build.sh"), lines
    return "\n".join(lines[1:]) + "\n"


def first_disk():
    """The disk over which first.script is played: every byte of sector k is k."""
    return b"".join(bytes([sector % 256]) * 512 for sector in range(32 * MIB // 512))


def copy(source, root, place):
    target = root / place
    target.parent.mkdir(parents=True, exist_ok=True)
    shutil.copy(source, target)


def files(root, mode, soaks):
    """What the machine has beside the base: the programs with their libraries, the scripts, and the job."""
    for name in ("take.sh", "prepare.sh", "run.sh", "compare.sh", "out/host"):
        copy(VFIO / name, root, f"repository/examples/vfio/{name}")
    for name in ("first.script", "first.output"):
        copy(ROOT / "examples/qemu" / name, root, f"repository/examples/qemu/{name}")
    copy(FOLLOW, root, "repository/crates/follow/out/follow")
    libraries = subprocess.run(["ldd", FOLLOW], capture_output=True, text=True, check=False).stdout
    for library in re.findall(r"(/\S+) \(0x", libraries):
        copy(library, root, library[1:])
    copy(HERE / "init", root, "init")
    job = root / "job"
    job.mkdir()
    (job / "mode").write_text(mode)
    (job / "commands").write_text(commands())
    (job / "long.script").write_text("read 1 0 100 8 76\ndev finish 0 0\nservice\n" * 10000)
    for it in soaks:
        it.write(job / it.name)


def build_replay(root):
    """Builds the program that measures."""
    words = ["rustc", "--edition", "2021", "-O", "-C", "target-feature=+crt-static", "-C", "strip=symbols"]
    subprocess.run([*words, HERE / "replay.rs", "-o", root / "repository/replay"], check=True)


def drive(name, file, bus, serial, before=""):
    text = f"if=none,id={name},format=raw,cache=unsafe,file={before}{file}"
    return ["-drive", text, "-device", f"ide-hd,drive={name},bus={bus},serial={serial}"]


def drives(scratch, soaks):
    """The adapters and their disks."""
    (scratch / "spare.img").write_bytes(bytes(MIB))
    (scratch / "own.img").write_bytes(first_disk())
    options = ["-device", "ich9-ahci,id=own,bus=pcie.0,addr=5", "-device", "ich9-ahci,id=failing,bus=pcie.0,addr=6"]
    options += drive("spare", scratch / "spare.img", "own.0", "SPARE")
    options += drive("own2", scratch / "own.img", "own.2", "VF-4711")
    for it, bus in zip(soaks, ("ide", "failing")):
        for port in range(4):
            file = scratch / f"{it.name}{port}.img"
            file.write_bytes(it.image(port))
            before = soak.blkdebug(scratch, port, it.seed) if it.failures else ""
            options += drive(f"{it.name}{port}", file, f"{bus}.{port}", SERIALS[port], before)
    return options


def initramfs(scratch, root):
    """The base, and behind it what this run has."""
    listed = "\n".join(str(it.relative_to(root)) for it in sorted(root.rglob("*")))
    busybox = scratch / "busybox"
    if not busybox.exists():
        packed = subprocess.run(["gzip", "-dc", OUT / "machine/base.cpio.gz"], capture_output=True, check=True).stdout
        (scratch / "base.cpio").write_bytes(packed)
        extract_busybox(packed, busybox)
    made = subprocess.run(
        [busybox, "cpio", "-o", "-H", "newc"], input=listed.encode(), cwd=root, capture_output=True, check=True
    )
    (scratch / "initramfs").write_bytes((scratch / "base.cpio").read_bytes() + made.stdout)


def extract_busybox(packed, target):
    """Takes bin/busybox out of an archive (cpio, newc), whose headers have a size at byte 54, and a name's at 94."""
    at = 0
    while packed[at : at + 6] == b"070701":
        size, named = int(packed[at + 54 : at + 62], 16), int(packed[at + 94 : at + 102], 16)
        name = packed[at + 110 : at + 110 + named - 1].decode()
        data = (at + 110 + named + 3) & ~3
        if name.removeprefix("./") == "bin/busybox":
            target.write_bytes(packed[data : data + size])
            target.chmod(0o755)
            return
        at = (data + size + 3) & ~3
    raise SystemExit("machine.py: the base has no busybox")


def run(mode, scratch, soaks, seconds):
    """Runs the machine to its end, and returns what it told on its second serial line."""
    accelerators = ["-accel", os.environ.get("ACCELERATOR", "tcg")]
    words = ["qemu-system-x86_64", "-machine", "q35", *accelerators, *IOMMU[mode], "-smp", "1", "-m", "768"]
    words += ["-nodefaults", "-display", "none", "-no-reboot"]
    words += ["-kernel", OUT / "machine/vmlinuz", "-initrd", scratch / "initramfs"]
    words += ["-append", "console=ttyS0 quiet panic=-1 no_timer_check intel_iommu=on"]
    words += ["-serial", f"file:{scratch}/kernel", "-serial", f"file:{scratch}/told", *drives(scratch, soaks)]
    begun = time.monotonic()
    ended = "ended by itself"
    try:
        with open(scratch / "emulator", "ab") as emulator:
            subprocess.run(words, stdin=subprocess.DEVNULL, stderr=emulator, timeout=seconds, check=False)
    except subprocess.TimeoutExpired:
        ended = f"was ended after {seconds} s"
    told = (scratch / "told").read_text(errors="replace") if (scratch / "told").exists() else ""
    print(f"{mode}: QEMU {ended}, after {time.monotonic() - begun:.1f} s")
    return told.replace("\r\n", "\n")


def sent(told):
    """The files that were sent."""
    found = re.findall(r"^<< (.*)\n((?:.*\n)*?)>>$", told, re.M)
    return {pathlib.Path(name).name: text.splitlines() for name, text in found}


def check_images(scratch, soaks, sums):
    """Whether QEMU's images are the model's, byte by byte."""
    of_models = {}
    for line in sums:
        digest, name = line.split()
        of_models[name] = digest
    for it in soaks:
        for port in range(4):
            digest = hashlib.sha256((scratch / f"{it.name}{port}.img").read_bytes()).hexdigest()
            if of_models.get(f"/job/{it.name}/disk{port}.img") != digest:
                yield f"{it.name}: the image of port {port} isn't the model's"


def judge(mode, scratch, soaks, told):
    """Tells what went well, and counts it."""
    without_files = re.sub(r"^<< .*\n(?:.*\n)*?>>\n", "", told, flags=re.M)
    print(without_files, end="")
    wanted = WITHOUT if mode == "none" else WITH
    passed = set(re.findall(r"^== passed (.*)$", told, re.M))
    faults = [f"not passed: {name}" for name in wanted if name not in passed]
    counted = len(wanted)
    if mode != "none":
        files_sent = sent(told)
        for it in soaks:
            counted += 1
            differences = it.differences(files_sent.get(f"{it.name}.answers", []))
            if differences:
                faults.append(f"{it.name}: {len(differences)} differences, first: {differences[0]}")
        counted += 1
        differing = [*check_images(scratch, soaks, files_sent.get("sums", []))]
        if differing:
            faults.append("; ".join(differing))
    for name in ("emulator", "kernel") if faults else ():
        if (scratch / name).exists():
            print((scratch / name).read_text(errors="replace")[-3000:], file=sys.stderr)
    for fault in faults:
        print(f"{mode}: {fault}")
    return counted - len(faults), len(faults)


def main():
    words = argparse.ArgumentParser()
    words.add_argument("mode", choices=[*IOMMU])
    words.add_argument("--requests", type=int, default=2000)
    words.add_argument("--seconds", type=int, default=600)
    words.add_argument("--keep", type=pathlib.Path)
    words.add_argument("--figures", action="store_true")
    words = words.parse_args()
    if not shutil.which("qemu-system-x86_64"):
        print("qemu-system-x86_64 isn't there (on Debian and Ubuntu: the package qemu-system-x86)")
        return 77
    for build in ([VFIO / "build.sh", "--host"], [HERE / "build.sh"]):
        built = subprocess.run(build, check=False).returncode
        if built:
            return built
    if not os.access(FOLLOW, os.X_OK):
        print("follow isn't there: examples/vfio/build.sh")
        return 77
    # Each machine has seeds of its own.
    seed = 1 + 2 * [*IOMMU].index(words.mode)
    soaks = [
        Soak("soak", "0000:00:1f.2", seed, words.requests, False),
        Soak("failing", "0000:00:06.0", seed + 1, words.requests, True),
    ]
    with tempfile.TemporaryDirectory() as name:
        scratch = words.keep or pathlib.Path(name)
        root = scratch / "root"
        root.mkdir(parents=True)
        files(root, "figures" if words.figures else words.mode, soaks)
        if words.figures:
            build_replay(root)
        initramfs(scratch, root)
        told = run(words.mode, scratch, soaks, words.seconds)
        if words.figures:
            print(told, end="")
            return 0
        passed, failed = judge(words.mode, scratch, soaks, told)
    print(f"{passed} passed, {failed} failed")
    return failed != 0


if __name__ == "__main__":
    sys.exit(main())
