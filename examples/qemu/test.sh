#!/usr/bin/env bash
# Runs the program `follow` over QEMU's adapter: a script, whose answers are known, and random requests, on disks that
# don't fail and on disks that do. Where QEMU isn't installed, all three are skipped. It takes some ten seconds once the
# program is built. The last line is 'N passed, M failed', or 'N passed, M failed, K skipped'.
set -euo pipefail
cd "$(dirname "$0")"

passed=0 failed=0
if ! command -v qemu-system-x86_64 >/dev/null; then
    echo "skipped: QEMU's adapter: QEMU is needed (Debian's package qemu-system-x86)"
    echo "0 passed, 0 failed, 3 skipped"
    exit 0
fi

# Counts a run by its status.
count() {
    if "$@"; then passed=$((passed + 1)); else failed=$((failed + 1)); fi
}

# Plays the script, and compares what is answered.
plays() {
    ../make_image.sh "$scratch/disk.img" &&
        ./run.sh --proved qemu.toml first.script "$scratch/disk.img" >"$scratch/output" &&
        diff first.output "$scratch/output"
}

scratch=$(mktemp -d)
trap 'rm -rf "$scratch"' EXIT
count plays
count ./soak.py --requests 12000
count ./soak.py --requests 5000 --failures
echo "$passed passed, $failed failed"
[[ $failed == 0 ]]
