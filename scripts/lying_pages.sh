#!/usr/bin/env bash
# Runs the built program over a disk that lies of each byte of a page in turn: of IDENTIFY DEVICE, whose sum covers all
# bytes where its last word says so; and of log 10h, whose sum covers all bytes. BLOCKD names the program; without it,
# it is crates/blockd/out/blockd. scripts/examples.sh calls this.
set -euo pipefail
cd "$(dirname "$0")/.."
source scripts/comparing.sh

# Plays a script over a fresh image, and tells what is printed and how it ended.
played() {
    local status=0
    cp fresh.img disk.img
    "$blockd" --config blockd.toml --image disk.img --script "$1" 2>&1 || status=$?
    echo "status $status"
}

# Byte 510 is A5h where there is a sum (ACS-3, 7.12.7.85).
for ((offset = 0; offset < 512; offset++)); do
    printf 'dev lie 0 id %d 01\nreset\nstate 0\ndev truth 0\n' "$offset" >&3
    state='Unfit 1'
    if ((offset == 510)); then
        state=Ready
    fi
    printf 'did\ndone\nstate %s\ndid\n' "$state"
done >identity.wanted 3>identity.script
compare 'a page of IDENTIFY DEVICE with a bit turned, in each byte' \
    "$(cat identity.wanted; echo 'status 0')" "$(played identity.script)"

# Nobody is named, so nobody is told a fault, and all three are issued again, in slots 0 to 2.
for ((offset = 0; offset < 512; offset++)); do
    printf 'dev lie 0 log %d 01\n' "$offset" >&3
    printf 'read 1 0 %d 8 %d\n' 100 76 108 77 116 78 >&3
    printf 'dev fetch 0 1\ndev fault 0 1 40\nservice\n' >&3
    printf 'dev finish 0 %d\n' 0 1 2 >&3
    printf 'service\ndev truth 0\n' >&3
    id=$((3 * offset + 1))
    printf 'did\nok %d\nok %d\nok %d\ndid\ndid\nquiet\n' "$id" $((id + 1)) $((id + 2))
    printf 'did\ndid\ndid\nreply %d Ok\nreply %d Ok\nreply %d Ok\ndid\n' "$id" $((id + 1)) $((id + 2))
done >log.wanted 3>log.script
compare 'a page of log 10h with a bit turned, in each byte' \
    "$(cat log.wanted; echo 'status 0')" "$(played log.script)"

tell_comparisons 'lying pages'
