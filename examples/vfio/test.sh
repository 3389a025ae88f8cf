#!/usr/bin/env bash
# The server on a PCI adapter behind Linux's VFIO: what take.sh refuses, the host's tests and hosts that are wrong, and
# then a machine of QEMU's with Intel's IOMMU, one with AMD's, and one with none, side by side (machine/machine.py),
# which play four soaks of 2,000 requests, two of them over disks that fail. What isn't there, as Rust, QEMU, or the
# packages of which the machine is made, is skipped. The last line is 'N passed, M failed', or 'N passed, M failed, K
# skipped'.
set -euo pipefail
cd "$(dirname "$0")"
scratch=$(mktemp -d)
trap 'rm -rf "$scratch"' EXIT
passed=0 failed=0 skipped=0

# Counts what a part told, whose status this is. Status 77 says that it was left out.
count() {
    local name=$1 status=$2
    echo "$name:"
    cat "$scratch/$name"
    if [[ $status == 77 ]]; then
        echo "skipped: a PCI adapter, $name: Rust 1.80 or later is needed"
        skipped=$((skipped + 1))
    elif [[ $(tail -n 1 "$scratch/$name") =~ ^([0-9]+)\ passed,\ ([0-9]+)\ failed$ ]]; then
        passed=$((passed + BASH_REMATCH[1])) failed=$((failed + BASH_REMATCH[2]))
        [[ $status == 0 || ${BASH_REMATCH[2]} != 0 ]] || failed=$((failed + 1))
    else
        failed=$((failed + 1))
    fi
}

# Runs a part to its end, and keeps what it told.
run() {
    local name=$1 status=0
    shift
    "$@" >"$scratch/$name" 2>&1 || status=$?
    echo "$status" >"$scratch/$name.status"
}

# Makes the programs and what the machine runs, before the machines begin side by side.
make_machine() {
    command -v qemu-system-x86_64 >/dev/null || return 77
    ./build.sh --host && machine/build.sh && ./build.sh
}

run machine make_machine
parts=(refusals wrong_hosts)
run refusals ./refusals.sh &
run wrong_hosts ./wrong_hosts.py &
made=$(cat "$scratch/machine.status")
if [[ $made == 0 ]]; then
    for mode in intel amd none; do
        parts+=("$mode")
        run "$mode" machine/machine.py "$mode" --requests 2000 --seconds 300 &
    done
elif [[ $made == 77 ]]; then
    cat "$scratch/machine"
    echo "skipped: machines with a PCI adapter: Rust 1.80 or later, QEMU (Debian's package qemu-system-x86), and" \
        "the packages linux-image-amd64 and busybox-static, which are fetched, are needed"
    skipped=$((skipped + 3))
else
    parts+=(machine)
fi
wait
for name in "${parts[@]}"; do
    count "$name" "$(cat "$scratch/$name.status")"
done
echo "$passed passed, $failed failed$([[ $skipped == 0 ]] || echo ", $skipped skipped")"
[[ $failed == 0 ]]
