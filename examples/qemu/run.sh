#!/usr/bin/env bash
# Plays a script over the ICH9 AHCI adapter of QEMU, while the model follows each access: `run.sh [--proved] CONFIG
# SCRIPT IMAGE..`. The images, one to four, are those of the ports from 0 on. Each is copied: QEMU writes one copy, and
# the model the other, and where nothing strayed the copies are compared at the end, byte by byte. The status is 0 where
# all went well, 77 where QEMU isn't there, and else another.
#
# The program `follow` is built without proofs, which takes about a minute. With `--proved` each crate below it is
# proved first, unless crates/follow/out/follow is there. FOLLOW names another program. SECONDS_AT_MOST says how long
# QEMU may run (600). QEMU_DRIVES has what stands before the file of each port's -drive option, parted by spaces, as
# `blkdebug:FILE:`. QTEST_LOG names a file for QEMU's own log of the accesses.
set -euo pipefail
here=$(cd "$(dirname "$0")" && pwd)

if ! command -v qemu-system-x86_64 >/dev/null; then
    echo "qemu-system-x86_64 isn't there: install QEMU (on Debian and Ubuntu the package qemu-system-x86)" >&2
    exit 77
fi
proved=
if [[ ${1:-} == --proved ]]; then
    proved=1
    shift
fi
if [[ $# -lt 3 || $# -gt 6 ]]; then
    echo "run.sh [--proved] CONFIG SCRIPT IMAGE.." >&2
    exit 2
fi
config=$(realpath "$1") script=$(realpath "$2")
shift 2
if [[ ${FOLLOW:-} ]]; then
    program=("$FOLLOW")
elif [[ $proved ]]; then
    program=("$here/../../crates/follow/out/follow")
    if [[ ! -x ${program[0]} ]]; then
        echo "follow isn't there: it is proved and built now, which takes a while" >&2
        # Without words the program ends at once.
        (cd "$here/../../crates/follow" && rt run >/dev/null 2>&1) || [[ -x ${program[0]} ]]
    fi
else
    echo "This build of follow isn't proved: examples/qemu/run.sh --proved proves it, and runs it then." >&2
    program=("$here/../../scripts/run_unproved.sh" follow)
fi

scratch=$(mktemp -d)
qemu=
# Ends what was started here, and nothing else.
clean() {
    [[ -z $qemu ]] || kill "$qemu" 2>/dev/null || true
    [[ -z $qemu ]] || wait "$qemu" 2>/dev/null || true
    rm -rf "$scratch"
}
trap clean EXIT

# What an image's disk says that it is, as the model's disk of this port does.
serials=(IMAGEDISK IMAGEDISK1 IMAGEDISK2 IMAGEDISK3)
read -ra drives <<<"${QEMU_DRIVES:-}"
options=() models=()
port=0
for image in "$@"; do
    cp --sparse=always "$image" "$scratch/qemu$port.img"
    cp --sparse=always "$image" "$scratch/model$port.img"
    models+=("$scratch/model$port.img")
    # A flush doesn't wait for the machine's own disk.
    options+=(-drive "if=none,id=disk$port,format=raw,cache=unsafe,file=${drives[$port]:-}$scratch/qemu$port.img")
    options+=(-device "ide-hd,drive=disk$port,bus=ide.$port,serial=${serials[$port]}")
    port=$((port + 1))
done

mkfifo "$scratch/to" "$scratch/from"
# The processor of the machine never runs: what is written to `to` makes each access.
timeout --kill-after=5 "${SECONDS_AT_MOST:-600}" \
    qemu-system-x86_64 -machine q35,accel=tcg -S -nodefaults -display none -m 16 \
    -qtest stdio -qtest-log "${QTEST_LOG:-/dev/null}" "${options[@]}" \
    <"$scratch/to" >"$scratch/from" 2>"$scratch/said" &
qemu=$!
exec 3>"$scratch/to" 4<"$scratch/from"

# Sends a line of the qtest protocol, and reads its answer.
ask() {
    echo "$1" >&3
    read -r answer <&4 || answer=nothing
    [[ $answer == OK* ]] || { echo "QEMU answered $answer to $1" >&2; cat "$scratch/said" >&2; exit 1; }
}

# The adapter is function 2 of device 31 on bus 0. Its registers are put at FEBF0000h (BAR 5), and memory decoding and
# bus mastering switched on.
registers=febf0000
ask "outl 0xcf8 0x8000fa00"
ask "inl 0xcfc"
[[ $answer == *29228086 ]] || { echo "no ICH9 AHCI adapter: $answer" >&2; exit 1; }
ask "outl 0xcf8 0x8000fa24"
ask "outl 0xcfc 0x$registers"
ask "outl 0xcf8 0x8000fa04"
ask "outw 0xcfc 0x6"

# A PC has other things than memory in bytes A0000h to FFFFFh. They are made memory, since the server's frames begin at
# 0: by PAM0 to PAM6, and by the SMRAM register with D_OPEN set (Intel 3 Series, 5.1.22 to 5.1.29; remembered).
ask "outl 0xcf8 0x80000090"
ask "outl 0xcfc 0x33333330"
ask "outl 0xcf8 0x80000094"
ask "outl 0xcfc 0x00333333"
ask "outl 0xcf8 0x8000009c"
ask "outb 0xcfd 0x4a"

status=0
"${program[@]}" "$config" "$script" "$scratch/to" "$scratch/from" "$registers" "${models[@]}" || status=$?
exec 3>&- 4<&-
cat "$scratch/said" >&2
if [[ $status == 0 ]]; then
    # It writes its images before it ends.
    kill "$qemu" && wait "$qemu" 2>/dev/null || true
    qemu=
    for number in "${!models[@]}"; do
        if ! cmp "$scratch/qemu$number.img" "${models[$number]}"; then
            status=1
        fi
    done
fi
exit "$status"
