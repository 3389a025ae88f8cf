#!/usr/bin/env bash
# Installs what the check runs beside the toolchain, on Debian, by apt-get: valgrind, a C compiler, and QEMU. Where
# something can't be had it says so, and the check counts what needs it as skipped. (The tests behind VFIO want Rust
# 1.80 or later, too, which Debian 12 doesn't have; the machine that they run takes its kernel and its busybox from
# Debian's packages by itself.)
set -euo pipefail
wanted=()
# What a program is, and the package that has it.
while read -r program package; do
    command -v "$program" >/dev/null || wanted+=("$package")
done <<'END'
cc gcc
valgrind valgrind
qemu-system-x86_64 qemu-system-x86
END
if [[ ${#wanted[@]} == 0 ]]; then
    exit
fi
if ! command -v apt-get >/dev/null || [[ $EUID != 0 ]]; then
    echo "setup.sh: as root on Debian it would install ${wanted[*]}" >&2
    exit
fi
export DEBIAN_FRONTEND=noninteractive
said=$(mktemp)
trap 'rm -f "$said"' EXIT
if ! { apt-get update && apt-get install -y --no-install-recommends "${wanted[@]}"; } >"$said" 2>&1; then
    tail -n 5 "$said" >&2
    echo "setup.sh: ${wanted[*]} can't be installed here" >&2
fi
