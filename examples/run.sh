#!/usr/bin/env bash
# Makes the image of a disk, and plays a script on it: `run.sh [--proved] [SCRIPT] [--trace]`. SCRIPT is `first`, which
# is played where none is named, `second` or `third`. The program is built without proofs, which takes about a minute;
# with `--proved` each crate below it is proved first, unless this machine has done that, and the program stays as
# crates/blockd/out/blockd.
set -euo pipefail
cd "$(dirname "$0")"
proved=
if [[ ${1:-} == --proved ]]; then
    proved=1
    shift
fi
script=first
if [[ ${1:-} == [a-z]* ]]; then
    script=$1
    shift
fi
./make_image.sh disk.img
words=(--config "$PWD/blockd.toml" --image "$PWD/disk.img" --script "$PWD/$script.script" "$@")
if [[ $proved ]]; then
    cd ../crates/blockd
    exec rt run -- "${words[@]}"
fi
echo "This build of blockd isn't proved: examples/run.sh --proved proves it, and runs it then." >&2
exec ../scripts/run_unproved.sh blockd "${words[@]}"
