#!/usr/bin/env bash
# Builds the program `host`, which is linked statically, as out/host; and the proved program `follow`, which takes a
# while where it isn't there yet. `build.sh --host` builds the first alone. Cargo and Rust 1.80 or later are needed. The
# status is 77 where they aren't there.
set -euo pipefail
cd "$(dirname "$0")"
if ! command -v cargo >/dev/null; then
    echo "cargo isn't there: install Rust" >&2
    exit 77
fi
triple=$(rustc -vV | sed -n 's/^host: //p')
(cd host && RUSTFLAGS="-C target-feature=+crt-static" \
    cargo build --quiet --release --offline --locked --target "$triple" --target-dir ../out/target)
# Several machines may be made at a time: each finds the program whole.
cp "out/target/$triple/release/host" "out/host.$$"
mv "out/host.$$" out/host
if [[ ${1:-} == --host || -x ../../crates/follow/out/follow ]]; then
    exit
fi
echo "follow isn't there: it is proved and built now, which takes a while" >&2
cd ../../crates/follow
# Without words the program ends at once.
rt run >/dev/null 2>&1 || [[ -x out/follow ]]
