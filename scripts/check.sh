#!/usr/bin/env bash
# Proves the named crates and all that stand on them, lowest first, over what earlier runs kept: after `scripts/test.sh`
# a first change of a small crate takes about a minute. It is no verdict: scripts/test.sh is.
set -euo pipefail
cd "$(dirname "$0")/.."
if [[ $# == 0 ]]; then
    echo "usage: scripts/check.sh CRATE.." >&2
    exit 2
fi
for crate in $(scripts/toolchain.py above "$@"); do
    echo "== $crate"
    (cd "crates/$crate" && rt check)
done
