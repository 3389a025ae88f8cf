#!/usr/bin/env bash
# Counts instructions of the proved program, and fails where a figure rose by more than 2 in 100 over bench/figures.txt.
# Where there is no valgrind, they are skipped. The last line is 'N passed, M failed', of figures, or 'N passed, M failed,
# K skipped'.
set -euo pipefail
cd "$(dirname "$0")/.."
if ! command -v valgrind >/dev/null; then
    echo "skipped: instructions: valgrind is needed (Debian's package valgrind)"
    echo "0 passed, 0 failed, 1 skipped"
    exit
fi
exec bench/run.py --check
