#!/usr/bin/env bash
# The whole check, which is the verdict: docs/CHECK.md says what its parts are, and scripts/parts.py runs them side by
# side. `scripts/setup.sh` installs what they need. The last line is 'N passed, M failed', of all, with ', K skipped'
# behind it where something was left out for want of a program; what each part took is told, too.
set -euo pipefail
cd "$(dirname "$0")/.."
# `rt ci` would put older libraries back, and the edits are to be tried over those that it makes.
rm -rf crates/*/out/rlib
exec scripts/processor_time.py scripts/parts.py
