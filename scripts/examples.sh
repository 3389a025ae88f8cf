#!/usr/bin/env bash
# Runs the built program as people do: on the sessions in documents and on the cases in examples/cases. BLOCKD names the
# program that is run; without it, it is crates/blockd/out/blockd, which is built anew where it is older than a source.
set -euo pipefail
cd "$(dirname "$0")/.."
blockd=${BLOCKD:-crates/blockd/out/blockd}
# Says whether the program that is built here is older than a source.
is_old() {
    [[ ! -x $blockd || -n $(find crates crates.txt -name out -prune -o -type f -newer "$blockd" -print -quit) ]]
}
if [[ -z ${BLOCKD:-} ]] && is_old; then
    rm -f "$blockd"
    # Without words the program ends at once.
    (cd crates/blockd && rt run >/dev/null 2>&1) || [[ -x $blockd ]]
fi
scripts/changing_images.sh
scripts/limited_runs.sh
scripts/lying_pages.sh
scripts/terminal_run.py "$blockd"
exec scripts/run_cases.py "$blockd" README.md docs/{FORMATS,TUTORIAL}.md \
    examples/cases/*.{session,bad-lines,configurations}
