#!/usr/bin/env bash
# What to run ten times a day: `quick.sh [CRATE..]`. It proves the named crates, or else those that changed since main,
# lowest first, over what earlier runs kept, and tries their edits, without those that this machine refused before of
# the same function, definitions and contracts. Beside that it builds the program without proofs, and plays all cases by
# it. After a change of one function in an upper crate it takes under two minutes, once it has run there before. It
# is no verdict: scripts/test.sh is.
set -euo pipefail
cd "$(dirname "$0")/.."

base=$(git merge-base HEAD main 2>/dev/null || echo HEAD)
mapfile -t changed < <(
    if [[ $# != 0 ]]; then
        printf '%s\n' "$@"
    else
        {
            git diff --name-only "$base" -- crates
            git ls-files --others --exclude-standard -- crates
        } | cut -d/ -f2 | sort -u
    fi
)
# As crates.txt has them: a crate stands behind those that it uses.
mapfile -t crates < <(sed -n 's/^\([a-z]\w*\):.*/\1/p' crates.txt | grep -Fx -f <(printf '%s\n' "${changed[@]}"))
scratch=$(mktemp -d)
trap 'kill $(jobs -p) 2>/dev/null || true; rm -rf "$scratch"' EXIT

# Plays all cases by a program that is built without proofs.
play_cases() {
    scripts/compile_unproved.py blockd "$scratch/blockd" &&
        scripts/run_cases.py "$scratch/blockd" README.md docs/{FORMATS,TUTORIAL}.md \
            examples/cases/*.{session,bad-lines,configurations}
}

play_cases >"$scratch/played" 2>&1 &
edited=()
for crate in "${crates[@]}"; do
    echo "== $crate"
    (cd "crates/$crate" && rt fmt && rt check)
    [[ ! -d crates/$crate/edits ]] || edited+=("$crate")
done
if [[ ${#edited[@]} != 0 ]]; then
    scripts/edits.py --kept "${edited[@]}"
fi
status=0
wait $! || status=$?
cat "$scratch/played"
exit "$status"
