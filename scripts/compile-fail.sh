#!/usr/bin/env bash
# Tries the edits crates/NAME/compile-fail/*.edit, each on a copy of the repository: the compiler must refuse each with
# the error that the edit's line 'error: CODE' names. They are what `rt must-fail` can't hold, since it wants edits that
# compile. The other lines are as in must-fail: 'file: src/lib.rt', then pairs 'old: TEXT' and 'new: TEXT', where TEXT
# is one line that stands once in the file.
set -euo pipefail
cd "$(dirname "$0")/.."

scratch=$(mktemp -d)
trap 'rm -rf "$scratch"' EXIT
tar --exclude=out -cf - HANDLES crates.txt crates | tar -xf - -C "$scratch"

# Replaces a text that stands once in a file.
replace() {
    local file=$1 old=$2 new=$3 content
    content=$(<"$file")
    local rest=${content#*"$old"}
    if [[ $rest == "$content" || $rest == *"$old"* ]]; then
        echo "'$old' doesn't stand once in $file"
        return 1
    fi
    printf '%s%s%s\n' "${content%%"$old"*}" "$new" "$rest" >"$file"
}

# Applies an edit to a crate's folder.
apply() {
    local edit=$1 crate=$2 file='' old='' line
    while IFS= read -r line; do
        case $line in
            'file: '*) file=$crate/${line#file: } ;;
            'old: '*) old=${line#old: } ;;
            'new: '*) replace "$file" "$old" "${line#new: }" || return 1 ;;
        esac
    done <"$edit"
}

# Says what the compiler answers to a crate with an edit.
answer() {
    local edit=$1 crate=$2
    apply "$edit" "$crate" && (cd "$crate" && rt check 2>&1)
}

passed=0 failed=0
for edit in crates/*/compile-fail/*.edit; do
    [[ -e $edit ]] || continue
    name=${edit#crates/}
    crate=${name%%/*}
    name=$crate/${edit##*/}
    code=$(sed -n 's/^error: //p' "$edit")
    said=$(answer "$edit" "$scratch/crates/$crate") || true
    if [[ -n $code && $said == *"error[$code]"* ]]; then
        echo "compile-fail: $name: refused, as it must be: $code"
        passed=$((passed + 1))
    else
        echo "compile-fail: $name: NOT refused with '$code':"
        head -n 5 <<<"$said"
        failed=$((failed + 1))
    fi
    rm -rf "$scratch/crates/$crate"
    tar --exclude=out -cf - "crates/$crate" | tar -xf - -C "$scratch"
done
echo "compile-fail: $passed passed, $failed failed"
[[ $failed == 0 ]]
