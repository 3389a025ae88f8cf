# For scripts that run the built program: a folder of their own with a fresh image, and how what is wanted is compared
# with what is given. Sourced at the top of the repository; BLOCKD names the program, which is `blockd` then.
blockd=$(realpath "${BLOCKD:-crates/blockd/out/blockd}")
scratch=$(mktemp -d)
trap 'rm -rf "$scratch"' EXIT
examples/make_image.sh "$scratch/fresh.img"
cp examples/blockd.toml examples/first.script examples/first.output "$scratch"
cd "$scratch"
passed=0 failed=0

# Compares what is wanted of a run with what it gave.
compare() {
    local name=$1 wanted=$2 given=$3
    if [[ $wanted == "$given" ]]; then
        passed=$((passed + 1))
    else
        printf 'example: %s: wanted\n%s\nbut it was\n%s\n' "$name" "${wanted:0:2000}" "${given:0:2000}"
        failed=$((failed + 1))
    fi
}

# The bytes of a file.
bytes_of() {
    sha256sum <"$1"
}

# Tells how many comparisons there were, by a name, and fails where one came out otherwise.
tell_comparisons() {
    echo "$1: $passed passed, $failed failed"
    [[ $failed == 0 ]]
}
