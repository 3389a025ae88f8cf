#!/usr/bin/env bash
# Runs the built program where something is short or taken: memory, the stack, room on the output's device, or the
# image. BLOCKD names the program; without it, it is crates/blockd/out/blockd. scripts/examples.sh calls this.
set -euo pipefail
cd "$(dirname "$0")/.."
source scripts/comparing.sh

# A grant of 256 sectors, and 32 frames for them.
sed 's/^first = 100$/first = 0/; s/^count = 64$/count = 256/' blockd.toml >wide.toml
frames=$(seq -s , 76 107)

# So many reads of 256 sectors, one after another.
reads() {
    for ((k = 0; k < $1; k++)); do
        printf 'read 1 0 0 256 %s\ndev finish 0 0\nservice\n' "$frames"
    done
}

# What so many reads print.
read_answers() {
    for ((k = 1; k <= $1; k++)); do
        printf 'ok %d\ndid\nreply %d Ok\n' "$k" "$k"
    done
}

# Runs a script over the image, and ends with a line that says how it ended.
ends() {
    local status=0
    "$blockd" --config "$1" --image "$2" --script "$3" 2>&1 || status=$?
    echo "status $status"
}

cp fresh.img disk.img
reads 4000 >reads.script
read_answers 4000 >reads.output
compare '4,000 reads of 256 sectors in 300 MB' "$(cat reads.output; echo 'status 0')" \
    "$(ulimit -v 300000; ends wide.toml disk.img reads.script)"

# Memory is refused in the midst of a run: the lines before are answered, in whole lines, and none after.
reads 40000 >many.script
starved=$(ulimit -v 120000; ends wide.toml disk.img many.script)
compare 'memory is refused' $'blockd: no memory\nstatus 1' "$(tail -n 2 <<<"$starved")"
lines=$(($(wc -l <<<"$starved") - 2))
compare 'some lines were answered' 'yes' "$([[ $lines -gt 1000 && $lines -lt 120000 ]] && echo yes || echo "$lines")"
compare 'the lines before are answered' "$(read_answers 40000 | head -n "$lines" | sha256sum)" \
    "$(head -n "$lines" <<<"$starved" | sha256sum)"

# A script of many lines is no want of memory.
printf 'state 0\n%.0s' {1..100000} >states.script
compare '100,000 lines' "$({ printf 'state Ready\n%.0s' {1..100000}; echo 'status 0'; } | sha256sum)" \
    "$(ends blockd.toml disk.img states.script | sha256sum)"

# Nor are the largest values that the formats allow, all at once: four ports, eight clients, 64 grants, 1,024 frames,
# and a script of ten million bytes.
{
    printf 'frames = 1024\nslots = 32\nncq = true\ndepth = 32\ntrim = "full"\n'
    printf '[[port]]\nnumber = %d\n' {0..3}
    for client in {1..8}; do
        printf '[[client]]\nid = %d\nfirst_frame = %d\nframes = 118\n' "$client" $((76 + 118 * (client - 1)))
        for number in {0..7}; do
            printf '[[grant]]\nclient = %d\nnumber = %d\nport = %d\nfirst = 0\ncount = 256\nrights = "rwtf"\n' \
                "$client" "$number" $((number % 4))
        done
    done
} >largest.toml
head -c 10000000 < <(yes 'state 0') >long.script
compare 'the largest of all' "$({ head -c 15000000 < <(yes 'state Ready'); echo 'status 0'; } | sha256sum)" \
    "$(ends largest.toml disk.img long.script | sha256sum)"

# Words too many are a bad command line, and no want of memory either.
words() {
    local status=0
    "$blockd" "$@" 2>&1 || status=$?
    echo "status $status"
}
compare '128 words' $'blockd: bad command line\nstatus 2' \
    "$(words --config blockd.toml --image disk.img --script first.script --trace {8..128})"

# The stack is small.
cp fresh.img disk.img
compare 'a stack of 80 KiB' "$(cat first.output; echo 'status 0')" \
    "$(ulimit -s 80; ends blockd.toml disk.img first.script)"

# The output's device is full: the image is what the lines before left, and no later line is played.
cp fresh.img disk.img
(
    printf 'store 1 76 0 c0c0\nwrite 1 0 100 1 76\ndev finish 0 0\nservice\n'
    printf 'state 0\n%.0s' {1..10000}
    printf 'store 1 76 0 d1d1\nwrite 1 0 101 1 76\ndev finish 0 0\nservice\n'
) >writes.script
status=0
"$blockd" --config blockd.toml --image disk.img --script writes.script >/dev/full 2>told || status=$?
compare 'a full device' 'status 1' "$(cat told; echo "status $status")"
cp fresh.img wanted.img
{ printf '\xc0\xc0'; head -c 510 /dev/zero; } | dd of=wanted.img bs=512 seek=100 conv=notrunc status=none
compare 'the image is as the lines before left it' "$(bytes_of wanted.img)" "$(bytes_of disk.img)"

# Another run has the image: it waits for its output to be read.
cp fresh.img disk.img
cp fresh.img other.img
mkfifo answers
"$blockd" --config blockd.toml --image disk.img --script states.script >answers &
exec 3<answers
read -r -u 3 _first
compare 'an image that a run has' $'blockd: image\nstatus 1' "$(ends blockd.toml disk.img first.script)"
compare 'another image' "$(cat first.output; echo 'status 0')" "$(ends blockd.toml other.img first.script)"
cat <&3 >/dev/null
exec 3<&-
wait $!
compare 'and when that run has ended' "$(cat first.output; echo 'status 0')" "$(ends blockd.toml disk.img first.script)"

# The system fails the lock, with an error that is put before it where a compiler is at hand: the image is used without
# a lock only where the system says that it knows none.
locks_fail_by() {
    printf '#include <errno.h>\nint flock(int file, int how) { errno = %s; return -1; }\n' "$1" >lock.c
    cc -shared -fPIC -o lock.so lock.c
}
if command -v cc >/dev/null; then
    for error in ENOSYS EOPNOTSUPP; do
        cp fresh.img disk.img
        locks_fail_by "$error"
        compare "no locks are known: $error" "$(cat first.output; echo 'status 0')" \
            "$(export LD_PRELOAD=./lock.so; ends blockd.toml disk.img first.script)"
    done
    cp fresh.img disk.img
    for error in ENOLCK EIO; do
        locks_fail_by "$error"
        compare "a lock that fails: $error" $'blockd: image\nstatus 1' \
            "$(export LD_PRELOAD=./lock.so; ends blockd.toml disk.img first.script)"
    done
    compare 'and the image is as it was' "$(bytes_of fresh.img)" "$(bytes_of disk.img)"
else
    echo 'limited runs: locks that fail are left out, since there is no compiler' >&2
fi

# A block device is an image, where the system lets one be made.
cp fresh.img disk.img
if device=$(losetup --find --show disk.img 2>/dev/null); then
    given=$(ends blockd.toml "$device" first.script)
    sync "$device"
    losetup --detach "$device"
    compare 'a block device' "$(cat first.output; echo 'status 0')" "$given"
    compare 'is written' "$(bytes_of other.img)" "$(bytes_of disk.img)"
else
    echo 'limited runs: a block device is left out, since none can be made here' >&2
fi

tell_comparisons 'limited runs'
