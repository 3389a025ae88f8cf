#!/usr/bin/env bash
# Runs the built program over an image that changes, or that the system lets it write in part, while it runs; and where
# standard input, output or error is closed. BLOCKD names the program; without it, it is crates/blockd/out/blockd.
# scripts/examples.sh calls this.
set -euo pipefail
cd "$(dirname "$0")/.."
source scripts/comparing.sh

# A sector of an image that is zeros.
clear_sector() {
    head -c 512 /dev/zero | dd of="$1" bs=512 seek="$2" conv=notrunc status=none
}

# Plays two parts of a script with many answers between them, which wait to be read while something is done: tells what
# was told of the first part, and of the second. The program has opened the image by then, and can't go on to the second
# part before. `limit` is how long a file it may write, in units of 1024 bytes: past it, a write fails where the signal
# for this is ignored.
limit=unlimited
played_around() {
    local first=$1 second=$2
    (printf '%b' "$first"; yes 'state 0' | head -n 10000; printf '%b' "$second") >around.script
    shift 2
    rm -f answers
    mkfifo answers
    (
        trap '' XFSZ
        ulimit -S -f "$limit"
        exec "$blockd" --config blockd.toml --image disk.img --script around.script --trace
    ) >answers &
    exec 3<answers
    while read -r line <&3 && [[ $line != 'state Ready' ]]; do
        echo "$line"
    done
    "$@" $!
    grep -v '^state Ready$' <&3
    exec 3<&-
    wait $!
}

# Ten bytes of sector 103 are left.
cut_disk() {
    truncate -s $((512 * 103 + 10)) disk.img
}

cp fresh.img disk.img
compare 'a read of an image that was cut' 'move 0 0 identify 0 00012000
ok 1
move 0 0 read 100 0004c000
move 0 0 read 101 0004c200
move 0 0 read 102 0004c400
did
no
no
move 0 0 log 0 00012000
reply 1 DeviceError 41 40' \
    "$(played_around '' 'read 1 0 100 8 76\ndev finish 0 0\ndev finish 0 0\ndev move 0 0\nservice\n' cut_disk)"
compare 'it is as long as it was cut' $((512 * 103 + 10)) "$(stat -c %s disk.img)"
cp fresh.img disk.img
compare 'a write to an image that was cut' 'move 0 0 identify 0 00012000
stored
ok 1
move 0 0 write 103 0004c000
did
reply 1 Ok
ok 2
move 0 0 read 103 0004d000
did
reply 2 Ok
bytes c0c0' \
    "$(played_around '' 'store 1 76 0 c0c0\nwrite 1 0 103 1 76\ndev finish 0 0\nservice\n'\
'read 1 0 103 1 77\ndev finish 0 0\nservice\nload 1 77 0 2\n' cut_disk)"
compare 'it is longer again' $((512 * 104)) "$(stat -c %s disk.img)"

# The file may be written up to the end of sector 101, and then further.
lift_limit() {
    prlimit --pid "$1" --fsize=unlimited
}

cp fresh.img disk.img
cp fresh.img wanted.img
for sector in 100 101; do
    clear_sector wanted.img $sector
done
compare 'a write that the system refuses fails, and its client is told' 'move 0 0 identify 0 00012000
ok 1
move 0 0 write 100 0004c000
move 0 0 write 101 0004c200
did
no
no
move 0 0 log 0 00012000
reply 1 DeviceError 41 40
no
no
quiet' \
    "$(limit=51
    played_around 'write 1 0 100 3 76\ndev finish 0 0\ndev finish 0 0\ndev move 0 0\nservice\ndev done 0 0\n' \
        'dev finish 0 0\nservice\n' lift_limit)"
compare 'and the sector that was left is as it was' "$(bytes_of wanted.img)" "$(bytes_of disk.img)"
compare 'an image that is not there is not made' $'blockd: image\nnot there' \
    "$(
        "$blockd" --config blockd.toml --image missing.img --script /dev/null 2>&1 || true
        [[ -e missing.img ]] || echo 'not there'
    )"
compare 'an image that runs' 'blockd: image' \
    "$("$blockd" --config blockd.toml --image "$blockd" --script /dev/null 2>&1 || true)"

# Some of the program's first three files are closed: the image must not come in their place, where output would be
# written into it.
printf 'load 1 76 0 64\n%.0s' {1..3000} >loads.script
zeros=$(printf '00%.0s' {1..64})
wanted_loads=$(printf "bytes $zeros\n%.0s" {1..3000}; echo 'status 0')
echo 'no line' >bad.script
closed() {
    local script=$1 status=0
    : >printed
    (
        exec >printed 2>&1
        for number in "${@:2}"; do
            eval "exec $number<&-"
        done
        exec "$blockd" --config blockd.toml --image disk.img --script "$script"
    ) || status=$?
    cat printed
    echo "status $status"
}
cp fresh.img disk.img
compare 'standard input is closed' "$wanted_loads" "$(closed loads.script 0)"
compare 'standard output is closed' 'status 1' "$(closed loads.script 1)"
compare 'standard error is closed' "$wanted_loads" "$(closed loads.script 2)"
compare 'all three are closed' 'status 1' "$(closed loads.script 0 1 2)"
compare 'a bad line, and standard error is closed' 'status 3' "$(closed bad.script 2)"
compare 'a bad line, and all three are closed' 'status 3' "$(closed bad.script 0 1 2)"
compare 'the image is as it was' "$(bytes_of fresh.img)" "$(bytes_of disk.img)"

tell_comparisons images
