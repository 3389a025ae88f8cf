#!/bin/sh
# Plays a script over the disk for which prepare.sh wrote the folder, and whose adapter take.sh took: `run.sh FOLDER
# SCRIPT [WORDS..]`, with further words for `host`. It prints what each line of the script answers; what `host` says
# goes to FOLDER/said. The status is 0 where the script was played to its end and nothing strayed. FOLLOW and HOST name
# other programs than crates/follow/out/follow and out/host; FRAMES says how many frames the configuration has (512).
set -eu
here=$(cd "$(dirname "$0")" && pwd)
host=${HOST:-$here/out/host} follow=${FOLLOW:-$here/../../crates/follow/out/follow}
[ $# -ge 2 ] || { echo "run.sh FOLDER SCRIPT [WORDS..]" >&2; exit 1; }
folder=$1 script=$2
shift 2
# A run over several disks has neither file: each disk has the serial number that `follow` knows, and its own port.
[ ! -e "$folder/serial" ] || set -- --serial "$(cat "$folder/serial")" "$@"
[ ! -e "$folder/port" ] || set -- --port "$(cat "$folder/port")" "$@"
rm -f "$folder/to" "$folder/from"
mkfifo "$folder/to" "$folder/from"

# Plays the script. Where that fails before the pipes are opened, host is let go.
play() {
    follow_process='' status=0
    trap 'kill $follow_process 2>/dev/null; exit 143' TERM
    "$follow" "$folder/config" "$script" "$folder/to" "$folder/from" f0000000 "$folder"/disk*.img &
    follow_process=$!
    wait $follow_process || status=$?
    if [ $status != 0 ]; then
        timeout 2 sh -c ": >'$folder/to'" || true
        timeout 2 sh -c ": <'$folder/from'" || true
    fi
    return $status
}

host_process='' play_process=''
trap 'kill $host_process $play_process 2>/dev/null' INT TERM
"$host" "$(cat "$folder/function")" "${FRAMES:-512}" "$folder/to" "$folder/from" "$@" 2>"$folder/said" &
host_process=$!
play &
play_process=$!
echo "$host_process" >"$folder/host.process"
status=0 ended=0
wait "$host_process" || ended=$?
if [ "$ended" != 0 ]; then
    # It ended before it opened the pipes, or was killed: then follow finds that it has gone.
    sleep 1
    kill "$play_process" 2>/dev/null || true
fi
wait "$play_process" || status=$?
rm -f "$folder/to" "$folder/from" "$folder/host.process"
grep -E 'told as|and not|shown otherwise|: [A-Z][A-Za-z]+: ' "$folder/said" >&2 || true
if [ "$ended" != 0 ]; then
    tail -n 1 "$folder/said" >&2
    exit 1
fi
[ "$status" = 0 ] || echo "run.sh: follow ended with $status: docs/HARDWARE.md says what a stray means" >&2
exit "$status"
