#!/bin/sh
# Compares the first 16 MiB of the disk for which prepare.sh wrote the folder with the model's copy: `compare.sh
# FOLDER`. Linux has to have the disk again; it is found by its adapter, port and serial number, since its name may be
# another one.
set -eu
here=$(cd "$(dirname "$0")" && pwd)
host=${HOST:-$here/out/host}
[ $# = 1 ] || { echo "compare.sh FOLDER" >&2; exit 1; }
folder=$1
wanted="$(cat "$folder/function") $(cat "$folder/port") $(cat "$folder/serial")"

# Compares the disk where it is this one.
compare() {
    "$host" describe "$1" >/dev/null 2>"$folder/described" || return 1
    read -r function port sectors serial <"$folder/described"
    [ "$function $port $serial" = "$wanted" ] || return 1
    blockdev --flushbufs "/dev/$1"
    dd if="/dev/$1" bs=1M count=16 2>/dev/null |
        cmp -n $((512 * sectors < 16777216 ? 512 * sectors : 16777216)) - "$folder/disk.img" || exit 1
    echo "compare.sh: $1 is as the model's copy"
    exit
}

# The disks of an adapter that was just given back take a while.
for _ in $(seq 100); do
    for disk in /sys/bus/pci/devices/"$(cat "$folder/function")"/ata*/host*/target*/*/block/*; do
        ! compare "${disk##*/}" || exit
    done
    sleep 0.2
done
echo "compare.sh: there is no disk $wanted" >&2
exit 1
