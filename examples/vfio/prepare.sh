#!/bin/sh
# Looks at a disk that Linux has, as sdb, and writes what a run over it needs to a folder: `prepare.sh DISK FOLDER`.
# That is the configuration, with the grants of examples/qemu/first.script; the disk's function, port and serial number;
# and the model's copy of the disk, which has its first 16 MiB and is empty behind them. Nothing is written to the disk.
set -eu
here=$(cd "$(dirname "$0")" && pwd)
host=${HOST:-$here/out/host}
[ $# = 2 ] || { echo "prepare.sh DISK FOLDER, as prepare.sh sdb work" >&2; exit 1; }
disk=${1#/dev/} folder=$2
mkdir -p "$folder"
"$host" unused "/dev/$disk"
"$host" describe "$disk" >"$folder/config" 2>"$folder/described" || { cat "$folder/described" >&2; exit 1; }
read -r function port sectors serial <"$folder/described"
echo "$function" >"$folder/function"
echo "$port" >"$folder/port"
echo "$serial" >"$folder/serial"
rm -f "$folder/disk.img"
dd if="/dev/$disk" of="$folder/disk.img" bs=1M count=16 2>/dev/null
truncate -s $((512 * sectors)) "$folder/disk.img"
echo "prepare.sh: $disk is port $port of $function, with $sectors sectors and the serial number $serial"
