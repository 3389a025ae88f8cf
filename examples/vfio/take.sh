#!/bin/sh
# Takes a PCI AHCI function, as 0000:00:17.0, from the driver that it has, and binds it to vfio-pci: `take.sh FUNCTION`;
# or gives it back: `take.sh --back FUNCTION`. It does nothing, and says why, where a disk of the function is mounted or
# in use, where its IOMMU group isn't viable, where no IOMMU is on, and where a reserved region lies over the frames.
# SYS and PROC name other places than /sys and /proc, FRAMES how many frames there are (512), and HOST the program that
# says whether a block device is in use.
set -eu
here=$(cd "$(dirname "$0")" && pwd)
sys=${SYS:-/sys} proc=${PROC:-/proc} host=${HOST:-$here/out/host}
frames=${FRAMES:-512}

refuse() {
    echo "take.sh: $*" >&2
    exit 1
}

# Prints the last part of what a link names; nothing where there is no link.
linked() {
    [ ! -e "$1" ] || basename "$(readlink "$1")"
}

# Takes the function from the driver that it has, and has the one that is named take it: any, where none is.
bind() {
    [ ! -e "$function/driver" ] || echo "$name" >"$function/driver/unbind"
    echo "$1" >"$function/driver_override"
    echo "$name" >"$sys/bus/pci/drivers_probe"
}

# Prints the block devices of the function's disks.
disks() {
    for disk in "$function"/ata*/host*/target*/*/block/*; do
        [ ! -e "$disk" ] || echo "$disk"
    done
}

# Refuses a block device, a disk or a part of one, that somebody has.
unused() {
    if grep -q "^[0-9]* [0-9]* $(cat "$1/dev") " "$proc/self/mountinfo" ||
        grep -q " - [^ ]* /dev/${1##*/} " "$proc/self/mountinfo"; then
        refuse "${1##*/}, a disk of $name or a part of one, is mounted"
    fi
    ! grep -q "^/dev/${1##*/} " "$proc/swaps" || refuse "${1##*/}, a disk of $name or a part of one, is used for swap"
    for holder in "$1"/holders/*; do
        [ ! -e "$holder" ] || refuse "${1##*/}, a disk of $name or a part of one, belongs to ${holder##*/}"
    done
}

# Refuses a function of which a disk is in use: all its disks go with it.
disks_unused() {
    for disk in $(disks); do
        for device in "$disk" "$disk/${disk##*/}"*; do
            [ ! -e "$device/dev" ] || unused "$device"
        done
        # Whoever else has it, has it for himself.
        "$host" unused "/dev/${disk##*/}" || refuse "a disk of $name is in use"
    done
}

# Refuses a group of which the driver of another function would have to go, too.
viable() {
    for other in "$group"/devices/*; do
        driver=$(linked "$other/driver")
        case $driver in
            '' | vfio-pci | pci-stub | pcieport) continue ;;
        esac
        [ "${other##*/}" != "$name" ] || continue
        refuse "IOMMU group ${group##*/} isn't viable: ${other##*/} in it is $driver's" \
            "(if nothing needs it: echo ${other##*/} >/sys/bus/pci/drivers/$driver/unbind)"
    done
}

# Refuses a group in which bus addresses of the frames are reserved, or that firmware wants for itself.
unreserved() {
    while read -r first last kind; do
        case $kind in
            direct-relaxable) continue ;;
            direct) refuse "firmware reserves $first to $last for $name (RMRR), so that Linux doesn't give it away" ;;
        esac
        [ $((first)) -ge $((4096 * frames)) ] || refuse "a reserved region, $first to $last, lies over the frames"
    done <"$group/reserved_regions"
}

back=
if [ "${1:-}" = --back ]; then
    back=1
    shift
fi
[ $# = 1 ] || refuse "take.sh [--back] FUNCTION, as 0000:00:17.0"
name=$1 function=$sys/bus/pci/devices/$1
[ -e "$function" ] || refuse "there is no PCI function $name"
if [ "$back" ]; then
    bind ahci
    # Others may have it from now on.
    echo >"$function/driver_override"
    [ "$(linked "$function/driver")" = ahci ] || refuse "$name isn't ahci's: modprobe ahci"
    # The disks take a while.
    for _ in $(seq 100); do
        [ -z "$(disks)" ] || break
        sleep 0.2
    done
    echo "take.sh: $name is ahci's again, with $(disks | sed 's:.*/::' | tr '\n' ' ')"
    exit
fi
case $(cat "$function/class") in
    0x010601) ;;
    0x0104*) refuse "$name is in RAID mode: AHCI mode is chosen in the firmware" ;;
    *) refuse "$name is no AHCI adapter (class $(cat "$function/class"))" ;;
esac
[ -e "$function/iommu_group" ] || refuse "no IOMMU is on: VT-d or AMD-Vi in the firmware, intel_iommu=on for the kernel"
group=$sys/kernel/iommu_groups/$(linked "$function/iommu_group")
[ "$(cat "$group/name" 2>/dev/null)" != vfio-noiommu ] || refuse "no IOMMU is on, and none is behind $name's group"
viable
unreserved
disks_unused
modprobe vfio-pci 2>/dev/null || true
modprobe vfio_iommu_type1 2>/dev/null || true
[ -e "$sys/bus/pci/drivers/vfio-pci" ] || refuse "there is no vfio-pci: modprobe vfio-pci"
bind vfio-pci
if [ "$(linked "$function/driver")" != vfio-pci ]; then
    bind ''
    refuse "vfio-pci doesn't take $name, which is $(linked "$function/driver")'s again"
fi
echo "take.sh: $name is vfio-pci's, in IOMMU group ${group##*/}"
