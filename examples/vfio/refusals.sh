#!/usr/bin/env bash
# What take.sh refuses, and what it does, over folders that stand for /sys and /proc. The last line is 'N passed, M
# failed'.
set -euo pipefail
cd "$(dirname "$0")"
scratch=$(mktemp -d)
trap 'rm -rf "$scratch"' EXIT
passed=0 failed=0
name=0000:00:17.0
device=devices/pci0000:00/$name

# Makes an adapter of ahci's with the disk sdb, which has one part, in a group with a bridge of its own.
make() {
    rm -rf "$scratch/sys" "$scratch/proc"
    mkdir -p "$scratch"/sys/bus/pci/{devices,drivers/ahci,drivers/vfio-pci} "$scratch/proc/self" "$scratch/programs"
    cd "$scratch/sys"
    mkdir -p "$device/ata3/host2/target2:0:0/2:0:0:0/block/sdb/"{holders,sdb1/holders} "devices/pci0000:00/0000:00:1c.0"
    mkdir -p kernel/iommu_groups/7/devices
    ln -s "../../../$device" "bus/pci/devices/$name"
    ln -s ../../../bus/pci/drivers/ahci "$device/driver"
    ln -s "../../../kernel/iommu_groups/7" "$device/iommu_group"
    ln -s "../../../../$device" "kernel/iommu_groups/7/devices/$name"
    echo 0x010601 >"$device/class"
    disk=$device/ata3/host2/target2:0:0/2:0:0:0/block/sdb
    echo 8:16 >"$disk/dev"
    echo 8:17 >"$disk/sdb1/dev"
    printf '0x00000000 0x00ffffff direct-relaxable\n0xfee00000 0xfeefffff msi\n' >kernel/iommu_groups/7/reserved_regions
    printf '#!/bin/sh\n' >"$scratch/programs/host"
    printf '#!/bin/sh\n' >"$scratch/programs/modprobe"
    chmod +x "$scratch/programs/"*
    echo "23 1 8:1 / / rw - ext4 /dev/sda1 rw" >"$scratch/proc/self/mountinfo"
    echo "Filename Type Size Used Priority" >"$scratch/proc/swaps"
    cd - >/dev/null
}

# Takes the function of this adapter, and tells what is said.
take() {
    PATH=$scratch/programs:$PATH SYS=$scratch/sys PROC=$scratch/proc HOST=$scratch/programs/host ./take.sh "$@" 2>&1
}

# Whether take.sh refuses, with these words, and leaves the function to ahci.
refuses() {
    local text=$1 said
    shift
    if said=$(take "${@:-$name}") || [[ $said != *"$text"* || -e $scratch/sys/$device/driver_override ]]; then
        echo "take.sh said $said, in place of $text"
        failed=$((failed + 1))
    else
        passed=$((passed + 1))
    fi
    make
}

make
refuses "there is no PCI function 0000:00:18.0" 0000:00:18.0
echo 0x010400 >"$scratch/sys/$device/class"
refuses "is in RAID mode"
echo 0x010802 >"$scratch/sys/$device/class"
refuses "is no AHCI adapter (class 0x010802)"
rm "$scratch/sys/$device/iommu_group"
refuses "no IOMMU is on"
echo vfio-noiommu >"$scratch/sys/kernel/iommu_groups/7/name"
refuses "no IOMMU is on"
mkdir -p "$scratch/sys/kernel/iommu_groups/7/devices/0000:00:17.1"
mkdir -p "$scratch/drivers/i801_smbus"
ln -s "$scratch/drivers/i801_smbus" "$scratch/sys/kernel/iommu_groups/7/devices/0000:00:17.1/driver"
refuses "IOMMU group 7 isn't viable: 0000:00:17.1 in it is i801_smbus's"
echo "0x00080000 0x0009ffff reserved" >>"$scratch/sys/kernel/iommu_groups/7/reserved_regions"
refuses "a reserved region, 0x00080000 to 0x0009ffff, lies over the frames"
echo "0x7b800000 0x7fffffff direct" >>"$scratch/sys/kernel/iommu_groups/7/reserved_regions"
refuses "(RMRR)"
echo "24 1 8:17 / /home rw - ext4 /dev/disk/by-label/home rw" >>"$scratch/proc/self/mountinfo"
refuses "sdb1, a disk of $name or a part of one, is mounted"
echo "24 1 0:31 / /home rw - btrfs /dev/sdb1 rw" >>"$scratch/proc/self/mountinfo"
refuses "sdb1, a disk of $name or a part of one, is mounted"
echo "/dev/sdb1 partition 1024 0 -2" >>"$scratch/proc/swaps"
refuses "sdb1, a disk of $name or a part of one, is used for swap"
mkdir "$scratch/sys/$device/ata3/host2/target2:0:0/2:0:0:0/block/sdb/holders/dm-0"
refuses "sdb, a disk of $name or a part of one, belongs to dm-0"
printf '#!/bin/sh\nexit 1\n' >"$scratch/programs/host"
refuses "a disk of $name is in use"
rmdir "$scratch/sys/bus/pci/drivers/vfio-pci"
refuses "there is no vfio-pci"

# What nothing speaks against is taken, beside a bridge; no kernel binds it here, so that it is given back to any
# driver.
bridge=$scratch/sys/kernel/iommu_groups/7/devices/0000:00:1c.0
mkdir -p "$scratch/drivers/pcieport" "$bridge"
ln -s "$scratch/drivers/pcieport" "$bridge/driver"
said=$(take "$name") || true
override=$(cat "$scratch/sys/$device/driver_override")
if [[ $said == *"vfio-pci doesn't take $name, which is ahci's again" && ! $override ]]; then
    passed=$((passed + 1))
else
    echo "take.sh said $said, and leaves $override"
    failed=$((failed + 1))
fi
ln -sfn ../../../bus/pci/drivers/vfio-pci "$scratch/sys/$device/driver"
said=$(take "$name") || true
override=$(cat "$scratch/sys/$device/driver_override")
if [[ $said == "take.sh: $name is vfio-pci's, in IOMMU group 7" && $override == vfio-pci ]]; then
    passed=$((passed + 1))
else
    echo "take.sh said $said, and leaves $override"
    failed=$((failed + 1))
fi
echo "$passed passed, $failed failed"
[[ $failed == 0 ]]
