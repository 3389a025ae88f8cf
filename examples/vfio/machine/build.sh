#!/usr/bin/env bash
# Makes what the machine runs, of the distribution's packages: its kernel, as ../out/machine/vmlinuz, and the first
# files that it has, as ../out/machine/base.cpio.gz, with busybox and the modules for VFIO, ATA, SCSI, a file system and
# the bus beside the adapter. What is there is kept. The status is 77 where the packages can't be had.
set -euo pipefail
cd "$(dirname "$0")"
out=$PWD/../out/machine
if [[ -e $out/base.cpio.gz && -e $out/vmlinuz ]]; then
    exit
fi
scratch=$(mktemp -d)
trap 'rm -rf "$scratch"' EXIT

# The package that the distribution's name for its kernel stands for now.
kernel=$(apt-cache depends linux-image-amd64 2>/dev/null | sed -n 's/^ *Depends: \(linux-image-[0-9].*\)$/\1/p')
kernel=${kernel%%$'\n'*}
if [[ -z $kernel ]]; then
    echo "no package of a kernel is known here (apt-get update; linux-image-amd64 is Debian's)" >&2
    exit 77
fi
cd "$scratch"
if ! timeout 100 apt-get download -qq "$kernel" busybox-static >said 2>&1; then
    cat said >&2
    echo "the packages $kernel and busybox-static can't be had" >&2
    exit 77
fi
for package in *.deb; do
    dpkg-deb -x "$package" unpacked
done
version=$(basename unpacked/boot/vmlinuz-*)
version=${version#vmlinuz-}
busybox=$scratch/unpacked/bin/busybox

mkdir -p root/bin "root/lib/modules/$version"
cp "$busybox" root/bin/

# Copies a module, and those that it names, without what compresses it.
add() {
    local file
    [[ ! -e root/lib/modules/$version/$1.ko ]] || return 0
    file=$(find unpacked/lib/modules/ unpacked/usr/lib/modules/ -name "$1.ko*" -print -quit 2>/dev/null || true)
    # What the kernel has built in isn't there.
    [[ $file ]] || return 0
    case $file in
        *.xz) xz -dc "$file" ;;
        *.zst) zstd -dcq "$file" ;;
        *) cat "$file" ;;
    esac >"root/lib/modules/$version/$1.ko"
    for needed in $(grep -aoP '(?<=\0depends=|^depends=)[^\0]*' "root/lib/modules/$version/$1.ko" | tr , ' '); do
        add "$needed"
        add "${needed//_/-}"
    done
}
for module in vfio-pci vfio_iommu_type1 ahci sd_mod ext4 crc32c_generic i2c-i801; do
    add "$module"
done
"$busybox" depmod -b root "$version" 2>/dev/null || "$busybox" depmod -b "$scratch/root" "$version"
mkdir -p "$out"
(cd root && find . | "$busybox" cpio -o -H newc 2>/dev/null | gzip -1) >"$out/base.cpio.gz.$$"
cp unpacked/boot/vmlinuz-* "$out/vmlinuz.$$"
mv "$out/vmlinuz.$$" "$out/vmlinuz"
mv "$out/base.cpio.gz.$$" "$out/base.cpio.gz"
