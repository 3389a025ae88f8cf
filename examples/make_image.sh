#!/usr/bin/env bash
# Makes the image of a disk with 256 sectors of 512 bytes: each byte of sector k is k.
set -euo pipefail
image=${1:?usage: make_image.sh FILE}
for sector in $(seq 0 255); do
    head -c 512 /dev/zero | tr '\0' "\\$(printf '%03o' "$sector")"
done > "$image"
