#!/usr/bin/env bash
# Measures the large class: what a submit takes that publishes an image of 65,536 or 1,048,576 bytes, and a reader's copy of it
# (bin/bench image_times), beside a plain Rust program that keeps its image behind an ArcSwap or a lock (`plain_images.rs`); and how many
# bytes of data packets a server sends in a second (`large.py`).
# Use: docs/measurements/large.sh [BLOCKS]   from any folder (10 of them where no number is given); wants the built program ($XCPD, else
# out/xcpd), rustc, and the source of the crate arc-swap, as Debian's librust-arc-swap-dev has it.
set -eu
here=$(cd "$(dirname "$0")" && pwd)
top=$(cd "$here/../.." && pwd)
work=$(mktemp -d)
trap 'rm -rf "$work"' EXIT
source=$(ls -d /usr/share/cargo/registry/arc-swap-* | tail -n 1)
rustc -O --edition 2018 --cap-lints allow --crate-type rlib --crate-name arc_swap -o "$work/libarc_swap.rlib" "$source/src/lib.rs"
rustc -O --edition 2021 --extern arc_swap="$work/libarc_swap.rlib" -o "$work/plain" "$here/plain_images.rs"
for bytes in 65536 1048576; do
  echo "images of $bytes bytes"
  "$top/bin/bench" image_times "${1:-10}" "$bytes" 2>&1
  "$work/plain" "$bytes" 100
done
"$here/large.py"
