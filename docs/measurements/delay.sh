#!/usr/bin/env bash
# Measures how long after its event a data packet of `xcpd serve` is written: 500 cycles of one task, one every 5 ms, beside a tool
# that reads. Prints how many packets there were, and the least, the middle, the 99th of a hundred and the greatest delay. Beside it, by
# turns, the same of a plain program that does nothing but wake a thread, which writes (plain_wakes.rs), as the slave has to.
# Use: docs/measurements/delay.sh [TURNS]   from any folder; wants the built program ($XCPD, else out/xcpd), rustc and cc. TURNS is 3.
set -eu
here=$(cd "$(dirname "$0")" && pwd)
top=$(cd "$here/../.." && pwd)
work=$(mktemp -d)
trap 'kill $(jobs -p) 2>/dev/null || true; rm -rf "$work"' EXIT
rustc -O -o "$work/tool" "$here/plain_tool.rs"
rustc -O -o "$work/wakes" "$here/plain_wakes.rs"
cc -O2 -shared -fPIC -o "$work/delay.so" "$here/delay.c" -ldl
[ -n "${XCPD:-}" ] || "$top/bin/xcpd" --version >/dev/null
program=${XCPD:-$top/out/xcpd}

told() {
  sort -n "$work/delays" | awk -v of="$1" '{ a[NR] = $1 } END {
    printf "%s: %d packets, us: least %.0f, middle %.0f, 99 of 100 at most %.0f, greatest %.0f\n", of, NR, a[1], a[int((NR + 1) / 2)], a[int(NR * 0.99)], a[NR] }'
  rm -f "$work/delays"
}

for _turn in $(seq "${1:-3}"); do
  port=$((10000 + RANDOM % 20000))
  LD_PRELOAD=$work/delay.so DELAY_FILE=$work/delays \
    "$program" serve --config "$top/crates/xcpd/data/L.toml" --port "$port" --tasks 1 --cycles 500 --period 5 >"$work/out" 2>&1 &
  for _ in $(seq 50); do
    grep -q listening "$work/out" && break
    sleep 0.1
  done
  "$work/tool" data "$port" 490 >/dev/null
  wait $! || { cat "$work/out" >&2; exit 1; }
  told "serve"
  LD_PRELOAD=$work/delay.so DELAY_FILE=$work/delays "$work/wakes" 490
  told "a wake"
done
