#!/usr/bin/env bash
# Measures `xcpd serve` over TCP beside a plain Rust slave of one thread: round trips of one tool without tasks, and
# beside six tasks that each have a cycle every millisecond; and commands that are sent behind one another. Then `serve` over a desk,
# in one thread and without a lock (`bench/desk_over_tcp`), beside the same. The best of seven runs of 30,000 commands each (the
# journal takes 65,536 calls). `bin/count-instructions` counts instructions.
# Use: docs/measurements/serve.sh      from any folder; wants the built program ($XCPD, else out/xcpd), bin/bench's desk_over_tcp, and rustc.
set -eu
here=$(cd "$(dirname "$0")" && pwd)
top=$(cd "$here/../.." && pwd)
work=$(mktemp -d)
trap 'kill $(jobs -p) 2>/dev/null || true; rm -rf "$work"' EXIT
rustc -O -o "$work/tool" "$here/plain_tool.rs"
config=$top/crates/xcpd/data/L.toml
port=$((20000 + RANDOM % 20000))
times=30000

best() { # how the tool asks, and the words of the program that answers, where PORT stands for the port
  local how=$1 least=999999999 took word
  shift
  for _ in 1 2 3 4 5 6 7; do
    port=$((port + 1))
    local words=()
    for word in "$@"; do words+=("${word/PORT/$port}"); done
    "${words[@]}" >"$work/out" 2>&1 &
    took=$("$work/tool" "$how" "$port" "$times")
    wait $! || { cat "$work/out" >&2; exit 1; }
    [ "$took" -lt "$least" ] && least=$took
  done
  echo "$least"
}

row() { # what the tool does, and the microseconds of the program and of the plain slave
  awk -v h="$1" -v a="$2" -v b="$3" -v n="$times" 'BEGIN { printf "%-22s %14.2f %14.2f %8.2f\n", h, a / n, b / n, a / b }'
}

[ -n "${XCPD:-}" ] || "$top/bin/xcpd" --version >/dev/null
xcpd=("${XCPD:-$top/out/xcpd}" serve --config "$config" --port PORT)
printf '%-22s %14s %14s %8s\n' 'the tool' 'xcpd, us each' 'plain, us each' ratio
plain=$(best trips "$work/tool" slave PORT)
row trips "$(best trips "${xcpd[@]}" --tasks 0)" "$plain"
row 'trips beside six tasks' "$(best trips "${xcpd[@]}" --tasks 6 --period 1 --cycles 1000)" "$plain"
pipe=$(best pipe "$work/tool" slave PORT)
row pipe "$(best pipe "${xcpd[@]}" --tasks 0)" "$pipe"
desk=("$("$top/bin/bench" --path desk_over_tcp)" "$config" PORT)
row 'trips, by a desk' "$(best trips "${desk[@]}")" "$plain"
row 'pipe, by a desk' "$(best pipe "${desk[@]}")" "$pipe"
