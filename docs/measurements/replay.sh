#!/usr/bin/env bash
# Measures `xcpd replay` beside a plain Rust program: mixed scripts of 100,000, 1,000,000 and 10,000,000 lines, and a script of
# 1,000,000 lines for each kind of line. The two programs run in turn, and the best turn of each counts. `bin/count-instructions`
# counts instructions.
# Use: docs/measurements/replay.sh      from any folder; wants the built program ($XCPD, else out/xcpd), rustc and GNU time.
set -eu
here=$(cd "$(dirname "$0")" && pwd)
top=$(cd "$here/../.." && pwd)
work=$(mktemp -d)
trap 'rm -rf "$work"' EXIT
rustc -O -o "$work/plain" "$here/plain_replay.rs"

script() { # name, lines, and the lines that are said again and again behind CONNECT and a switch to page 1
  local name=$1 lines=$2
  shift 2
  { printf 'FF00\nEB020001\n'; yes "$(printf '%s\n' "$@")" | head -n $((lines - 2)); } >"$work/$name"
}
mix=(F600000000100000 F002ABCD F504 F404000000100000 F408000008100000 FD EA0200 'event 0 0102030405060708' drain EB010001)
script mixed.100000 100000 "${mix[@]}"
script mixed.1000000 1000000 "${mix[@]}"
script mixed.10000000 10000000 "${mix[@]}"
script set_mta 1000000 F600000000100000
script upload 1000000 F600000000100000 F504 F504 F504 F504
script download 1000000 F600000000100000 F004AABBCCDD F004AABBCCDD F004AABBCCDD F004AABBCCDD
script short_upload 1000000 F410000000100000
script get_status 1000000 FD
script set_cal_page 1000000 EB010001
script event 1000000 'event 0 0102030405060708'
script drain 1000000 drain

[ -n "${XCPD:-}" ] || "$top/bin/xcpd" --version >/dev/null
ours=("${XCPD:-$top/out/xcpd}" replay --config "$top/crates/xcpd/data/L.toml")
theirs=("$work/plain")
names=(mixed.1000000 set_mta upload download short_upload get_status set_cal_page event drain)

once() { # script, where its answers go, words: the microseconds that the program takes
  local begun=${EPOCHREALTIME/./}
  "${@:3}" <"$work/$1" >"$work/out.$2"
  echo $((${EPOCHREALTIME/./} - begun))
}
memory() { # script, words: the most memory of the program in kB
  /usr/bin/time -f %M -o "$work/memory" "${@:2}" <"$work/$1" >/dev/null
  cat "$work/memory"
}
printf '%-16s %10s | %10s %8s | %10s %8s | %s\n' script lines 'xcpd, ms' kB 'plain, ms' kB ratio
for name in mixed.100000 mixed.10000000 "${names[@]}"; do
  turns=9
  [ "$name" = mixed.10000000 ] && turns=3
  a=999999999 b=999999999
  for ((i = 0; i < turns; i++)); do
    took=$(once "$name" xcpd "${ours[@]}")
    [ "$took" -lt "$a" ] && a=$took
    took=$(once "$name" plain "${theirs[@]}")
    [ "$took" -lt "$b" ] && b=$took
  done
  cmp "$work/out.xcpd" "$work/out.plain"
  awk -v n="$name" -v l="$(wc -l <"$work/$name")" -v a="$a" -v m="$(memory "$name" "${ours[@]}")" -v b="$b" -v k="$(memory "$name" "${theirs[@]}")" \
    'BEGIN { printf "%-16s %10d | %10.1f %8d | %10.1f %8d | %.2f\n", n, l, a / 1000, m, b / 1000, k, a / b }'
done
