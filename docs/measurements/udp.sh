#!/usr/bin/env bash
# Measures `xcpd serve --stay` over UDP, beside the same over TCP, and beside a plain Rust slave over UDP of two threads
# (plain_datagrams.rs): how long a tool waits for an answer, and how much processor time one takes; how many data packets of 250 bytes come
# in a second, where events are raised without a pause, one and five to an event, how many of a thousand are lost on their way, by the slave's
# CTR, and how much processor time each takes; and how long after its event a data packet is written, one every 5 ms. The best of so many turns,
# of the last row the middle one of 490 packets.
# Use: docs/measurements/udp.sh [TURNS]   from any folder; wants the built program ($XCPD, else out/xcpd), rustc and cc. TURNS is 5.
set -eu
here=$(cd "$(dirname "$0")" && pwd)
top=$(cd "$here/../.." && pwd)
turns=${1:-5}
work=$(mktemp -d)
trap 'kill $(jobs -p) 2>/dev/null || true; rm -rf "$work"' EXIT
rustc -O -o "$work/plain" "$here/plain_datagrams.rs"
cc -O2 -shared -fPIC -o "$work/delay.so" "$here/delay.c" -ldl
[ -n "${XCPD:-}" ] || "$top/bin/xcpd" --version >/dev/null
program=${XCPD:-$top/out/xcpd}
export MALLOC_ARENA_MAX=1
mkfifo "$work/in"
exec 6<>"$work/in"
cat >"$work/layout.toml" <<END
id = "MEASURED"
max_cto = 32
max_dto = 255
[[segment]]
address = 0x1000
data = "$(printf '%0512d' 0)"
[signals]
address = 0x8000
length = 8
[[event]]
name = "event"
END

# measured SLAVE PERIOD MODE WORD..: a slave (udp, tcp or plain) whose task has this period in milliseconds, or none with -, and what the tool prints
measured() {
  local slave=$1 period=$2 mode=$3 kind=udp port words=()
  shift 3
  port=$((10000 + RANDOM % 20000))
  if [ "$slave" = plain ]; then
    words=("$work/plain" slave "$port" "$([ "$period" = - ] && echo 1000000 || echo $((1000 * period)))")
  else
    words=("$program" serve --stay --config "$work/layout.toml" --port "$port")
    if [ "$period" = - ]; then words+=(--tasks 0); else words+=(--tasks 1 --period "$period"); fi
    if [ "$slave" = udp ]; then words+=(--udp); else kind=tcp; fi
  fi
  "${words[@]}" <&6 >"$work/out" 2>"$work/err" &
  for _ in $(seq 100); do
    grep -q listening "$work/out" && break
    sleep 0.05
  done
  LD_PRELOAD='' "$work/plain" $kind "$mode" "$port" $! "$@"
  [ "$slave" = plain ] || echo stop >&6
  wait $! || { cat "$work/out" "$work/err" >&2; exit 1; }
}

# best WORD..: the same so many times: of trips the fastest, of data the most
best() {
  local order=-n
  [ "$3" = data ] && order=-rn
  for _ in $(seq "$turns"); do measured "$@"; done | sort $order | head -n 1
}

# delay SLAVE: the microseconds from an event to its datagram or write, the middle one of 490
delay() {
  rm -f "$work/delays"
  (export LD_PRELOAD=$work/delay.so DELAY_FILE=$work/delays && measured "$1" 5 data 2450 1 2) >/dev/null
  sort -n "$work/delays" | awk '{ a[NR] = $1 } END { print a[int((NR + 1) / 2)] }'
}

row() { # what is measured, and the figures of UDP, TCP and the plain slave
  awk -v h="$1" -v u="$2" -v t="$3" -v p="$4" 'function of(a, b) { return b == 0 ? "-" : sprintf("%.2f", a / b) }
    BEGIN { printf "%-50s %12s %12s %12s %8s %9s\n", h, u, t, p, of(u, t), of(u, p) }'
}

figure() { # the slave, and which of the figures that were told of it
  cut -d ' ' -f "$2" "$work/of_$1"
}

rows() { # what was measured: of each slave the first figure, which is a time or a number, and the last, which is a time
  row "$1" "$(figure udp 1)" "$(figure tcp 1)" "$(figure plain 1)"
  [ -z "$3" ] || row "$3" "$(figure udp 2)" "$(figure tcp 2)" "$(figure plain 2)"
  row "$2" "$(figure udp "$4")" "$(figure tcp "$4")" "$(figure plain "$4")"
}

printf '%-50s %12s %12s %12s %8s %9s\n' '' 'UDP' 'TCP' 'plain, UDP' 'to TCP' 'to plain'
for slave in udp tcp plain; do best $slave - trips 50000 >"$work/of_$slave"; done
rows 'a tool that waits for each answer, ns an answer' '  processor time, ns an answer' '' 2
for odts in 1 5; do
  for slave in udp tcp plain; do best $slave 0 data 2000 $odts 250 >"$work/of_$slave"; done
  rows "data packets of 250 bytes a second, $odts an event" '  processor time, ns each' '  lost on their way, of a thousand' 3
done
for slave in udp tcp plain; do delay $slave >"$work/of_$slave"; done
row 'from an event to its data packet, us' "$(figure udp 1)" "$(figure tcp 1)" "$(figure plain 1)"
