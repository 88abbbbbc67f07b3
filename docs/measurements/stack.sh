#!/bin/bash
# Tells how much stack the program needs (kB, by halves): `replay` with each layout file that is shipped, and with the
# deepest keys, arrays and tables that the reader accepts; and `serve` with the shipped ones, six tasks that cut chapters,
# and two tools that connect, and so with `--stay`, where it is told to stop.
here=$(cd "$(dirname "$0")/../.." && pwd)
room=$(mktemp -d)
trap 'rm -rf "$room"' EXIT
program=${1:-$here/out/xcpd}
[ -x "$program" ] || { echo "start bin/xcpd once, so that $program stands, or name the built program" >&2; exit 2; }

key=$(printf 'a.%.0s' {1..79})a
python3 - "$room" "$key" <<'END'
import sys
room, key = sys.argv[1:]
open(f"{room}/key.toml", "w").write(f"{key} = 1\n")
open(f"{room}/arrays.toml", "w").write("a = " + "[" * 80 + "]" * 80 + "\n")
open(f"{room}/tables.toml", "w").write("a = " + f"{{ {key} = " * 80 + "1" + " }" * 80 + "\n")
END

# Whether the program ends by itself, however it answers, with so much stack.
stands() { (ulimit -s "$2" && "$program" replay --config "$1" </dev/null >/dev/null 2>&1; [ $? -lt 128 ]) 2>/dev/null; }

for file in "$here/crates/xcpd/data/L.toml" "$here/crates/xcpd/data/engine.toml" "$room"/key.toml "$room"/arrays.toml "$room"/tables.toml; do
  low=16 high=8192
  stands "$file" $high || { echo "$(basename "$file"): more than $high kB"; continue; }
  while [ $((high - low)) -gt 8 ]; do
    middle=$(((low + high) / 2))
    if stands "$file" $middle; then high=$middle; else low=$middle; fi
  done
  echo "$(basename "$file"): $high kB"
done

# Whether `serve` ends by itself so, with these words, with its tools answered or not.
serves() {
  local port=$((20000 + RANDOM % 20000)) process status
  : >"$room/out" # what it said with another stack counts for nothing
  (ulimit -s "$2" && exec timeout 10 "$program" serve --config "$1" --port $port --tools 2 --tasks 6 "${@:3}") \
    >"$room/out" 2>/dev/null < <(sleep 1 && echo stop) &
  process=$!
  for _ in $(seq 60); do
    if grep -q listening "$room/out" || ! kill -0 $process 2>/dev/null; then break; fi
    sleep 0.05
  done
  for _ in 1 2; do
    (exec 3<>/dev/tcp/127.0.0.1/$port && printf '\x02\x00\x00\x00\xff\x00' >&3 && timeout 3 head -c 12 <&3 >/dev/null) 2>/dev/null
  done
  wait $process 2>/dev/null
  status=$?
  [ $status -lt 124 ]
}

for words in "--cycles 20 --chapter 5" --stay; do
  for file in "$here/crates/xcpd/data/L.toml" "$here/crates/xcpd/data/engine.toml"; do
    name="serve $words, $(basename "$file")" low=16 high=8192
    # shellcheck disable=SC2086 # several words
    serves "$file" $high $words 2>/dev/null || { echo "$name: more than $high kB"; continue; }
    while [ $((high - low)) -gt 8 ]; do
      middle=$(((low + high) / 2))
      # shellcheck disable=SC2086
      if serves "$file" $middle $words 2>/dev/null; then high=$middle; else low=$middle; fi
    done
    echo "$name: $high kB"
  done
done
