# shellcheck shell=bash
# What bin/xcpd and bin/make-library share, and read by bash's `.`: it proves the crates below one, the lowest first, and says meanwhile
# how far it is. Who reads it has in `top` the tree's top, in `me` the name under which it speaks, and in `log` the file of the build's log.

say() { echo "$me: $*" >&2; }

# The crates of this repository that a crate stands on, itself the last, each behind those that it uses.
crates() { # the crate
  awk -v last="$1" '
    function visit(name, below, count, at) {
      if (done[name]++) return
      count = split(uses[name], below, " ")
      for (at = 1; at <= count; at++) if (below[at] in uses) visit(below[at])
      print name
    }
    { sub(/#.*/, "") }
    /:/ { at = index($0, ":"); uses[$1 ~ /:/ ? substr($1, 1, index($1, ":") - 1) : $1] = substr($0, at + 1) }
    END { visit(last) }' "$top/crates.txt"
}

# How many jobs a crate's proofs get: one for each core, as far as free memory allows 1.5 GB for each.
jobs_at_once() {
  local cores room
  cores=$(nproc 2>/dev/null) || cores=1
  room=$(awk '/^MemAvailable:/ { print int($2 / 1500000) }' /proc/meminfo 2>/dev/null)
  [ "${room:-1}" -ge "$cores" ] || cores=$room
  echo $((cores > 1 ? cores : 1))
}

leavings=() # what an interrupted run removes

# An interrupted run ends with all that it started, and leaves what stood before.
interrupted() {
  trap - INT TERM HUP
  for job in $(jobs -p); do kill -TERM "$job" 2>/dev/null || true; done
  wait || true
  rm -rf "${leavings[@]}"
  kill -s "$1" $$
}

# Says what the log tells of: which crate is being proved, or what it waits for. At a terminal it says each of them, and
# anywhere that the build is alive, every five minutes or as many seconds as XCPD_SAY_EVERY has.
follow() {
  local now shown='' told=$SECONDS minutes
  while sleep 0.5 2>/dev/null; do
    now=$(sed -n "s|^$me: at |at |p; s/^rt: waiting/waiting/p" "$log" | tail -n 1)
    if ! { [ -t 2 ] && [ "$now" != "$shown" ]; } && [ $((SECONDS - told)) -lt "${XCPD_SAY_EVERY:-300}" ]; then continue; fi
    shown=$now told=$SECONDS minutes=$((SECONDS / 60))
    say "$now, after $minutes minute$([ "$minutes" = 1 ] || echo s)"
  done
}

# Runs rt in the folder of a crate. A kit that doesn't know the flag for jobs ends with status 2, as where it judged nothing:
# then, and from then on, rt chooses them.
in_crate() { # the crate, rt's command and more of its words
  local crate=$1 command=$2 status=0
  shift 2
  (cd "$top/crates/$crate" && exec rt "$command" "${jobs[@]}" "$@") >>"$log" 2>&1 </dev/null 9>&- &
  wait "$!" || status=$?
  if [ "$status" -ne 2 ] || [ ${#jobs[@]} -eq 0 ]; then return "$status"; fi
  jobs=()
  in_crate "$crate" "$command" "$@"
}

# Proves each library below a crate, the lowest first, and then the crate itself: rt's flag for jobs is for all of them.
prove() { # the crate, rt's command for it and more of its words
  local all crate proved=0 jobs=(--jobs "$(jobs_at_once)")
  mapfile -t all < <(crates "$1")
  for crate in "${all[@]}"; do
    echo "$me: at $crate; $proved of ${#all[@]} crates are proved" >>"$log"
    if [ "$crate" = "$1" ]; then break; fi
    in_crate "$crate" lib || return
    proved=$((proved + 1))
  done
  in_crate "$@"
}

# Begins the log, and runs a command of a build that says meanwhile how far it is.
telling() {
  local teller status=0
  : >"$log"
  SECONDS=0
  follow 9>&- >/dev/null &
  teller=$!
  "$@" || status=$?
  kill "$teller" && wait "$teller" 2>/dev/null
  return "$status"
}

# Says what of the log isn't proved or isn't built, or with which status rt ended where it says nothing of that.
tell_faults() { # rt's status
  local told
  told=$(grep -E '(^|: )error(\[[^]]*\])?: |: not proved|: no proof|did not build' "$log" | awk '!seen[$0]++' | cut -c 1-300 | head -n 40)
  echo "${told:-"rt ended with status $1, and says of no function that it isn't proved"}" >&2
  say "not built; the whole log is $log"
}
