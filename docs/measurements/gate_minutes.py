#!/usr/bin/env python3
"""gate_minutes.py [LOG]: runs .ci/run and tells, for each crate, the processor minutes of its proof, its tests and its named edits,
and the size of the files that the checker leaves of its library.

Run it from the repository's root, on Linux, with nothing else running. The gate's own output goes to LOG (default:
gate.log in the folder for temporary files). Each second it reads from /proc how much processor time each prover below
the gate has used, and which crate it works on: those of `rt ci`, and those of bin/named-edits behind it. What a prover uses in its last
second is not counted. The sizes are of crates/NAME/out/rlib as it is at the end; a program leaves none. Last it tells the cores, and the
load average at the beginning, in the middle and at the end.
"""
import collections
import os
import subprocess
import sys
import tempfile
import time

TICKS = os.sysconf("SC_CLK_TCK")


def words_of(pid):
    with open(f"/proc/{pid}/cmdline", "rb") as file:
        return file.read().decode(errors="replace").split("\0")


def ticks_of(pid):
    with open(f"/proc/{pid}/stat") as file:
        fields = file.read().rsplit(")", 1)[1].split()
    return int(fields[11]) + int(fields[12]), int(fields[1])


def kind_of(pid, words):
    # (bin/named-edits checks a copy of a crate in a temporary folder of its own)
    if "/named-edits-" in os.readlink(f"/proc/{pid}/cwd"):
        return "edits"
    return "tests" if "--test" in words else "proof"


def size_of(crate):
    """The megabytes of the files of a crate's library."""
    files = [os.path.join(here, name) for here, _, names in os.walk(f"crates/{crate}/out/rlib") for name in names]
    return sum(map(os.path.getsize, files)) / 1e6


def sampled(root, seen):
    parents, found = {}, {}
    for name in filter(str.isdigit, os.listdir("/proc")):
        try:
            ticks, parent = ticks_of(name)
            parents[int(name)] = parent
            words = words_of(name)
            if "--crate-name" in words:
                found[int(name)] = ((words[words.index("--crate-name") + 1], kind_of(name, words)), ticks)
        except (OSError, ValueError, IndexError):
            continue
    for pid, (what, ticks) in found.items():
        above = pid
        while above in parents and above != root:
            above = parents[above]
        if above == root:
            seen[pid, what] = ticks


def main():
    log = sys.argv[1] if len(sys.argv) > 1 else os.path.join(tempfile.gettempdir(), "gate.log")
    begun, seen, loads = time.monotonic(), {}, [os.getloadavg()[0]]
    with open(log, "w") as out:
        gate = subprocess.Popen(["bash", ".ci/run"], stdin=subprocess.DEVNULL, stdout=out, stderr=subprocess.STDOUT)
        while gate.poll() is None:
            sampled(gate.pid, seen)
            loads.append(os.getloadavg()[0])
            time.sleep(1)
    minutes = collections.defaultdict(lambda: collections.defaultdict(float))
    for (_, (crate, kind)), ticks in seen.items():
        minutes[crate][kind] += ticks / TICKS / 60
    print("| crate | proof | tests | edits | MB |\n|---|---|---|---|---|")
    for crate in sorted(minutes):
        cells = [*(minutes[crate][kind] for kind in ("proof", "tests", "edits")), size_of(crate)]
        print(f"| `{crate}` | " + " | ".join(f"{it:.1f}" for it in cells) + " |")
    whole = [*(sum(it[kind] for it in minutes.values()) for kind in ("proof", "tests", "edits")), sum(map(size_of, minutes))]
    print("| together | " + " | ".join(f"{it:.1f}" for it in whole) + " |")
    print(f"status {gate.returncode} after {(time.monotonic() - begun) / 60:.1f} minutes on {len(os.sched_getaffinity(0))} cores")
    middle = loads[len(loads) // 2]
    print(f"load average {loads[0]:.1f} at the beginning, {middle:.1f} in the middle, {os.getloadavg()[0]:.1f} at the end")
    return gate.returncode


if __name__ == "__main__":
    sys.exit(main())
