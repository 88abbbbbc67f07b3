#!/usr/bin/env bash
# Times images off the lock: what a slave's readers take beside a bank's alone, what a submit costs that publishes an image or none, and
# a tool beside threads that read. Prints five tables. Use: docs/measurements/images.sh [BLOCKS]   (50 of them where no number is given)
set -eu
exec "$(dirname "$0")/../../bin/bench" image_times "${1:-50}" 2>&1
