#!/usr/bin/env bash
# Times the C library against the twin, and prints a Markdown table: medians over
# repeats, of the time on the processor.
#
#   bench/speed.sh [--repeats N]
set -eu

exec "$(dirname "$0")/compare.sh" speed "$@"
