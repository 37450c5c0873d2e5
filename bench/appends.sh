#!/usr/bin/env bash
# Prints how many puts a second 1, 2 and 4 threads append to one history, from the least of five runs each. The time is that of a
# whole test of 200,000 puts: each thread makes its puts and appends them by a pass of its own, and then a pass that only reads
# meets the others, takes a copy of all entries and compares their order. Then how long a look takes that nobody contends, which
# takes the turn, reads the number of entries and frees the turn, as an append does beside its verdict and its entry.
# Usage: bench/appends.sh TESTS, the test program of history_trials, which `rt test` leaves as
# crates/history_trials/out/history_trials_tests
set -euo pipefail
tests=${1:-}
if [ ! -f "$tests" ] || [ ! -x "$tests" ]; then
  echo "bench/appends.sh: no program at '$tests'" >&2
  exit 2
fi
TIMEFORMAT='%R'

# least TEST: the seconds of the shortest of five runs.
least() {
  for _ in 1 2 3 4 5; do
    { time "$tests" "appends::$1" > /dev/null; } 2>&1
  done | sort -n | head -n 1
}

for test in one_thread_appends two_threads_append four_threads_append; do
  least "${test}_200_000" | awk -v test="$test" '{ printf "%s: %.3f s, %d puts a second\n", test, $1, 200000 / $1 }'
done
least one_thread_looks_1_000_000 | awk '{ printf "one_thread_looks: %.3f s, %d nanoseconds a look\n", $1, $1 * 1000 }'
