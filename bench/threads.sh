#!/usr/bin/env bash
# Prints how many puts and kept reads a second 1, 2 and 4 threads do together on one cache, from the least of five runs each, and
# how many times one thread's that is. Each thread has a client of its own and puts into a table of its own, one of ten keys at a
# time, and after each put reads the output of a join over that table, which is kept. The time is that of a whole test of 40,000
# puts and as many reads.
# Usage: bench/threads.sh TESTS, the test program of cache_trials, which `rt test` leaves as
# crates/cache_trials/out/cache_trials_tests
set -euo pipefail
tests=${1:-}
if [ ! -f "$tests" ] || [ ! -x "$tests" ]; then
  echo "bench/threads.sh: no program at '$tests'" >&2
  exit 2
fi
TIMEFORMAT='%R'

# least TEST: the seconds of the shortest of five runs.
least() {
  for _ in 1 2 3 4 5; do
    { time "$tests" "threads::$1" > /dev/null; } 2>&1
  done | sort -n | head -n 1
}

one=$(least one_thread_puts_and_looks_40_000)
for test in one_thread_puts_and_looks two_threads_put_and_look four_threads_put_and_look; do
  least "${test}_40_000" | awk -v test="$test" -v one="$one" \
    '{ printf "%s: %.3f s, %d a second, %.2f times one thread\n", test, $1, 40000 / $1, one / $1 }'
done
