#!/usr/bin/env bash
# Prints how long one `stab` of an `updater_index` takes: among 100,000 ranges that lie apart, where a thousand of 100,000 have the
# key, among 100,000 nested ones of which ten have it, among 100,000 alike that all have it, and where 12,750 ranges part from one
# another behind the key, 25 for each of its bytes, and none has it. Each row of key_trials registers its ranges and then stabs so
# often as it says; its time without a stab is taken off that with many, each the least of five runs.
# Usage: bench/stabs.sh TRIALS, the program of key_trials, which `rt run` leaves as crates/key_trials/out/key_trials
set -euo pipefail
trials=${1:-}
if [ ! -f "$trials" ] || [ ! -x "$trials" ]; then
  echo "bench/stabs.sh: no program at '$trials'" >&2
  exit 2
fi
TIMEFORMAT='%R'

# least RANGES STABS: the seconds of the shortest of five runs.
least() {
  for _ in 1 2 3 4 5; do
    { time "$trials" <<< "stabs;$2;$1" > /dev/null; } 2>&1
  done | sort -n | head -n 1
}

while read -r name stabs ranges; do
  without=$(least "$ranges" 0)
  with=$(least "$ranges" "$stabs")
  awk -v name="$name" -v stabs="$stabs" -v without="$without" -v with="$with" \
    'BEGIN { printf "%s: %.3f s to register, %.2f microseconds a stab\n", name, without, (with - without) * 1e6 / stabs }'
done <<'END'
apart 200000 t|54321|x;100000;t|N|;t|N}
a_thousand_over_one_key 1000 t|54|x;100000;t|G|N;t|G}
nested 100000 t|000009|x;100000;t|0N;t|9D
alike 10 t|a|x;100000;t|a|;t|a}
12_750_part_behind_the_key 100 t|\(510a);0
END
