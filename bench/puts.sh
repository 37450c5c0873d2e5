#!/usr/bin/env bash
# Runs the built program on 1,000, 10,000 and 100,000 puts, five times each, and prints the seconds, those of the processor, the
# lines per second and the peak memory of each run. Then, from the least of the five, how the cost of a line and the memory grow
# from 10,000 puts to 100,000.
# Usage: bench/puts.sh PROGRAM
# It wants GNU time, as Debian's package `time` has it.
set -eu
program=${1:-}
if [ ! -f "$program" ] || [ ! -x "$program" ]; then
  echo "bench/puts.sh: no program at '$program'" >&2
  exit 2
fi
folder=$(mktemp -d)
trap 'rm -rf "$folder"' EXIT
TIMEFORMAT='%3R %3U %3S'
for count in 1000 10000 100000; do
  seq -f '["put","k|%06.0f","value"]' 1 "$count" > "$folder/puts$count"
done
for _ in 1 2 3 4 5; do
  for count in 1000 10000 100000; do
    { time env time -f %M -o "$folder/memory" "$program" run < "$folder/puts$count" > "$folder/replies"; } 2> "$folder/seconds"
    [ "$(tail -n 1 "$folder/replies")" = "[\"ok\",$count]" ] || { echo "$count puts: a wrong last reply"; exit 1; }
    echo "$count $(cat "$folder/seconds" "$folder/memory" | tr '\n' ' ')"
  done
done > "$folder/runs"

awk '
  {
    if (!($1 in memory) || $3 + $4 < processor[$1]) processor[$1] = $3 + $4
    if (!($1 in memory) || $5 < memory[$1]) memory[$1] = $5
    printf "%d puts: %.3f s, %.3f s of the processor, %d lines a second, %d kB at the most\n", $1, $2, $3 + $4, $1 / $2, $5
  }
  END {
    # A key of 8 bytes and a value of 5 are stored for each put.
    added = (memory[100000] - memory[10000]) * 1024 / 90000
    growth = processor[100000] / processor[10000] / 10
    printf "a line of 100,000 costs %.2f times one of 10,000 (at most 1.5 is wanted)\n", growth
    printf "an added put takes %d bytes of memory (at most %d are wanted)\n", added, 2 * 13 + 256
    exit !(growth <= 1.5 && added <= 2 * 13 + 256)
  }' "$folder/runs"
