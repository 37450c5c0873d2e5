#!/usr/bin/env bash
# Checks a file of 64 joins of 4,096 bytes each with the built program, five times, and prints the seconds of each run.
# The joins stand in eight layers of eight, and each reads all eight of the layer below, so that their ranks go from 0 to 7.
# Usage: bench/check.sh PROGRAM
set -eu
program=${1:-}
if [ ! -f "$program" ] || [ ! -x "$program" ]; then
  echo "bench/check.sh: no program at '$program'" >&2
  exit 2
fi
folder=$(mktemp -d)
trap 'rm -rf "$folder"' EXIT
awk 'BEGIN {
  ending = sprintf("%440s", ""); gsub(/ /, "a", ending)
  for (join = 0; join < 64; join++) {
    layer = int(join / 8)
    printf "%7sr%02d|<x>|%s =", "", join, ending
    for (source = 0; source < 8; source++) {
      table = (layer == 0) ? sprintf("i%02d", source) : sprintf("r%02d", 8 * layer - 8 + source)
      printf " %s %s|<x>|%s", (source < 7) ? "check" : "copy", table, ending
    }
    printf "\n"
  }
}' > "$folder/joins"
[ "$(awk '{ print length($0) }' "$folder/joins" | sort -u)" = 4096 ] || { echo "a join of another length"; exit 1; }
TIMEFORMAT='%3R s'
for _ in 1 2 3 4 5; do
  time "$program" check "$folder/joins" > "$folder/written"
done
awk -F, '{ if ($2 != NR || $3 != int((NR - 1) / 8)) exit 1 } END { if (NR != 64) exit 1 }' "$folder/written" ||
  { echo "another position or rank"; exit 1; }
