#!/usr/bin/env bash
# Runs the built program on what stands under examples/: requests with their replies, files of joins with what is written about
# them, and scripts of events with what is printed about them; the requests through a connection to its server besides. Then on
# lines that are too long to stand there, on loads, on more puts than a question reaches back, and to each end that can be had
# here. It compares what is written, the status, and the line on standard error.
# Usage: bench/examples.sh PROGRAM
set -u
program=${1:-}
if [ ! -f "$program" ] || [ ! -x "$program" ]; then
  echo "bench/examples.sh: no program at '$program'" >&2
  exit 2
fi
program=$(realpath "$program")
bench=$(realpath "$(dirname "$0")")
cd "$bench/../examples" || exit 1
folder=$(mktemp -d)
trap 'rm -rf "$folder"' EXIT
failed=0
messages=([0]='' [2]='pequod: words' [3]='pequod: long' [4]='pequod: read fault' [5]='pequod: write fault'
  [7]='pequod: file refused' [8]='pequod: doors fault' [9]='pequod: shelf fault')

# attempt NAME STATUS WANTED WORD..: runs the program with these words, and compares what it writes with the file WANTED.
attempt() {
  local name=$1 status=$2 wanted=$3
  shift 3
  "$program" "$@" > "$folder/written" 2> "$folder/message"
  judge "$name" "$status" $? "$wanted"
}

# judge NAME STATUS ENDED WANTED: says whether the program ended with the status and wrote what was wanted.
judge() {
  # With status 2 the text that says how the program is called follows.
  local message
  message=$(if [ "$2" = 2 ]; then head -n 1 "$folder/message"; else cat "$folder/message"; fi)
  if [ "$3" = "$2" ] && cmp -s "$folder/written" "$4" && [ "$message" = "${messages[$2]}" ]; then
    echo "same: $1"
  else
    echo "differs: $1"
    failed=1
  fi
}

for requests in *.requests cookbook/*.requests; do
  replies=${requests%.requests}.replies
  attempt "$requests" 0 "$replies" run < "$requests"
  "$bench/through_link.py" "$program" --cells 2 --rows 5 < "$requests" > "$folder/replied" 2> "$folder/message"
  ended=$?
  # The client of `run` has the number 0, and that of a connection the number of its worker's client: a feed shows it.
  sed -E '/^\["entries"/s/\[[1-9][0-9]*,(\["(put|remove|join|drop)")/[0,\1/g' "$folder/replied" > "$folder/written"
  judge "$requests through a connection" 0 $ended "$replies"
done
for joins in *.joins; do
  written=${joins%.joins}.written
  status=0
  grep -q '^\["refused"' "$written" && status=7
  attempt "$joins" "$status" "$written" check "$joins"
done
for script in *.script; do
  printed=${script%.script}.printed
  status=0
  grep -q '^\["refused"' "$printed" && status=7
  attempt "$script" "$status" "$printed" replay "$script"
  attempt "$script in one cell" "$status" "$printed" replay --cells 1 --rows 1 "$script"
done

echo '["error","value"]' > "$folder/wanted"
attempt "a value of 65,537 bytes" 0 "$folder/wanted" run < <(printf '["put","k|a","%65537s"]\n' '')
echo '["error","long"]' > "$folder/wanted"
attempt "a line of 1,048,577 bytes" 3 "$folder/wanted" run < <(printf '%1048577s\n' '')

attempt "no words" 2 /dev/null < first.requests
attempt "an option that is not there" 2 /dev/null run --cell 1 < first.requests
for word in run serve check replay load; do
  grep -q "$word" "$folder/message" || { echo "differs: the usage names no $word"; failed=1; }
done
echo '["load",2,0,0,0,0,0,0]' > "$folder/wanted"
attempt "a load of no act" 0 "$folder/wanted" load --steps 0
echo '["load",1506,195,783,214,1519,90,58245]' > "$folder/wanted"
attempt "a load of 2,000 acts" 0 "$folder/wanted" load --number 7 --steps 2000
attempt "a load of 2,000 acts with one row kept" 0 "$folder/wanted" load --number 7 --steps 2000 --rows 1
attempt "a load of 2,000 acts by 4 workers" 0 "$folder/wanted" load --number 7 --steps 2000 --workers 4
attempt "a load of 2,000 acts by 4 workers with one row kept" 0 "$folder/wanted" load --number 7 --steps 2000 --workers 4 --rows 1
attempt "a load of 2,000 acts by 64 workers" 0 "$folder/wanted" load --number 7 --steps 2000 --workers 64
"$program" load --steps 100000 --users 1000 > "$folder/wanted" 2> /dev/null
attempt "a load of 100,000 acts by 4 workers as by one" 0 "$folder/wanted" load --steps 100000 --users 1000 --workers 4

# Questions about positions that lie 65,537 and 65,536 entries back.
seq 65540 | awk '{ printf "[\"put\",\"k|a\",\"%d\"]\n", $1 } END { for (at = 3; at <= 4; at++) {
  printf "[\"scan\",\"k|\",\"k}\",%d]\n[\"changes\",\"k|\",\"k}\",%d]\n", at, at }
  print "[\"feed\",3]\n[\"feed\",65539]" }' > "$folder/puts"
printf '%s\n' '["error","gone",65540]' '["error","gone",65540]' '["pairs",4,[["k|a","4"]]]' \
  '["changes",4,65540,[["k|a","65540"]]]' '["error","gone",65540]' \
  '["entries",65539,65540,[[0,["put","k|a","65540"]]]]' > "$folder/wanted"
"$program" run < "$folder/puts" 2> "$folder/message" | tail -n 6 > "$folder/written"
judge "positions too far back, and just not" 0 "${PIPESTATUS[0]}" "$folder/wanted"

# A million puts of a thousand keys, in less room than all entries or all versions would take: what is old goes.
seq 1000000 | awk '{ printf "[\"put\",\"k|%d\",\"%d\"]\n", $1 % 1000, $1 } END { print "[\"get\",\"k|1\"]" }' > "$folder/puts"
echo '["value",1000000,"999001"]' > "$folder/wanted"
(ulimit -v 60000; "$program" run < "$folder/puts") 2> "$folder/message" | tail -n 1 > "$folder/written"
judge "a million puts in 60 MB" 0 "${PIPESTATUS[0]}" "$folder/wanted"

# A million keys that are put and removed, each of them once, in less room than a third of them would take: those of one table, those
# with a group of their own, and those with a table of their own.
seq 1000000 | awk '{ key = $1 % 3 == 0 ? "k|" $1 : $1 % 3 == 1 ? "g|" $1 "|a" : "t" $1 "|a"
  printf "[\"put\",\"%s\",\"%d\"]\n[\"remove\",\"%s\"]\n", key, $1, key } END { print "[\"scan\",\"k|\",\"k}\"]" }' > "$folder/puts"
echo '["pairs",2000000,[]]' > "$folder/wanted"
(ulimit -v 85000; "$program" run < "$folder/puts") 2> "$folder/message" | tail -n 1 > "$folder/written"
judge "a million keys put and removed in 85 MB" 0 "${PIPESTATUS[0]}" "$folder/wanted"

attempt "a script that is not there" 9 /dev/null replay none
attempt "a file that is not there" 9 /dev/null check none
attempt "a server's joins file that is refused" 7 clash.written serve 127.0.0.1:0 --joins clash.joins
attempt "an address that cannot be opened" 8 /dev/null serve nowhere
attempt "standard input that is a folder" 4 /dev/null run < .
: > "$folder/written"
"$program" run < first.requests > /dev/full 2> "$folder/message"
judge "standard output that is full" 5 $? /dev/null
exit $failed
