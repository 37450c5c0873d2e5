#!/usr/bin/env bash
# Tries the wrong bodies that the gate leaves unread, because to try them costs a check of their crate: each
# crates/NAME/must-fail/WORD.edit.md of the crates that are named, or of all that have some. It copies the tree as it stands,
# also what is not committed, to a temporary folder, names each of them WORD.edit there, and runs `rt must-fail` on these crates,
# which tries their WORD.edit too. The prover has to refuse each. It ends with the status of `rt must-fail`.
# Usage: bench/must_fail.sh [CRATE..]
# A crate takes the time of two checks of it, and first that of the crates below it, but for those that `rt ci` has kept on this
# machine. A crate near the top wants 5 to 8 GB of memory, and the copy up to 5 GB of the disk.
set -euo pipefail
cd "$(dirname "$0")/.."
folder=$(mktemp -d)
trap 'rm -rf "$folder"' EXIT
# A file that is deleted and not committed yet is listed too.
git ls-files -z --cached --others --exclude-standard crates crates.txt HANDLES |
  while IFS= read -r -d '' file; do
    if [ -e "$file" ]; then printf '%s\0' "$file"; fi
  done | xargs -0 cp --parents -t "$folder"
cd "$folder"

crates=("$@")
if [ $# = 0 ]; then
  for edits in crates/*/must-fail; do
    crates+=("$(basename "$(dirname "$edits")")")
  done
fi
for crate in "${crates[@]}"; do
  [ -d "crates/$crate/must-fail" ] || { echo "bench/must_fail.sh: crates/$crate/must-fail is no folder" >&2; exit 2; }
  for edit in "crates/$crate/must-fail"/*.edit.md; do
    [ ! -e "$edit" ] || mv "$edit" "${edit%.md}"
  done
done
rt must-fail "${crates[@]}"
