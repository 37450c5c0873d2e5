#!/usr/bin/env bash
# Runs the tests in Python against the built program: those of the client, of the cookbook and of the web pages.
# Usage: bench/python_tests.sh PROGRAM. It ends with status 1 where one of them fails. PYTHON names another python3, as one that has
# psycopg2: without it, or without PostgreSQL, what tries the bridge from PostgreSQL is skipped.
set -u
program=${1:-}
if [ ! -f "$program" ] || [ ! -x "$program" ]; then
  echo "bench/python_tests.sh: no program at '$program'" >&2
  exit 2
fi
PEQUOD=$(realpath "$program")
export PEQUOD
cd "$(dirname "$0")/.." || exit 1
failed=0
for folder in clients/python examples/cookbook examples/timeline examples/forum; do
  echo "$folder"
  "${PYTHON:-python3}" -m unittest discover "$folder" || failed=1
done
exit $failed
