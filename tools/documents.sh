#!/usr/bin/env bash
# Checks the documents against the built program and the sources:  bash tools/documents.sh PROGRAM
#
# It runs each example of the README, the guide and the other pages, and checks the names that `help` knows, the links between
# the pages, and whether the generated pages are up to date. The last line is 'N passed, N failed'; the status is 0 if nothing failed.
set -u
: "${1:?the built program is missing: bash tools/documents.sh PROGRAM}"
program=$(readlink -f "$1")
cd "$(dirname "$0")/.." || exit 1
passed=0 failed=0
try() {
  echo "== $*"
  if "$@"; then
    passed=$((passed + 1))
  else
    failed=$((failed + 1))
    echo "FAILED: $*"
  fi
}
try bash examples/try.sh "$program"
try python3 tools/refusals.py "$program"
try python3 tools/help_topics.py
try python3 tools/links.py
try python3 tools/real_host.py "$program"
try python3 tools/audit.py --check
try python3 tools/public_calls.py --check
echo "$passed passed, $failed failed"
[ "$failed" = 0 ]
