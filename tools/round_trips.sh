#!/usr/bin/env bash
# Turns every sample into a listing, a module and a linked module again:  bash tools/round_trips.sh PROGRAM
#
# The samples are the .695 files of crates/mufom/data and examples. Of each, `build` of its listing must have the same listing,
# and link to the same bytes as the sample; and `build` of the listing of that link must give its bytes again. The last line
# is 'N passed, N failed'; the status is 0 if nothing failed.
set -u
: "${1:?the built program is missing: bash tools/round_trips.sh PROGRAM}"
program=$(readlink -f "$1")
top=$(cd "$(dirname "$0")/.." && pwd)
work=$(mktemp -d) || exit 1
trap 'rm -rf "$work"' EXIT
cd "$work" || exit 1
passed=0 failed=0

# Prints the first of these flags with which the program reads the file; fails if there are none.
flags_for() {
  local flags
  for flags in "" --no-debug --gnu "--gnu --no-debug"; do
    # shellcheck disable=SC2086
    if "$program" check $flags "$1" > checked 2> /dev/null && grep -q '^file 0 "' checked; then
      echo "$flags"
      return 0
    fi
  done
  return 1
}

# shellcheck disable=SC2086
comes_back() {
  local flags=$1 file=$2
  "$program" show $flags --listing "$file" > listing && "$program" build -o built listing &&
    "$program" show --listing built | cmp - listing && "$program" link $flags -o linked "$file" &&
    "$program" link -o again built && cmp linked again && "$program" show --listing linked > listing &&
    "$program" build -o again listing && cmp linked again
}

for file in "$top"/crates/mufom/data/*.695 "$top"/examples/*.695; do
  if ! flags=$(flags_for "$file"); then
    failed=$((failed + 1))
    echo "$file: not read with any flags"
  elif rm -f linked again built && comes_back "$flags" "$file"; then
    passed=$((passed + 1))
  else
    failed=$((failed + 1))
    echo "$file: does not come back${flags:+ with $flags}"
  fi
done
echo "$passed passed, $failed failed"
[ "$failed" = 0 ]
