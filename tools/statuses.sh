#!/usr/bin/env bash
# Tries one run or more for each of the exit statuses 0 to 4:  bash tools/statuses.sh PROGRAM
#
# For each run it compares the status, the line on standard error, and whether the file that -o names is there afterwards. The
# last line is 'N passed, N failed'; the status is 0 if nothing failed. (Status 5, out of memory, is tried by little_memory.py.)
set -u
: "${1:?the built program is missing: bash tools/statuses.sh PROGRAM}"
program=$(readlink -f "$1")
top=$(cd "$(dirname "$0")/.." && pwd)
work=$(mktemp -d) || exit 1
trap 'rm -rf "$work"' EXIT
cp "$top"/crates/mufom/data/* "$work" && cd "$work" || exit 1
passed=0 failed=0

# STATUS, the line on standard error, whether the file `out` is there afterwards (yes, no), and the arguments. Standard output goes to the file $to.
run_ends() {
  local status=$1 line=$2 there=$3 found is_there=no
  shift 3
  rm -f out
  "$program" "$@" > "$to" 2> errors
  found=$?
  [ -e out ] && is_there=yes
  if [ "$found" = "$status" ] && [ "$(cat errors)" = "$line" ] && [ "$is_there" = "$there" ]; then
    passed=$((passed + 1))
  else
    failed=$((failed + 1))
    echo "mufom $*: status $found instead of $status, out: $is_there instead of $there, standard error: $(cat errors)"
  fi
}

to=printed
run_ends 0 "" no show a.695
if ! grep -q '^module "A" processor "68000" maus 4 order M$' printed; then
  failed=$((failed + 1))
  echo "mufom show a.695 does not print the module"
fi
run_ends 0 "" no dump --plan plan.toml program.695 library.695
run_ends 0 "" yes link -o out program.695 library.695
run_ends 0 "" yes locate --plan plan.toml -o out program.695 + library.695
run_ends 0 "" no explain dump program.695
run_ends 1 "refused: file 0 at 0: BadHeader" no check plan.toml
run_ends 1 "refused: plan: Syntax" no dump --plan a.695 a.695
run_ends 1 'refused: link: Duplicate "exit"' no link -o out library.695 library.695
run_ends 1 "refused: locate: Unplaced section 0" no locate -o out program.695 library.695
run_ends 1 'refused: locate: Undefined "exit"' no dump --plan plan.toml program.695
run_ends 2 "usage: no command" no
run_ends 2 "usage: no file" no show
run_ends 2 "usage: bad words" no link a.695
run_ends 2 "usage: open group" no link -o out [ a.695
run_ends 3 "read fault: file 1" no link -o out a.695 none
run_ends 3 "read fault: plan" no dump --plan none a.695
run_ends 4 "write fault" no link -o none/out a.695
if [ -c /dev/full ]; then
  to=/dev/full
  run_ends 4 "write fault" no show a.695
fi
echo "$passed passed, $failed failed"
[ "$failed" = 0 ]
