#!/usr/bin/env bash
# Runs the tests of every crate without proving anything, for a first look and while editing:  bash tools/quick.sh [CRATE ...]
#
# The crates come in the order of crates.txt; with names, only these are tried. Each crate of tests has a line, and the output of
# one that fails is printed. The last line is 'N passed, N failed', which counts tests; a crate whose tests do not run counts as
# one that failed. The status is 0 if nothing failed. The gate, .ci/run, is what proves.
set -u
cd "$(dirname "$0")/.." || exit 1
log=$(mktemp) || exit 1
trap 'rm -f "$log"' EXIT
passed=0 failed=0
mapfile -t crates < <(sed -n 's/^\([A-Za-z0-9_]*\)[^#:]*:.*/\1/p' crates.txt)
for name in "$@"; do
  if ! printf '%s\n' "${crates[@]}" | grep -qx "$name"; then
    echo "$name: crates.txt has no such crate"
    failed=$((failed + 1))
  fi
done
[ "$#" = 0 ] || mapfile -t crates < <(for name in "${crates[@]}"; do [[ " $* " == *" $name "* ]] && echo "$name"; done)
for name in "${crates[@]}"; do
  grep -rqs --include='*.rt' '#\[test\]' "crates/$name/src" || continue
  begin=$SECONDS
  (cd "crates/$name" && rt try --test) > "$log" 2>&1
  status=$?
  counts='^test result: [A-Za-z]+\. ([0-9]+) passed; ([0-9]+) failed;'
  if [[ $(grep -E "$counts" "$log" | tail -n 1) =~ $counts ]]; then
    good=${BASH_REMATCH[1]} bad=${BASH_REMATCH[2]}
    [ "$status" != 0 ] && [ "$bad" = 0 ] && bad=1
  else
    good=0 bad=1
  fi
  passed=$((passed + good))
  failed=$((failed + bad))
  [ "$bad" = 0 ] || cat "$log"
  echo "$name: $good passed, $bad failed, $((SECONDS - begin)) s"
done
echo "$passed passed, $failed failed"
[ "$failed" = 0 ]
