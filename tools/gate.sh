#!/usr/bin/env bash
# Checks the documents, and tries the program that `rt ci` built:  bash tools/gate.sh [FOLDER]
#
# .ci/run calls it after `rt ci`. FOLDER has the program `mufom`, and perhaps `mufom.by-rattle`, which the toolchain's own back end
# built; it is crates/mufom/out by default. Each check prints one line, and its output if it fails. A check whose tool is
# missing is skipped, and so is an example of a document. Two checks run at a time. Each is ended after a time of its own, and
# has failed then, so that all take at most eight minutes. The last line is 'N passed, N failed', with ', N skipped' if checks
# were skipped; the status is 0 if nothing failed.
set -u
cd "$(dirname "$0")/.." || exit 1
folder=${1:-crates/mufom/out}
logs=$(mktemp -d) || exit 1
hostile=
trap '[ -z "$hostile" ] || kill "$hostile" 2> /dev/null; rm -rf "$logs"' EXIT
passed=0 failed=0 skipped=0

has_tool() {
  command -v "$1" > /dev/null && return
  skipped=$((skipped + 1))
  echo "skipped: $2: $1 is not installed"
  return 1
}

# Counts a check that has ended: its status, its name, its time limit, and the file with its output.
tell() {
  if [ "$1" = 0 ]; then
    passed=$((passed + 1))
    echo "ok: $2: $(tail -n 1 "$4" | cut -c 1-100)"
    grep '^skipped: ' "$4"
    return
  fi
  failed=$((failed + 1))
  cat "$4"
  [ "$1" = 124 ] && echo "ended after $3 seconds"
  echo "FAILED: $2"
}

# The tool that a check needs, its time limit in seconds, its name, and its command.
try() {
  local tool=$1 most=$2 name=$3
  shift 3
  has_tool "$tool" "$name" || return
  timeout -k 5 "$most" "$@" > "$logs/check" 2>&1
  tell $? "$name" "$most" "$logs/check"
}

program=$folder/mufom
if [ ! -x "$program" ]; then
  echo "FAILED: there is no program $program"
  echo "0 passed, 1 failed"
  exit 1
fi
if has_tool python3 "hostile files"; then
  # (on a slow machine a command may take ten times as long as the 3 seconds that tools/README.md names)
  timeout -k 5 420 python3 tools/try_files.py "$program" --hostile 30 > "$logs/hostile" 2>&1 &
  hostile=$!
fi
for built in "$program" "$program.by-rattle"; do
  if [ -x "$built" ]; then
    try bash 15 "exit statuses of $(basename "$built")" bash tools/statuses.sh "$built"
    try bash 25 "round trips of $(basename "$built")" bash tools/round_trips.sh "$built"
  fi
done
try ar 15 "archives" bash tools/archives.sh "$program"
try python3 120 "documents" bash tools/documents.sh "$program"
try python3 150 "random files" python3 tools/try_files.py "$program" 1 3000
try python3 120 "random texts" python3 tools/try_texts.py "$program" 1 1000
if [ -n "$hostile" ]; then
  wait "$hostile"
  tell $? "hostile files" 420 "$logs/hostile"
  hostile=
fi
echo "$passed passed, $failed failed$([ "$skipped" = 0 ] || echo ", $skipped skipped")"
[ "$failed" = 0 ]
