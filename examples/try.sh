#!/usr/bin/env bash
# Tries the examples of the documents:  bash examples/try.sh PROGRAM
#
# Runs each block of a page that begins with a line `$ COMMAND`, line by line, in a copy of the folder that the page uses, and
# compares the output with the page. If a tool that a command needs is not installed, this command and the rest of its block are
# skipped. The last line of each page is `PAGE: N passed, N failed`. The status is 0 if all examples hold.
set -u
: "${1:?the built program is missing: bash examples/try.sh PROGRAM}"
program=$(readlink -f "$1")
top=$(cd "$(dirname "$0")/.." && pwd)
work=$(mktemp -d)
trap 'rm -rf "$work"' EXIT
mkdir "$work/bin"
ln -s "$program" "$work/bin/mufom"
export PATH="$work/bin:$PATH" LC_ALL=C

try_page() {
  local name
  name=$(basename "$1")
  cp -r "$top/$2" "$work/$name"
  (cd "$work/$name" && python3 - "$top/$1" <<'PYTHON'
import re, shutil, subprocess, sys, textwrap, time

# What a machine may lack, and what a command that needs it mentions.
TOOLS = {"ar": r"\bar r", "srec_cat": r"srec_cat|\.srec\b|^make .*\bsrec\b", "xxd": r"\bxxd\b", "make": r"^make\b"}
lacking = {tool: mention for tool, mention in TOOLS.items() if not shutil.which(tool)}
passed = failed = skipped = 0
page = open(sys.argv[1], encoding="utf-8").read()
for language, block in re.findall(r"^ *```(\w*)\n(.*?)^ *```$", page, re.M | re.S):
    lines = textwrap.dedent(block).splitlines()
    if language or not lines or not lines[0].startswith("$ "):
        continue
    tries = []
    for line in lines:
        if line.startswith("$ "):
            tries.append((line[2:], []))
        else:
            tries[-1][1].append(line)
    for number, (command, wanted) in enumerate(tries):
        missing = [tool for tool, mention in lacking.items() if re.search(mention, command)]
        if missing:
            skipped += len(tries) - number
            print("skipped: %s is missing for: %s" % (missing[0], command))
            break
        if command.startswith("touch "):
            # make must see a later time than that of the files that were just made.
            time.sleep(1)
        run = subprocess.run(["bash", "-c", command], stdout=subprocess.PIPE, stderr=subprocess.STDOUT, text=True, check=False)
        if run.stdout.splitlines() == wanted:
            passed += 1
        else:
            failed += 1
            print("$ %s\nprinted:\n%s\nthe page has:\n%s" % (command, run.stdout, "\n".join(wanted)))
print("%s: %d passed, %d failed%s" % (sys.argv[1].rsplit("/", 1)[1], passed, failed, ", %d skipped" % skipped if skipped else ""))
sys.exit(1 if failed or not passed else 0)
PYTHON
  )
}

status=0
try_page README.md crates/mufom/data || status=1
try_page docs/GUIDE.md examples || status=1
try_page docs/COMMANDS.md crates/mufom/data || status=1
try_page docs/REFUSALS.md crates/mufom/data || status=1
try_page docs/PLANS.md examples || status=1
try_page docs/GNU.md examples || status=1
try_page docs/LD-USERS.md examples || status=1
exit $status
