#!/usr/bin/env python3
"""Runs a built program at its limits: the total length of all files, and the number of modules that `make` generates.

usage: limits.py PROGRAM

It needs 150 MB in the folder for temporary files. The exit status is 1 if a run does not end as it should.
"""
import os, subprocess, sys, tempfile

from hostile import file_of

LIMIT = 67_108_864


def padded(length):
    """Returns a module file of this length: its environment part, which no command interprets, is filled with zeros."""
    least = len(file_of(b"m", environment=b"\0")) - 1
    return file_of(b"m", environment=bytes(length - least))


# The arguments of a run, its status, and what it prints to standard output (None: anything; other texts: a part of it) and standard error.
RUNS = [
    (["check", "most", "none"], 1, "", "refused: file 1 at 0: Truncated\n"),
    (["check", "--no-debug", "most"], 0, None, ""),
    (["check", "more"], 1, "", "refused: file 0: InputLimit\n"),
    (["check", "half", "half", "none"], 1, "", "refused: file 2 at 0: Truncated\n"),
    (["check", "half", "half+"], 1, "", "refused: file 1: InputLimit\n"),
    (["fromtxt", "-o", "made", "text"], 0, "", ""),
    (["fromtxt", "-o", "made", "text+"], 1, "", "refused: file 0: InputLimit\n"),
    (["make", "65536"], 0, "67641324", ""),
    (["make", "65537"], 2, "", "usage: bad count\n"),
]
SIZES = {"most": LIMIT, "more": LIMIT + 1, "half": LIMIT // 2, "half+": LIMIT // 2 + 1}


def main():
    if len(sys.argv) < 2:
        sys.exit(__doc__.strip())
    program, failures = os.path.abspath(sys.argv[1]), 0
    with tempfile.TemporaryDirectory(prefix="mufom-") as folder:
        for name, length in SIZES.items():
            with open(os.path.join(folder, name), "wb") as file:
                file.write(padded(length))
        open(os.path.join(folder, "none"), "wb").close()
        for name, length in (("text", LIMIT), ("text+", LIMIT + 1)):
            with open(os.path.join(folder, name), "wb") as file:
                file.write(b"\n" * (length - 2) + b"q\n")
        for words, status, out, err in RUNS:
            run = subprocess.run([program, *words], cwd=folder, capture_output=True, text=True, check=False)
            good = run.returncode == status and run.stderr == err and (out is None or out == run.stdout or out and out in run.stdout)
            failures += not good
            print(f"{' '.join(words):28} status {run.returncode} {run.stderr.strip() or ' '.join(run.stdout.split())[-60:]}{'' if good else '  OTHERWISE'}")
    sys.exit(min(failures, 1))


main()
