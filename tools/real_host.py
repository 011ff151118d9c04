"""Tries the program on the real host: unusual files, full disks, closed outputs.

    python3 tools/real_host.py PROGRAM

Each row of the table in docs/COMMANDS.md ("Files, pipes and full disks") is a row here: what is tried, the status, the line on standard error,
and whether OUT exists afterwards. The status is 0 if all rows hold.
"""

import os
import resource
import shutil
import subprocess
import sys
import tempfile

TOP = os.path.dirname(os.path.dirname(os.path.abspath(__file__)))
SAMPLE = os.path.join(TOP, "crates/mufom/data/a.695")
NOBODY = 65534


def lowered():
    """Gives up the rights of root, if this process has them."""
    if os.getuid() == 0:
        os.setgroups([])
        os.setgid(NOBODY)
        os.setuid(NOBODY)


def few_files():
    resource.setrlimit(resource.RLIMIT_NOFILE, (16, 16))


class Tries:
    def __init__(self, program, folder):
        self.program, self.folder, self.failed, self.count = program, folder, 0, 0

    def path(self, name):
        return os.path.join(self.folder, name)

    def row(self, what, words, status, line=b"", out=None, **how):
        """Runs the program, and checks the status and the error line; also whether the file `out` exists, unless `out` is None."""
        if os.path.isfile(self.path("out")):
            os.remove(self.path("out"))
        how.setdefault("stdout", subprocess.PIPE)
        run = subprocess.run([self.program, *words], stderr=subprocess.PIPE, cwd=self.folder, check=False, **how)
        stands = os.path.isfile(self.path("out"))
        holds = run.returncode == status and run.stderr == line and out in (None, stands)
        self.count += 1
        self.failed += not holds
        print("ok  " if holds else "BAD ", what, "" if holds else (run.returncode, run.stderr, stands))


def tries(t):
    sample = t.path("a.695")
    shutil.copy(SAMPLE, sample)
    whole = open(sample, "rb").read()
    fault = b"read fault: file 0\n"
    os.mkdir(t.path("folder"))
    t.row("a file that is there", ["show", "a.695"], 0)
    t.row("no such file", ["show", "none"], 3, fault)
    t.row("a folder for a file", ["show", "folder"], 3, fault)
    t.row("a folder for OUT", ["link", "-o", "folder", "a.695"], 4, b"write fault\n")
    t.row("OUT in a folder that is not there", ["link", "-o", "none/out", "a.695"], 4, b"write fault\n")
    t.row("a full disk for OUT", ["link", "-o", "/dev/full", "a.695"], 4, b"write fault\n")
    t.row("a refused file makes no OUT", ["link", "-o", "out", "a.695", "folder/.."], 3, b"read fault: file 1\n", out=False)
    with open("/dev/full", "wb") as full:
        t.row("a full disk for standard output", ["show", "a.695"], 4, b"write fault\n", stdout=full)
    t.row("a closed standard output", ["show", "a.695"], 4, b"write fault\n", stdout=None, preexec_fn=lambda: os.close(1))
    t.row("an input that is a pipe", ["show", "/dev/stdin"], 0, input=whole)
    t.row("a pipe that ends early", ["show", "/dev/stdin"], 1, b"refused: file 0 at 50: Truncated\n", input=whole[:50])
    t.row("OUT that is also an input", ["link", "-o", "a.695", "a.695"], 0)
    t.row("and it is a module then", ["check", "a.695"], 0)
    shutil.copy(SAMPLE, sample)
    for name in ("with space", "new\nline", "quote\"", "gr\u00fc\u00dfe"):
        shutil.copy(SAMPLE, t.path(name))
        t.row("a file named %r" % name, ["check", name], 0)
    shutil.copy(SAMPLE, os.path.join(os.fsencode(t.folder), b"\xff"))
    t.row("a name that is not UTF-8", ["check", os.fsdecode(b"\xff")], 2, b"")
    t.row("1,024 files, 16 of them open at most", ["check"] + ["a.695"] * 1024, 0, preexec_fn=few_files)
    os.mkdir(t.path("closed"), 0o755)
    shutil.copy(SAMPLE, t.path("closed/a.695"))
    os.chmod(t.path("closed/a.695"), 0)
    os.chmod(t.folder, 0o755)
    t.row("a file that may not be read", ["show", "closed/a.695"], 3, fault, preexec_fn=lowered)
    t.row("OUT where nothing may be made", ["link", "-o", "closed/out", "a.695"], 4, b"write fault\n", preexec_fn=lowered)


def main():
    if len(sys.argv) < 2:
        sys.exit(__doc__.strip())
    program = os.path.abspath(sys.argv[1])
    folder = tempfile.mkdtemp(prefix="mufom-")
    copy = os.path.join(folder, "mufom")
    shutil.copy(program, copy)
    os.chmod(copy, 0o755)
    t = Tries(copy, folder)
    try:
        tries(t)
    finally:
        os.chmod(os.path.join(folder, "closed/a.695"), 0o644) if os.path.exists(os.path.join(folder, "closed/a.695")) else None
        shutil.rmtree(folder)
    print("%d rows hold, %d do not" % (t.count - t.failed, t.failed))
    return min(t.failed, 1)


if __name__ == "__main__":
    sys.exit(main())
