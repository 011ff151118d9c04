"""Makes each allocation fail in turn, and checks what the program does then.

    python3 tools/refused_growths.py PROGRAM
    python3 tools/refused_growths.py --work PROGRAM

A growth is a call of `malloc` or `realloc`; growths are counted from 0. The program runs with a preloaded library that makes one of
them fail; the library is compiled first (`cc`, on Linux). Each run must have the same result as without a failure, or end with status
5 and `out of memory`, or with status 5 and no line if the arguments could not be allocated. A growth that fails inside an I/O call
may also be a `read fault`, or a `write fault` once OUT has been created. Such a run prints no output and makes no file, except for an
empty OUT after a write fault. For each run the number of growths and of each kind of result is printed.

With `--work` two runs show that groups are linked one by one, and that `make` makes all its modules: a run with more work runs out of
memory at a growth long after the last one of a run with less. The status is 0 if all runs end as they should.
"""

import collections
import mmap
import os
import subprocess
import sys
import tempfile

from little_memory import number, string

DATA = os.path.join(os.path.dirname(os.path.dirname(os.path.abspath(__file__))), "crates/mufom/data")

# Counts growths in the first eight bytes of a file, and makes the one fail whose number the other eight bytes hold.
REFUSES = r"""
#include <fcntl.h>
#include <stddef.h>
#include <stdint.h>
#include <stdlib.h>
#include <sys/mman.h>

extern void *__libc_malloc(size_t);
extern void *__libc_realloc(void *, size_t);

static volatile uint64_t *counts;

__attribute__((constructor)) static void begin(void) {
    int file = open(getenv("GROWTHS"), O_RDWR);
    void *page = mmap(NULL, 16, PROT_READ | PROT_WRITE, MAP_SHARED, file, 0);
    counts = page;
}

static int is_refused(void) { return counts != NULL && counts[0]++ == counts[1]; }

void *malloc(size_t size) { return is_refused() ? NULL : __libc_malloc(size); }

void *realloc(void *old, size_t size) { return is_refused() ? NULL : __libc_realloc(old, size); }
"""

NEVER = 2**64 - 1


def module(sections=b"", external=b"", debug=b"", loads=b""):
    """Returns a module with these records in its parts."""
    head = b"\xE0" + string(b"68000") + string(b"m") + b"\xEC\x08\x04\xCD"
    place, offsets = len(head) + 64, []
    for part in (b"", b"", sections, external, debug, loads, b""):
        offsets.append(place if part else 0)
        place += len(part)
    offsets.append(place)
    for n, offset in enumerate(offsets):
        head += b"\xE2\xD7" + bytes([n]) + b"\x84" + offset.to_bytes(4, "big")
    return head + sections + external + debug + loads + b"\xE1"


def public(position, name, value=b"\x00"):
    return b"\xE8" + number(32 + position) + string(name) + b"\xE2\xC9" + number(32 + position) + value


def reference(name):
    return b"\xE9\x0B" + string(name)


def field(value):
    """Returns a load of the value, in a field of four bytes of the first section."""
    return b"\xE5\x01\xE4\xBE" + value + b"\xBF"


def region(base, size, names):
    return b'[[region]]\nname = "r"\nbase = %d\nsize = %d\nsections = [%s]\n' % (base, size, names)


SECTION = b"\xE6\x01\xC3" + string(b"t") + b"\xE2\xD3\x01\x04"
BLOCKS = bytes.fromhex("F8 03 00 04 70 72 6F 67 F0 20 01 78 F8 04 00 04 6D 61 69 6E 00 00 D2 01 F0 21 01 6C"
                       "F1 CE 21 00 07 0C 00 E2 CE 21 D2 01 02 A5 F9 D2 01 0F A5 F9")
FILES = {
    "program": open(os.path.join(DATA, "program.695"), "rb").read(),
    "library": open(os.path.join(DATA, "library.695"), "rb").read(),
    "board": open(os.path.join(DATA, "plan.toml"), "rb").read(),
    "a": module(SECTION, public(0, b"f", b"\xD2\x01") + reference(b"g"), loads=field(b"\xD8\x0B")),
    "b": module(SECTION, public(0, b"g", b"\xD2\x01\x01\xA5") + reference(b"f"), loads=field(b"\xD8\x0B\x02\xA5")),
    "page": region(256, 256, b'"t"'),
    "all": region(256, 16, b'"*"'),
    "root": module(external=reference(b"f")),
    "some": module(external=public(0, b"f") + reference(b"g")),
    "other": module(external=public(0, b"h") + reference(b"g")),
    "both": module(external=public(0, b"f") + public(1, b"g")),
    "blocks": module(b"\xE6\x01\xC3\xD0" + string(b"code") + b"\xE2\xD3\x01\x10", debug=BLOCKS),
    "many": module(external=b"".join(public(n, b"a%d" % n) for n in range(200))),
    "more": module(external=b"".join(public(n, b"b%d" % n) for n in range(200))),
    "m": open(os.path.join(DATA, "a.695"), "rb").read(),
}
RUNS = [
    "dump --plan board program library",
    "link -o out a b",
    "link -o out [ [ a ] b ]",
    "locate --plan page -o out a b",
    "locate --plan page -o out [ [ a ] b ]",
    "dump --plan page [ a b ]",
    "dump root + some both",
    "dump root + other both",
    "dump --plan all blocks",
    "show blocks",
    "check blocks program",
]


class Runner:
    """Runs the program in a folder of its own, with one growth that fails."""

    def __init__(self, program, folder):
        self.program, self.folder = program, folder
        self.output = os.path.join(folder, "out")
        library = os.path.join(folder, "refuses.so")
        subprocess.run(["cc", "-shared", "-fPIC", "-O1", "-o", library, "-x", "c", "-"], input=REFUSES.encode(), check=True)
        counts = os.path.join(folder, "counts")
        with open(counts, "wb") as file:
            file.write(bytes(16))
        with open(counts, "r+b") as file:
            self.counts = mmap.mmap(file.fileno(), 16)
        self.environment = {"LD_PRELOAD": library, "GROWTHS": counts}

    def run(self, words, refused):
        """Returns the result (status, standard output, standard error, and the bytes of OUT if it exists) and the number of growths."""
        self.counts[:] = bytes(8) + refused.to_bytes(8, sys.byteorder)
        if os.path.exists(self.output):
            os.remove(self.output)
        run = subprocess.run([self.program, *words.split()], cwd=self.folder, env=self.environment, capture_output=True, check=False)
        made = None
        if os.path.exists(self.output):
            with open(self.output, "rb") as file:
                made = file.read()
        return (run.returncode, run.stdout, run.stderr, made), int.from_bytes(self.counts[:8], sys.byteorder)

    def growths(self, words):
        return self.run(words, NEVER)[1]


def kind(answer, own):
    """Returns the kind of a result; None if the run must not have it."""
    if answer == own:
        return "its own"
    status, out, err, made = answer
    if out:
        return None
    if (status, made) == (5, None) and err == b"out of memory\n":
        return "out of memory"
    if (status, made) == (5, None) and not err:
        return "no room for the words"
    if (status, made) == (3, None) and err.startswith(b"read fault: "):
        return "read fault"
    if (status, made) == (4, b"") and err == b"write fault\n":
        return "write fault"
    return None


def refuse_each(runner):
    bad = 0
    for words in RUNS:
        own, growths = runner.run(words, NEVER)
        kinds = collections.Counter()
        for refused in range(growths):
            answer, _ = runner.run(words, refused)
            found = kind(answer, own)
            if found is None:
                bad += 1
                print("%s: growth %d refused: %r" % (words, refused, answer))
            else:
                kinds[found] += 1
        print("%s: status %d, %d growths: %s" % (words, own[0], growths, dict(kinds)))
    print("%d answers must not be given" % bad)
    return bad


def is_out_of_memory(runner, words, refused):
    answer, _ = runner.run(words, refused)
    return answer == (5, b"", b"out of memory\n", None)


# A link moves the names of its modules and copies none, so the link of a group needs few growths, however many names it has.
GROUP_GROWTHS = 10


def show_work(runner):
    """Checks that a run with more work still allocates long after the last growth of one with less, and needs that memory."""
    bad = 0
    for less, more, later in (("dump many more m", "dump [ many more ] m", GROUP_GROWTHS), ("make 1", "make 100", 200)):
        growths, all_growths = runner.growths(less), runner.growths(more)
        holds = is_out_of_memory(runner, more, growths + later)
        bad += not holds
        print("%s: %d growths; %s: %d growths, and with growth %d refused %s" % (
            less, growths, more, all_growths, growths + later, "out of memory" if holds else "another answer"))
    return bad


def main():
    words = sys.argv[1:]
    work = words[0] == "--work"
    with tempfile.TemporaryDirectory(prefix="mufom-") as folder:
        for name, data in FILES.items():
            with open(os.path.join(folder, name), "wb") as file:
                file.write(data)
        runner = Runner(os.path.abspath(words[-1]), folder)
        bad = show_work(runner) if work else refuse_each(runner)
    return min(bad, 1)


if __name__ == "__main__":
    sys.exit(main())
