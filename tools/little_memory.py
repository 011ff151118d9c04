"""Runs a large link with less and less memory.

    python3 tools/little_memory.py PROGRAM

Links files with COUNT public symbols each, with a limit on the address space that falls in steps until the program cannot start. Each
run must end with status 0, or with status 5, the one line `out of memory` and no file; it must never be ended by a signal. A run that
fails in another way is not counted as bad if the program, run without arguments under the same limit, does not start either. The
status is 0 if nothing fails.
"""

import collections
import os
import resource
import shutil
import subprocess
import sys
import tempfile

COUNT = 20000
STEP = 1 << 20


def number(value):
    if value < 0x80:
        return bytes([value])
    size = (value.bit_length() + 7) // 8
    return bytes([0x80 + size]) + value.to_bytes(size, "big")


def string(text):
    return bytes([len(text)]) + text


def module(letter):
    """Returns a module with COUNT public symbols, whose names begin with the letter."""
    external = b"".join(b"\xE8" + number(32 + n) + string(b"%s%d" % (letter, n)) + b"\xE2\xC9" + number(32 + n) + number(n) for n in range(COUNT))
    head = b"\xE0" + string(b"68000") + string(letter) + b"\xEC\x08\x04\xCD"
    place, offsets = len(head) + 64, []
    for part in (b"", b"", b"", external, b"", b"", b""):
        offsets.append(place if part else 0)
        place += len(part)
    offsets.append(place)
    for n, offset in enumerate(offsets):
        head += b"\xE2\xD7" + bytes([n]) + b"\x84" + offset.to_bytes(4, "big")
    return head + external + b"\xE1"


def run(words, folder, limit):
    def limited():
        resource.setrlimit(resource.RLIMIT_AS, (limit, limit))

    return subprocess.run(words, capture_output=True, cwd=folder, check=False, preexec_fn=limited)


def main():
    if len(sys.argv) < 2:
        sys.exit(__doc__.strip())
    program = os.path.abspath(sys.argv[1])
    folder = tempfile.mkdtemp(prefix="mufom-")
    for letter in (b"a", b"b"):
        with open(os.path.join(folder, letter.decode()), "wb") as file:
            file.write(module(letter))
    ends, bad = collections.Counter(), 0
    limit = 256 * STEP
    while limit > 0:
        made = run([program, "link", "-o", "out", "a", "b"], folder, limit)
        stands = os.path.exists(os.path.join(folder, "out"))
        if made.returncode == 0 and stands:
            os.remove(os.path.join(folder, "out"))
            ends["done"] += 1
        elif made.returncode == 5 and made.stderr == b"out of memory\n" and not stands:
            ends["out of memory"] += 1
        elif run([program], folder, limit).returncode not in (0, 1, 2, 3, 4, 5):
            ends["did not start"] += 1
        else:
            bad += 1
            print("with", limit, "bytes:", made.returncode, made.stderr, "OUT stands" if stands else "")
        limit -= STEP
    shutil.rmtree(folder)
    print("%d runs ended otherwise:" % bad, dict(ends))
    return min(bad, 1)


if __name__ == "__main__":
    sys.exit(main())
