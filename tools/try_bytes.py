"""Changes, removes and inserts one byte at each position of module files, and compares the program with judge.py on each result.

    python3 tools/try_bytes.py PROGRAM FILE ... [--step N]

`check` is compared with the judge. Files that the judge accepts are given to `show`, `link` and `dump`, which must end with a status of
0 to 5 within ten seconds. With --step only every N-th change is tried. The status is 0 if nothing fails.
"""

import collections
import os
import subprocess
import sys
import tempfile

import judge
from try_files import MARKS, told


def changes(data):
    for place in range(len(data) + 1):
        yield data[:place]
        yield data[:place] + data[place + 1:]
        for byte in MARKS:
            yield data[:place] + bytes([byte]) + data[place + 1:]
            yield data[:place] + bytes([byte]) + data[place:]


def ends_well(words):
    try:
        run = subprocess.run(words, capture_output=True, check=False, timeout=10)
    except subprocess.TimeoutExpired:
        return False
    return 0 <= run.returncode <= 5


def main():
    words = sys.argv[1:]
    step = int(words.pop(words.index("--step") + 1)) if "--step" in words else 1
    program, *files = [it for it in words if it != "--step"]
    folder = tempfile.mkdtemp(prefix="mufom-")
    path, out = os.path.join(folder, "changed.695"), os.path.join(folder, "out")
    tried, bad, answers = 0, 0, collections.Counter()
    for name in files:
        with open(name, "rb") as file:
            data = file.read()
        for number, changed in enumerate(changes(data)):
            if number % step:
                continue
            with open(path, "wb") as file:
                file.write(changed)
            wanted = judge.answer(changed, True)
            answers[wanted[2].split(": ")[-1].strip() or "module"] += 1
            tried += 1
            same = told(program, path, True) == wanted
            well = wanted[0] != 0 or all(ends_well([program, *it]) for it in (["show", path], ["link", "-o", out, path], ["dump", path]))
            if not (same and well):
                bad += 1
                kept = os.path.join(folder, "%d.695" % tried)
                os.rename(path, kept)
                print(kept, "of", name, "should be", wanted, "" if well else "and a later command ended badly")
    print("%d of %d changed files answered differently or badly:" % (bad, tried), dict(answers.most_common()))
    return min(bad, 1)


if __name__ == "__main__":
    sys.exit(main())
