"""Compares the program with a second reader of TI-TXT texts, written from docs/FORMAT.md alone, on random texts.

    python3 tools/try_texts.py PROGRAM SEED COUNT

Each random text is given to `fromtxt`. If the second reader accepts it, `txt` of the module must write the text that it
expects. A text on which they disagree is kept in the folder for temporary files, and its path is printed. The last line
gives the number of these texts and how often each result occurred. The status is 0 if there are none.
"""

import collections
import os
import random
import re
import shutil
import subprocess
import sys
import tempfile


def hexadecimal(word):
    return re.fullmatch(rb"[0-9A-Fa-f]+", word) is not None


def lines_of(text):
    """Returns the lines of a text without their line ends, and without the spaces around them."""
    *ended, last = text.split(b"\n")
    return [line.removesuffix(b"\r").strip(b" ") for line in ended] + [last.strip(b" ")]


def judge(text, maus):
    """Returns the line and the name of the first error (None if there is none), and the bytes by address."""
    loaded, at, has_ended = {}, None, False
    lines = lines_of(text)
    for number, line in enumerate(lines, 1):
        words = [word for word in line.split(b" ") if word]
        if not line:
            continue
        if has_ended:
            return (number, "AfterEnd"), None
        if line in (b"q", b"Q"):
            has_ended = True
        elif line.startswith(b"@") and hexadecimal(line[1:]) and len(line) <= 17:
            at = int(line[1:], 16)
        elif not all(len(word) == 2 and hexadecimal(word) for word in words):
            return (number, "BadLine"), None
        elif at is None:
            return (number, "NoAddress"), None
        else:
            for word in words:
                if at >= 1 << 8 * maus:
                    return (number, "Beyond"), None
                if at in loaded:
                    return (number, "Twice %d" % at), None
                loaded[at] = int(word, 16)
                at += 1
    return (None, loaded) if has_ended else ((len(lines), "NoEnd"), None)


def written(loaded):
    """Returns the text that is written for these bytes."""
    lines, run = [], []

    def end_run():
        if run:
            lines.append("@%04X" % run[0])
            lines.extend(" ".join("%02X" % loaded[at] for at in run[begin:begin + 16]) for begin in range(0, len(run), 16))
            run.clear()

    for at in sorted(loaded):
        if run and at != run[-1] + 1:
            end_run()
        run.append(at)
    end_run()
    return "".join(line + "\n" for line in [*lines, "q"])


def address(chance):
    top = chance.choice((0, 0, 0, 0, 0x100, 0x10000, 1 << 32, 1 << 64))
    return max(0, min(top + chance.randint(-40, 60), (1 << 64) - 1))


def line(chance):
    """Returns one line, most often a line of bytes."""
    way = chance.random()
    if way < 0.6:
        byte = chance.choice(("%02X", "%02x"))
        words = [byte % chance.randrange(256) for _ in range(chance.choice((1, 2, 3, 16, 17)))]
        return chance.choice((" ", " ", "  ")).join(words)
    if way < 0.9:
        return "@" + chance.choice(("%X", "%x", "%04X", "%016X")) % address(chance)
    return chance.choice(("", " ", "q", "@", "@0x10", "@00000000000000001", "0", "000", "0 1", "00,01", "00\t01", "00\r", "Q", "x", "@1 2", "q q"))


def text(chance):
    lines = ["@" + "%X" % address(chance)] if chance.random() < 0.9 else []
    lines += [line(chance) for _ in range(chance.choice((0, 1, 2, 3, 5, 8)))]
    lines += ["q"] if chance.random() < 0.9 else []
    lines += [chance.choice(("", " ", "q", "00"))] if chance.random() < 0.1 else []
    ends = [chance.choice(("\n", "\n", "\r\n")) for _ in lines]
    if ends and chance.random() < 0.1:
        ends[-1] = chance.choice(("", "\r"))
    spaces = [" " * chance.choice((0, 0, 0, 1, 2)) for _ in lines]
    return "".join(space + line + space + end for space, line, end in zip(spaces, lines, ends)).encode()


def is_as_judged(program, folder, maus, error, loaded):
    """Returns whether the program reads the file `text` in the folder as the second reader does."""
    def run(*words):
        made = subprocess.run([program, *words], cwd=folder, capture_output=True, check=False, text=True)
        return made.returncode, made.stdout, made.stderr

    if error:
        return run("fromtxt", "--maus", str(maus), "-o", "module", "text") == (1, "", "refused: text line %d: %s\n" % error)
    if run("fromtxt", "--maus", str(maus), "-o", "module", "text") != (0, "", "") or run("txt", "-o", "again", "module") != (0, "", ""):
        return False
    with open(os.path.join(folder, "again"), encoding="ascii") as again:
        return again.read() == written(loaded)


def main():
    if len(sys.argv) < 4:
        sys.exit(__doc__.strip())
    program, chance, count = os.path.abspath(sys.argv[1]), random.Random(int(sys.argv[2])), int(sys.argv[3])
    folder, differences, answers = tempfile.mkdtemp(prefix="mufom-"), 0, collections.Counter()
    for number in range(count):
        made, maus = text(chance), chance.choice((1, 2, 3, 4, 4, 4, 8))
        path = os.path.join(folder, "text")
        with open(path, "wb") as file:
            file.write(made)
        error, loaded = judge(made, maus)
        answers[error[1].split()[0] if error else "module"] += 1
        if not is_as_judged(program, folder, maus, error, loaded):
            differences += 1
            kept = os.path.join(folder, "%d.txt" % number)
            os.rename(path, kept)
            print(kept, "maus", maus, "should be", error or "a module")
    if not differences:
        shutil.rmtree(folder)
    print("%d of %d texts answered differently:" % (differences, count), dict(answers.most_common()))
    return min(differences, 1)


if __name__ == "__main__":
    sys.exit(main())
