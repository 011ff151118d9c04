"""Compares the program with judge.py on random module files, and measures it on large ones (--hostile).

    python3 tools/try_files.py PROGRAM SEED COUNT
    python3 tools/try_files.py PROGRAM --hostile [SECONDS]

Each random file is checked with its debug part read or skipped, and with or without the forms of GNU
binutils (--gnu). If the program and the judge disagree
about a file, it is kept in the folder for temporary files and its path is printed. The last line gives
the number of these files and how often each result occurred. The status is 0 if there are none.

A command on a hostile file may take SECONDS, 3 by default, and longer if its image is large.
"""

import collections
import os
import random
import subprocess
import sys
import tempfile
import threading
import time
from concurrent.futures import ProcessPoolExecutor

import hostile
import judge

# The limits for a command on hostile files: seconds, unless the arguments give others, and MiB as a constant plus multiples of its input and its image.
# A debug record may have only two bytes, but its item needs more than a hundred, so the multiple is large.
MOST_SECONDS = 3
MOST_MEMORY = (64, 50, 3)

# Bytes that mean something somewhere in a file.
MARKS = [*range(13), 0x20, 0x21, 0x7F, 0x80, 0x81, 0x84, 0x88, 0x89, 0x90, *range(0xA0, 0xB4), 0xB9,
         *range(0xBA, 0xC5), 0xC6, 0xC7, 0xC9, 0xCC, 0xCD, 0xCE, 0xD0, 0xD2, 0xD3, 0xD7, 0xD8, 0xDA,
         0xDB, 0xDD, *range(0xDE, 0x100)]
FIRST = {"I": 32, "L": 1, "P": 1, "R": 1, "S": 1, "X": 11}
LETTERS = {letter: code for code, letter in judge.LETTERS.items()}


class Maker:
    def __init__(self, seed):
        self.random = random.Random(seed)

    def chance(self, part):
        return self.random.random() < part

    def choose(self, *choices):
        return self.random.choice(choices)

    def number(self, value):
        """Returns a spelling of the number, now and then with leading zeros."""
        if value < 0x80 and not self.chance(0.1):
            return bytes([value])
        least = max(1, (value.bit_length() + 7) // 8)
        size = self.random.randint(least, 8) if self.chance(0.1) else least
        return bytes([0x80 + size]) + value.to_bytes(size, "big")

    def string(self, text):
        lead = bytes([len(text)]) if len(text) < 0x80 else b"\xDE" + bytes([len(text)])
        return lead + text

    def name(self):
        return self.string(self.choose(b"", b"a", b"main", bytes(200), b'"\\\x80'))

    def index(self, first):
        """Returns an index of a kind, most often the first."""
        return self.number(first + self.random.choice([0] * 14 + [1] * 5 + [2, 9]))

    def expression(self):
        text, terms = b"", 0
        for _ in range(self.random.randint(1, 4)):
            way = self.random.random()
            if terms > 1 and way < 0.35:
                text, terms = text + bytes([self.choose(0xA5, 0xA6, 0xA7, 0xA8, 0xAB, 0xB0)]), terms - 1
            elif terms and way < 0.45:
                text += bytes([self.choose(0xA2, 0xA3)])
            elif way < 0.75:
                letter = self.choose(*"IXRSLPRRR")
                text, terms = text + bytes([LETTERS[letter]]) + self.index(FIRST[letter]), terms + 1
            else:
                text, terms = text + self.number(self.choose(0, 1, 4, 127, 128, 300, 2**32)), terms + 1
        text += b"\xA5" * (terms - 1)
        if self.chance(0.05):
            text += bytes([self.random.choice(MARKS)])
        return b"" if self.chance(0.02) else text

    def note(self, code, first):
        numbers = b"".join(self.number(5) for _ in range(self.choose(0, 1, 2, 4)))
        return code + self.index(first) + self.number(3) + self.number(self.choose(1, 2, 6, 19, 10)) + numbers

    def section_record(self):
        index = self.index(1)
        letters = self.choose(b"\xC3", b"\xC1\xD3", b"\xC3\xD0", b"\xC3\xC4", b"\xC1\xD3\xD2")
        unkept = b"".join(self.number(7) for _ in range(self.choose(0, 0, 0, 1, 3)))
        second = self.number(3) if self.chance(0.1) else b""
        return self.choose(
            b"\xE6" + index + letters + self.name() + unkept,
            b"\xE6" + index + letters + self.name(),
            b"\xE7" + index + self.number(self.choose(1, 2, 4, 0, 2**31, 2**31 + 1)) + second,
            b"\xE2\xD3" + index + self.number(self.choose(0, 4, 2**33)),
            b"\xE2\xCC" + index + self.number(self.choose(0, 4096, 2**33)),
            self.choose(b"\xE1", b"\xE5\x01", b"\xF2\x00", b"\xE2\xC1", b"\xE8\x20\x01a"),
        )

    def external_record(self):
        public, reference = self.index(32), self.index(11)
        default = self.number(3) if self.chance(0.5) else b""
        return self.choose(
            b"\xE8" + public + self.name(),
            b"\xE2\xC9" + public + self.expression(),
            self.note(b"\xF1\xC9", 32),
            b"\xE9" + reference + self.name(),
            b"\xF4" + reference + self.number(8) + default,
            self.note(b"\xF1\xD8", 11),
            self.choose(b"\xE1", b"\xE4", b"\xF3", b"\xE5\x01"),
        )

    def item(self):
        if self.chance(0.4):
            return self.number(2) + b"\x4E\x71"
        bracket = self.choose(0xBA, 0xBC, 0xBE)
        size = self.number(self.choose(1, 2, 4, 8, 0, 9)) if self.chance(0.4) else b""
        if size and self.chance(0.6):
            size = b"\x90" + size
        partner = bracket + 1 if self.chance(0.95) else 0xBF
        return bytes([bracket]) + self.expression() + size + bytes([partner])

    def data_record(self):
        items = b"".join(self.item() for _ in range(self.choose(0, 1, 1, 2, 3)))
        times = self.number(self.choose(0, 2, 2**40))
        return self.choose(
            b"\xE5" + self.index(1),
            b"\xE2\xD0" + self.index(1) + self.expression(),
            b"\xED" + self.number(3) + b"\x01\x02\x03",
            b"\xE4" + items,
            b"\xF7" + times + b"\xED" + self.number(1) + b"\x09",
            b"\xF7" + times + b"\xE4" + items,
            self.choose(b"\xE1", b"\xF7\x02\xE5", b"\xE0\x01a\x01b"),
        )

    def block_begin(self):
        scope = self.number(self.choose(0, 2)) + self.number(3) + self.expression()
        numbers = b"".join(self.number(5) for _ in range(self.choose(0, 1, 6)))
        return b"\xF8" + self.choose(
            b"\x03" + self.number(0) + self.name(),
            b"\x05" + self.number(9) + self.name() + numbers,
            self.choose(b"\x04", b"\x06") + self.number(0) + self.name() + scope,
            b"\x0B\x00" + self.name() + self.number(1) + self.index(1) + self.expression(),
            self.choose(b"\x03", b"\x04", b"\x07", b"\x0A") + b"\x00\x01a",
        )

    def block_end(self, kind):
        """Returns the end of a block, most often one that is allowed for its kind."""
        plain = kind in (3, 5) if self.chance(0.9) else self.chance(0.5)
        return b"\xF9" + (b"" if plain else self.expression())

    def debug_record(self):
        return self.choose(
            b"\xF0" + self.index(32) + self.name(),
            b"\xE2\xCE" + self.index(32) + self.expression(),
            self.note(b"\xF1\xCE", 32),
            self.choose(b"\xE1", b"\xE5\x01", b"\xF9", b"\xF8\x03\x00\x00" * 31) if self.chance(0.1) else b"",
        )

    def debug_part(self):
        if self.chance(0.1):  # data of another format
            return bytes(self.random.choice(b"\x00\x01\x05\x82\xA5\xC9\xE1") for _ in range(self.random.randint(1, 6)))
        part, kinds = b"\xF0\x20\x01n" if self.chance(0.4) else b"", []
        for _ in range(self.choose(0, 0, 1, 2, 4, 8)):
            if kinds and self.chance(0.3):
                part += self.block_end(kinds.pop())
            elif self.chance(0.4):
                begin = self.block_begin()
                kinds.append(begin[1])
                part += begin
            else:
                part += self.debug_record()
        while kinds and self.chance(0.9):
            part += self.block_end(kinds.pop())
        return part

    def trailer_record(self):
        start = self.choose(self.expression(), b"\xBE" + self.expression() + b"\xBF")
        return b"\xE2\xC7" + start if self.chance(0.9) else self.choose(b"\xE5\x01", b"\xE1")

    def records(self, make, *counts):
        return b"".join(make() for _ in range(self.choose(*counts)))

    def parts(self):
        if self.chance(0.2):  # a long debug part is read only if there is no error before it
            return [b"", b"", b"\xE6\x01\xC3\xD0\x01a", b"", self.debug_part(), b"", b""]
        sections = self.records(self.section_record, 0, 1, 2, 3, 4)
        externals = self.records(self.external_record, 0, 0, 1, 2, 4)
        data = self.records(self.data_record, 0, 1, 2, 3, 5)
        if self.chance(0.9):  # a valid beginning
            sections = b"\xE6\x01\xC3\xD0\x01a\xE6\x02\xC1\xD3\x01b\xE2\xCC\x02\x05" + sections
            if self.chance(0.6):
                externals = b"\xE8\x20\x01p\xE2\xC9\x20\x05\xE9\x0B\x01q" + externals
            if self.chance(0.7):
                data = b"\xE5\x01" + data
        debug = bytes(self.random.choice(MARKS) for _ in range(4)) if self.chance(0.1) else self.debug_part()
        raw = self.choose(b"", b"", bytes([self.random.choice(MARKS)]) * 3)
        return [raw, self.choose(b"", b"", b"\xF1"), sections, externals, debug, data,
                self.records(self.trailer_record, 0, 0, 1, 1, 2)]

    def file(self):
        head = b"\xE0" + self.string(b"68000") + self.string(b"m") + b"\xEC\x08"
        head += self.number(self.random.choice([4] * 12 + [1, 2, 3, 5, 8, 9])) + self.choose(b"", b"\xCC", b"\xCD")
        parts, place, offsets = self.parts(), len(head) + 64, []
        for part in parts:
            offsets.append(place if part or self.chance(0.05) else 0)
            place += len(part)
        offsets.append(place)
        if self.chance(0.03):
            offsets[self.random.randrange(8)] = self.choose(0, place - 1, place + 1)
        for number, offset in enumerate(offsets):
            head += b"\xE2\xD7" + bytes([number]) + b"\x84" + offset.to_bytes(4, "big")
        return head + b"".join(parts) + b"\xE1" + (b"\x00" if self.chance(0.02) else b"")

    def changed(self, data):
        """Returns the bytes after one to three changes: a byte replaced, inserted or removed, or the rest cut off."""
        data = bytearray(data)
        for _ in range(self.choose(1, 1, 1, 2, 3)):
            place, byte = self.random.randrange(len(data) + 1), self.random.choice(MARKS)
            way = self.random.random()
            if way < 0.7:
                data[place:place + 1] = bytes([byte])
            elif way < 0.8:
                data[place:place] = bytes([byte])
            elif way < 0.9:
                del data[place:place + 1]
            else:
                data = data[:place]
        return bytes(data)


def told(program, path, reads_debug, gnu):
    words = [program, "check", path] + ([] if reads_debug else ["--no-debug"]) + (["--gnu"] if gnu else [])
    run = subprocess.run(words, capture_output=True, check=False)
    return run.returncode, run.stdout.decode("ascii"), run.stderr.decode("ascii")


def made(number, folder):
    """Writes the files of a kind into the folder. Returns the commands for them, and their size in MiB."""
    files, commands = hostile.KINDS[number]()
    for name, data in files.items():
        with open(os.path.join(folder, name), "wb") as file:
            file.write(data)
    return commands, sum(len(data) for data in files.values()) / 2**20


def timed(program, words, folder, most_seconds):
    """Returns the seconds and the MiB that a command takes, and its exit status. After twice most_seconds it is killed."""
    begin = time.perf_counter()
    child = subprocess.Popen([program, *words], cwd=folder, stdout=subprocess.DEVNULL, stderr=subprocess.DEVNULL)
    stop = threading.Timer(2 * most_seconds, child.kill)
    stop.start()
    _, status, usage = os.wait4(child.pid, 0)
    stop.cancel()
    child.returncode = os.waitstatus_to_exitcode(status)
    return time.perf_counter() - begin, usage.ru_maxrss / 1024, child.returncode


def try_hostile(program, seconds_allowed):
    """Returns 1 if a command on a hostile input takes too much time or memory, or has the wrong exit status; otherwise 0."""
    program, failures = os.path.abspath(program), 0
    # The peak memory of a child includes that of this process when the child was started, so another process makes the files.
    with ProcessPoolExecutor(1) as maker:
        for number, kind in enumerate(hostile.KINDS):
            with tempfile.TemporaryDirectory(prefix="mufom-") as folder:
                commands, size = maker.submit(made, number, folder).result()
                for line, wanted, *image in commands:
                    most_seconds = seconds_allowed + sum(image) / 32
                    seconds, memory, status = timed(program, line.split(), folder, most_seconds)
                    most = MOST_MEMORY[0] + MOST_MEMORY[1] * size * max(1, line.split().count("m")) + MOST_MEMORY[2] * sum(image)
                    bad = seconds > most_seconds or memory > most or status != wanted
                    failures += bad
                    print("%-22s %-26s %6.2f s %6.0f MiB of %6.0f, status %d%s"
                          % (kind.__name__, line[:26], seconds, memory, most, status, "  TOO MUCH OR OTHERWISE" if bad else ""), flush=True)
    return min(failures, 1)


def main():
    is_hostile = sys.argv[2:3] == ["--hostile"]
    if not is_hostile and len(sys.argv) < 4:
        sys.exit(__doc__.strip())
    if is_hostile:
        return try_hostile(sys.argv[1], float(sys.argv[3]) if sys.argv[3:] else MOST_SECONDS)
    program, seed, count = sys.argv[1], int(sys.argv[2]), int(sys.argv[3])
    here = os.path.dirname(os.path.abspath(__file__))
    with open(os.path.join(here, "..", "crates", "mufom", "data", "a.695"), "rb") as sample:
        sample = sample.read()
    maker, answers, differences = Maker(seed), collections.Counter(), 0
    folder = tempfile.mkdtemp(prefix="mufom-")
    for number in range(count):
        data = maker.file() if maker.chance(0.8) else sample
        if data is sample or maker.chance(0.3):
            data = maker.changed(data)
        reads_debug, gnu = maker.chance(0.5), maker.chance(0.5)
        path = os.path.join(folder, "%d.695" % number)
        with open(path, "wb") as file:
            file.write(data)
        wanted = judge.answer(data, reads_debug, gnu)
        answers[wanted[2].split(": ")[-1].strip() or "module"] += 1
        if told(program, path, reads_debug, gnu) == wanted:
            os.remove(path)
        else:
            differences += 1
            print(path, "debug" * reads_debug, "gnu" * gnu, "should be", wanted)
    if not differences:
        os.rmdir(folder)
    print("%d of %d files answered differently:" % (differences, count), dict(answers.most_common()))
    return min(differences, 1)


if __name__ == "__main__":
    sys.exit(main())
