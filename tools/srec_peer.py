#!/usr/bin/env python3
"""Sends random images through `txt`, srec_cat and `fromtxt`, and compares the results.

usage: srec_peer.py PROGRAM [COUNT [SEED]]      COUNT images, 200 by default

For each image it makes a module, and `txt` makes the TI-TXT text of it. srec_cat (of the package srecord) converts the
text to S-records and these back to a text; `fromtxt` and then `txt` must turn that into the first text again. The module
that `fromtxt` makes of the first text must have the image of the original module. Without srec_cat nothing is tried, and
one line says so.
"""
import os, random, shutil, subprocess, sys, tempfile

from hostile import file_of, number


def image(chance):
    """Returns runs of bytes at addresses of 32 bits that neither overlap nor touch."""
    rows, at = [], chance.randrange(1 << 12)
    for _ in range(chance.randint(1, 8)):
        row = bytes(chance.randrange(256) for _ in range(chance.randint(1, 120)))
        rows.append((at, row))
        at += len(row) + chance.choice((1, 2, 15, 300, 70_000, 1 << 24))
    return rows


def module(rows):
    sections, data = b"", b""
    for place, (at, row) in enumerate(rows, 1):
        index = number(place)
        sections += b"\xE6" + index + b"\xC1\xD3\x01t\xE2\xD3" + index + number(len(row)) + b"\xE2\xCC" + index + number(at)
        data += b"\xE5" + index + b"\xED" + number(len(row)) + row
    return file_of(b"m", sections=sections, data=data)


def try_image(program, folder, rows):
    """Returns whether an image comes back unchanged."""
    def run(*words):
        return subprocess.run(words, cwd=folder, capture_output=True, check=True).stdout

    def bytes_of(name):
        with open(os.path.join(folder, name), "rb") as file:
            return file.read()

    with open(os.path.join(folder, "m"), "wb") as file:
        file.write(module(rows))
    run(program, "txt", "-o", "first", "m")
    run("srec_cat", "first", "-ti-txt", "-o", "records", "-motorola")
    run("srec_cat", "records", "-motorola", "-o", "second", "-ti-txt")
    run(program, "fromtxt", "-o", "made", "second")
    run(program, "txt", "-o", "third", "made")
    run(program, "fromtxt", "-o", "own", "first")
    return bytes_of("first") == bytes_of("third") and run(program, "dump", "m") == run(program, "dump", "own")


def main():
    if len(sys.argv) < 2:
        sys.exit(__doc__.strip())
    if not shutil.which("srec_cat"):
        print("srec_cat is not installed (package srecord): nothing was tried")
        return
    program, count = os.path.abspath(sys.argv[1]), int((sys.argv[2:] or ["200"])[0])
    chance, bad = random.Random(int((sys.argv[3:] or ["1"])[0])), 0
    with tempfile.TemporaryDirectory(prefix="mufom-") as folder:
        for _ in range(count):
            rows = image(chance)
            if not try_image(program, folder, rows):
                bad += 1
                print("otherwise:", rows)
    print(f"{count} images, {bad} came back otherwise")
    sys.exit(min(bad, 1))


main()
