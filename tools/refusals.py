"""Tries the examples of docs/REFUSALS.md that have one of the forms of that page.

    python3 tools/refusals.py PROGRAM

Makes the files of each example, runs the program, and compares the line on standard error with the row. Then
it compares what `explain` prints for the same arguments: that line, the lines of the row's column or of the
sentence above the table, an empty line and what `help` prints.
Examples that are only described are skipped. The last line gives the number of comparisons that hold
and of those that do not; the status is 0 if all hold.
"""

import os
import re
import subprocess
import sys
import tempfile

TOP = os.path.dirname(os.path.dirname(os.path.abspath(__file__)))
SAMPLE = open(os.path.join(TOP, "crates/mufom/data/a.695"), "rb").read()
SECTIONS_END = 100
HEADER = 'module "m" processor "68000" maus 4 order M'
# How the columns of explain's lines are called. The second begins with the error line, without `refused: `.
BELOW = "below the line `explain` prints"
WHOLE = "what `explain` prints"
# The positions, in the sample, of the four bytes of each part's offset.
OFFSETS = {"external": 13 + 8 * 3 + 4, "debug": 13 + 8 * 4 + 4, "data": 13 + 8 * 5 + 4, "trailer": 13 + 8 * 6 + 4, "end": 13 + 8 * 7 + 4}


def with_offset(data, part, value):
    at = OFFSETS[part]
    return data[:at] + value.to_bytes(4, "big") + data[at + 4:]


def with_part(part, contents):
    """Returns the sample with one part after its sections, and without a trailer."""
    data = SAMPLE[:SECTIONS_END]
    for other in ("data", "trailer"):
        data = with_offset(data, other, 0)
    data = with_offset(data, part, SECTIONS_END)
    data = with_offset(data, "end", SECTIONS_END + len(contents))
    return data + contents + b"\xE1"


def file_of(example):
    """Returns the bytes of the file that an example describes; None if it has none of the forms."""
    kind, _, rest = example.partition(" ")
    if kind == "byte":
        at, _, byte = rest.partition(" = ")
        return SAMPLE[:int(at)] + bytes.fromhex(byte) + SAMPLE[int(at) + 1:]
    if kind == "first":
        return SAMPLE[:int(rest)]
    if kind == "and":
        return SAMPLE + bytes.fromhex(rest)
    if kind in ("data", "external", "debug"):
        return with_part(kind, bytes.fromhex(rest))
    if kind == "text":
        return "".join(line + "\n" for line in rest.split(" / ")).encode()
    return None


def listing_of(text):
    """Returns the listing of an example, with a first line if it has none."""
    lines = [line.strip() for line in text.split(";")]
    if not lines[0].startswith("module"):
        lines.insert(0, HEADER)
    return "".join(line + "\n" for line in lines).encode()


class Row:
    """A row of a table: its name, its example, and what `explain` prints, by the columns of the table."""

    def __init__(self, header, cells):
        columns = dict(zip(header, cells))
        self.name = re.fullmatch(r"`([^`]*)`", cells[0]).group(1)
        self.parts = dict(part.partition(" ")[::2] for part in re.findall(r"`([^`]*)`", columns.get("example", "")))
        self.place = re.search(r"` at ([0-9 ]+)$", columns.get("example", ""))
        self.line = None
        told = columns.get(WHOLE) or columns.get(BELOW)
        self.details = re.findall(r"`([^`]*)`", told) if told else None
        if WHOLE in columns:
            self.line = self.details.pop(0)

    def files(self):
        """Returns the files of the example, and the names of those that `build` makes modules of."""
        files, built = {}, []
        if "plan" in self.parts:
            files["p"] = "".join(line.strip() + "\n" for line in self.parts["plan"].split(" / ")).encode()
        for name, text in zip(("x", "y"), self.parts.get("listing", "").split("//") if "listing" in self.parts else []):
            files[name + ".txt"] = listing_of(text)
            if "words" in self.parts:
                built.append(name)
        for kind, rest in self.parts.items():
            data = file_of(kind + " " + rest)
            if data is not None and self.place:
                files["x.695"] = data
        return files, built

    def arguments(self):
        """Returns the arguments that give the error, and its line; None if the example is only described."""
        if "words" in self.parts:
            words = self.parts["words"].split()
            if self.line is not None:
                return words, "refused: " + self.line
            return words, self.name.replace(" N", " 0")
        if "plan" in self.parts:
            return ["dump", "--plan", "p", "a.695"], "refused: " + self.name.replace(" N", " 0")
        if "listing" in self.parts:
            place = self.place.group(1).split() if self.place else ["", ""]
            return ["build", "-o", "c", "x.txt"], "refused: " + self.name.replace("line N column M", "line %s column %s" % tuple(place))
        if not self.place or not self.files()[0]:
            return None
        place = self.place.group(1)
        if self.name.startswith("text line N: "):
            return ["fromtxt", "-o", "c", "x.695"], "refused: " + self.name.replace(" N:", f" {place}:").replace("ADDRESS", "0")
        return ["check", "x.695"], f"refused: file 0 at {place}: {self.name}"

    def explained_lines(self):
        """Returns the lines between the error line and the text of `help`."""
        if self.details is None:
            # The sentence above the table: the file is named.
            file = "x.txt" if "listing" in self.parts else "x.695"
            return f'file 0: "{file}"\n'
        return "".join(line + "\n" for line in self.details)


def examples():
    header = []
    for line in open(os.path.join(TOP, "docs/REFUSALS.md")):
        cells = [cell.strip() for cell in line.strip().strip("|").split("|")]
        if cells[0] in ("error", "line"):
            header = cells
        elif line.startswith("| `"):
            row = Row(header, cells)
            if row.arguments() is not None:
                yield row


def topic_of(words, wanted):
    """Returns the arguments with which `help` prints the text on an error line."""
    if wanted.startswith("usage: "):
        return [words[0]] if words and not words[0].startswith("-") else []
    if wanted.startswith("read fault"):
        return ["read"]
    return [re.search(r"\b[A-Z]\w*", wanted).group(0)]


def explained(program, folder, words, wanted, details):
    """Returns the text that `explain` should print."""
    help_of = [program, "help", *topic_of(words, wanted)]
    text = subprocess.run(help_of, cwd=folder, capture_output=True, text=True, check=False)
    if text.returncode != 0:
        # The first argument names no command.
        text = subprocess.run([program, "help"], cwd=folder, capture_output=True, text=True, check=False)
    return wanted + "\n" + details + "\n" + text.stdout


def prepare(program, folder, row):
    """Writes the files of an example. Returns the error of `build`, empty if there is none."""
    files, built = row.files()
    for name, data in files.items():
        open(os.path.join(folder, name), "wb").write(data)
    for name in built:
        run = subprocess.run([program, "build", "-o", name + ".695", name + ".txt"], cwd=folder, capture_output=True, text=True, check=False)
        if run.returncode != 0:
            return run.stderr
    return ""


def try_row(program, folder, row):
    """Compares the error line of an example, and what `explain` prints; returns what differs."""
    words, wanted = row.arguments()
    broken = prepare(program, folder, row)
    if broken:
        return ["%s: its listing has an error: %s" % (row.name, broken)] * 2
    differ = []
    run = subprocess.run([program, *words], cwd=folder, capture_output=True, text=True, check=False)
    if run.stderr != wanted + "\n" or run.stdout != "":
        differ.append("%s: wanted %r, got %r, %r" % (" ".join(words), wanted, run.stderr, run.stdout))
    want = explained(program, folder, words, wanted, row.explained_lines())
    run = subprocess.run([program, "explain", *words], cwd=folder, capture_output=True, text=True, check=False)
    if run.stdout != want or run.stderr != "" or run.returncode != 0:
        differ.append("explain %s: wanted %r, got %r, %r" % (" ".join(words), want, run.stdout, run.stderr))
    return differ


def main():
    if len(sys.argv) < 2:
        sys.exit(__doc__.strip())
    program = os.path.abspath(sys.argv[1])
    passed = failed = 0
    with tempfile.TemporaryDirectory() as folder:
        open(os.path.join(folder, "a.695"), "wb").write(SAMPLE)
        for row in examples():
            differ = try_row(program, folder, row)
            failed += len(differ)
            passed += 2 - len(differ)
            for line in differ:
                print(line)
    print("%d passed, %d failed" % (passed, failed))
    sys.exit(1 if failed else 0)


main()
