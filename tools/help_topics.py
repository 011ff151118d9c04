"""Checks that `help` and docs/REFUSALS.md know every name that an error line can have.

    python3 tools/help_topics.py

The names come from the definition of the error lines, crates/mufom_outcome/specs/Complaint.antt, and
from the enums of errors; the commands come from crates/mufom_words/specs/Options.antt. Each name must
have a topic in crates/mufom_help whose text shows its line, and a row in docs/REFUSALS.md (or a
paragraph that begins with the name); each command must have a topic, and a line in the list of
commands. Each kind of error line without a name must have a topic that shows how it begins, and a row.
A topic that belongs to none of these is reported too. Whatever is
missing is printed, one line each, and the status is then 1.
"""

import glob
import os
import re
import sys

TOP = os.path.dirname(os.path.dirname(os.path.abspath(__file__)))
# The text before a name in an error line, by the definition in which the name occurs. For other definitions it is not known.
BEFORE = {"reason_text": "", "plan_text": "plan: ", "link_text": "link: ", "place_text": "locate: ", "locate_text": "locate: "}
# The enums whose variants are the names of errors.
ENUMS = ("Reason", "TxtReason", "BuildReason", "Defect", "PlanRefusal", "LinkRefusal", "PruneRefusal", "PlaceRefusal", "LocateRefusal")
# Variants that are not names: they have no line of their own, or only hold another error.
NOT_NAMES = {"NoMemory", "Place"}
# The topics on error lines without a name and on plans, and how such a line begins.
BEGINNINGS = {"usage": "usage: ", "read": "read fault: ", "write": "write fault", "memory": "out of memory", "plan": "refused: plan: "}
# Commands that are not in the table of commands, since they read no options.
OTHER_COMMANDS = {"explain", "help", "version"}


def read(path):
    with open(os.path.join(TOP, path), encoding="utf-8") as file:
        return file.read()


def lines_of_errors():
    """Returns pairs of the text before a name (None if it is not known) and the name."""
    found = set()
    for line in read("crates/mufom_outcome/specs/Complaint.antt").splitlines():
        words = re.match(r"(\w+) ", line)
        if words and line.startswith(words[1]) and "=" in line:
            definition = words[1]
        if line.startswith(("use ", "--", "usage_text")):
            continue
        for text in re.findall(r'codes "([^"]*)"', line):
            for before, name in re.findall(r"(\b\w+: )?\b([A-Z][a-z]\w*)", text):
                found.add((before or BEFORE.get(definition), name))
    return found


def variants():
    """Returns the variants of those enums of errors from which error lines are made."""
    found = set()
    printed = read("crates/mufom_outcome/specs/Complaint.antt")
    for path in glob.glob(os.path.join(TOP, "crates/*/src/*.rt")):
        for enum, body in re.findall(rf"pub enum ({'|'.join(ENUMS)}) \{{\n(.*?)^\}}", read(path), re.M | re.S):
            if f".{{{enum}}}" in printed:
                found |= set(re.findall(r"^    ([A-Z]\w+)", body, re.M))
    return found - NOT_NAMES


def topics():
    """Returns the topics by name, and the list of commands."""
    texts, names = {}, {}
    for path in glob.glob(os.path.join(TOP, "crates/mufom_help/src/*.rt")):
        source = read(path)
        for constant, text in re.findall(r'^pub const (\w+): &str =\s*"((?:[^"\\]|\\.)*)";', source, re.M):
            texts[path, constant] = text
        for name, constant in re.findall(r'^        "(\w+)" => Some\((\w+)\),', source, re.M):
            names[name] = texts[path, constant]
    (listed,) = (text for (_, constant), text in texts.items() if constant == "LIST")
    return names, listed


def rows():
    """Returns the first cells of the rows of docs/REFUSALS.md, and the names that begin a paragraph."""
    page = read("docs/REFUSALS.md")
    return re.findall(r"^\| `([^`]*)`", page, re.M) + re.findall(r"^`(\w+)`", page, re.M)


def missing():
    known, listed = topics()
    cells = rows()
    errors = lines_of_errors()
    names = {name for _, name in errors} | variants()
    for name in sorted(names - set(known)):
        yield f"no topic: {name}"
    for name in sorted(names):
        if not any(re.search(rf"\b{name}\b", cell) for cell in cells):
            yield f"no row: {name}"
    for before, name in sorted(errors, key=str):
        if before and not any(re.match(rf"{before}{name}\b", cell) for cell in cells):
            yield f"no row: {before}{name}"
        shown = f"refused: file N at OFFSET: {name}" if before == "" else f"{before or ''}{name}"
        if name != "FileLimit" and shown not in known.get(name, shown):
            yield f"the topic does not show its line: {shown}"
    commands = set(re.findall(r'\bname = codes "(\w+)"', read("crates/mufom_words/specs/Options.antt"))) | OTHER_COMMANDS
    for command in sorted(commands):
        if command not in known:
            yield f"no topic: {command}"
        if not re.search(rf"^  {command}\b", listed, re.M):
            yield f"not in the list of commands: {command}"
    for topic, beginning in BEGINNINGS.items():
        if f"\n  {beginning}" not in known.get(topic, ""):
            yield f"no topic that shows its line: {topic}"
        if not any(cell.startswith(beginning.removeprefix("refused: ")) for cell in cells):
            yield f"no row: {beginning}"
    for name in sorted(set(known) - names - commands - set(BEGINNINGS)):
        yield f"neither a command nor an error line: {name}"


def main():
    found = list(missing())
    for line in found:
        print(line)
    print(f"{len(topics()[0])} topics, {len(found)} lines above")
    return 1 if found else 0


if __name__ == "__main__":
    sys.exit(main())
