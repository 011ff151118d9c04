#!/usr/bin/env python3
"""Writes docs/CALLS.md: every public call of every crate, with its conditions, its clauses and its result type.

usage: public_calls.py [--check]      run at the top of the repository

A call is public if the root of its crate exports it, or the type that it belongs to. With --check it writes nothing, prints whether
docs/CALLS.md is up to date, and ends with status 1 if it is not.
"""
import os, re, sys

PAGE = "docs/CALLS.md"
SIGNATURE = re.compile(r"^( *)pub fn (\w+)\s*(<[^(]*>)?\((.*?)\)\s*(?:->\s*(.*?))?\s*\n(.*?)^\1\{", re.M | re.S)
IMPL = re.compile(r"^impl(?:<[^{]*?>)?\s+(?:(\w+)(?:<[^{]*?>)?\s+for\s+)?(\w+)", re.M)


def read(path):
    with open(path, encoding="utf-8") as file:
        return file.read()


def errors_of_memory(crates):
    """Returns the error types that include running out of memory, directly or through another such type."""
    variants = {}
    for crate in crates:
        for path in files(crate):
            for name, body in re.findall(r"pub enum (\w+)[^{]*\{(.*?)^\}", read(path), re.M | re.S):
                variants[name] = set(re.findall(r"\w+", re.sub(r"//[^\n]*", "", body)))
    found = {"NoMemory"}
    while True:
        more = {name for name, words in variants.items() if words & found} - found
        if not more:
            return found
        found |= more


def exported(crate):
    """Returns the names that a crate's root exports."""
    root = read(f"crates/{crate}/src/lib.rt")
    names = set()
    for group, one in re.findall(r"^pub use [\w:]+?::(?:\{([^}]*)\}|(\w+));", root, re.M):
        names |= {it.strip().split(" as ")[-1] for it in (group or one).split(",") if it.strip()}
    return names


def files(crate):
    for folder, _, names in sorted(os.walk(f"crates/{crate}/src")):
        for name in sorted(names):
            if name.endswith(".rt") and "test" not in os.path.join(folder, name).split("/src/")[1]:
                yield os.path.join(folder, name)


def calls(crate, of_memory):
    names = exported(crate)
    for path in files(crate):
        text = read(path)
        owners = [(found.start(), found[2]) for found in IMPL.finditer(text)]
        for found in SIGNATURE.finditer(text):
            indent, name, _, params, answer, clauses = found.groups()
            owner = ""
            if indent:
                before = [it for at, it in owners if at < found.start()]
                owner = before[-1] if before else ""
            if (owner or name) not in names:
                continue
            needs = len(re.findall(r"^\s*requires\b", clauses, re.M))
            gives = len(re.findall(r"^\s*ensures\b", clauses, re.M))
            answer = re.sub(r"\s+", " ", answer or "()").strip()
            memory = "yes" if set(re.findall(r"\w+", answer)) & of_memory else ""
            host = "yes" if re.search(r"&mut (H|S|K|W)\b|&mut impl", params) else ""
            yield (f"{owner}::{name}" if owner else name, needs, gives, memory, host, answer)


def main():
    crates = re.findall(r"^([a-z_0-9]+):", read("crates.txt"), re.M)
    page = ["# Public calls", "",
            "Every public call, from the crate roots, written by `python3 tools/public_calls.py`. Each is proved to return if its conditions hold.",
            "*Conditions* and *clauses* count the `requires` and `ensures` of its contract. A call with *memory* returns a type that has a case for",
            "out of memory; most such calls allocate, and their clauses say what is known after that error. A call with *host* is given a host, or an output",
            "to write to (a page over a host, or a text in memory). If it returns an I/O error, an error counter of the host increased.", ""]
    total, crates = 0, [it for it in crates if os.path.isfile(f"crates/{it}/src/lib.rt")]
    of_memory = errors_of_memory(crates)
    for crate in crates:
        rows = list(calls(crate, of_memory))
        if not rows:
            continue
        total += len(rows)
        page += [f"## {crate}", "", "| call | conditions | clauses | memory | host | returns |", "|---|---|---|---|---|---|"]
        page += ["| `%s` | %d | %d | %s | %s | `%s` |" % row for row in rows] + [""]
    page += [f"{total} calls.", ""]
    text = "\n".join(page)
    if "--check" in sys.argv:
        same = os.path.isfile(PAGE) and read(PAGE) == text
        print("up to date" if same else f"{PAGE} is stale: run tools/public_calls.py")
        sys.exit(0 if same else 1)
    with open(PAGE, "w", encoding="utf-8") as file:
        file.write(text)
    print(f"{PAGE}: {total} calls")


main()
