#!/usr/bin/env python3
"""Writes docs/AUDIT.md: the definitions on which the contract of the program and the public laws depend.

usage: audit.py [--check]      run at the top of the repository

It starts with the names in the clauses, and in the definitions, of PARTS, and follows each name to its definition through the `use` lines of its
file. It respects scopes, so a variable or a field is not mistaken for a definition of the same name. An operator is
followed like a name, and `do` uses `>>=`. Definitions in the crates' specs/ are followed; types and constants that Rust
declares, and definitions of the toolchain's library, are listed by name. With --check it writes nothing, prints whether
docs/AUDIT.md is up to date, and ends with status 1 if it is not.
"""
import os, re, sys

# The parts of the page. Each has a title, what it is about, and what it begins with: functions whose clauses a reader has to
# trust (the file below crates/, and the name, or None for every function in the file), and definitions (the file, and the
# name). A definition is listed in the first part that reaches it. Where a part reaches a definition with which a later part
# begins, the later part has it.
PARTS = [
    ("Linking and locating",
     "The headline, as the contract of the program states it: what a run has done if no I/O call failed, it did not run out of memory, and its plan and"
     " files were accepted. Whoever reads this part and the next knows what a linked module and a location are, when they are made, and which bytes,"
     " publics, start and debug addresses they have.",
     [], [("mufom_headline/specs/Headline.antt", "RunLocates"), ("mufom_headline/specs/Linking.antt", "RunLinks")]),
    ("Files of modules",
     "Which modules a file holds, and the file of a module: IEEE Std 695 as it is read and written, and archives.",
     [], [("mufom_task/specs/Inputs.antt", "ComeTo"), ("mufom_task/specs/Inputs.antt", "module_files"),
          ("mufom_module/specs/Written.antt", "written"), ("mufom_module/specs/Written.antt", "weight"),
          ("mufom_judging/specs/Judging.antt", "IsModule"), ("mufom_headline/specs/ReadBack.antt", "IsReadAt"),
          ("mufom_module/specs/Defects.antt", "IsValid")]),
    ("Errors of files",
     "Which error a file has, and where, if it holds no module.",
     [], [("mufom_task/specs/Inputs.antt", "IsFileRefused"), ("mufom_task/specs/Inputs.antt", "IsFilePast"),
          ("mufom_judging/specs/Limited.antt", "IsRefusedWithin"), ("mufom_judging/specs/Limited.antt", "IsPastLimit"),
          ("mufom_members/specs/Files.antt", "IsFirstRefused"), ("mufom_members/specs/Files.antt", "IsPrefixVerdict")]),
    ("Plans",
     "Which plan a text is, and its errors.",
     [], [("mufom_plan/specs/PlanText.antt", "plan_of_text")]),
    ("Arguments",
     "What the arguments of the command line ask for.",
     [], [("mufom_words/specs/Answer.antt", "answer_of")]),
    ("Texts",
     "What is printed or written of a location other than its bytes.",
     [], [("mufom_text/specs/Image.antt", "image_text"), ("mufom_map/specs/MapText.antt", "view_text"), ("mufom_map/specs/Mapped.antt", "mapped_by"),
          ("mufom_works/specs/Text.antt", "hit_text"), ("mufom_addr/specs/AddressHit.antt", "hit_at"),
          ("mufom_titxt/specs/Written.antt", "txt_text")]),
    ("All runs",
     "The contract of the program, of which the headline is what follows for linking and locating: each outcome has its cause, and the arguments and the"
     " files determine it; `explain`, `build`, `fromtxt`, `make`, `show` and `check`; the error lines and the exit status.",
     [("mufom/src/main.rt", "program")], []),
    ("Further laws",
     "The public laws beside the headline.",
     [("mufom_headline/src/laws.rt", None), ("mufom_headline/src/read_back.rt", None), ("mufom_run_laws/src/laws.rt", None),
      ("mufom_judging/src/laws.rt", None), ("mufom_groups/src/laws.rt", None), ("mufom_prune/src/laws.rt", None),
      ("mufom_make/src/laws.rt", None), ("mufom_debug_laws/src/laws.rt", None)], []),
]
# What an auditor reads in addition: the clauses of the outside world, the exit status, and how contracts see these types.
BESIDE = ["mufom_host/src/world.rt", "mufom_outcome/src/outcome.rt", "mufom_numbers/src/text.rt", "mufom_numbers/src/bytes.rt",
          "mufom_numbers/src/list.rt", "mufom_expr/src/postfix.rt", "mufom_module/src/module.rt"]
# Laws on which the facts of a list rest: the file of proofs, and the name.
FACTS = [("mufom_meaning/proofs/facts/AllAnswers.antt", "answers_are_facts"),
         ("mufom_meaning/proofs/staging/Stages.antt", "staged_means_the_same")]
PAGE = "docs/AUDIT.md"
TOKEN = re.compile(r'"(?:\\.|[^"\\])*"|[()\[\]{},;]|[^\s()\[\]{},;"]+')
# A line that begins a definition. All other lines continue the definition before them.
START = re.compile(r"^(?:(?:abbrev|unfoldable|pub)\s+)*(?:(record|data)\s+(\S+)|(\S+)\s+:)")
USE = re.compile(r"^(?:ghost |pub )*use (Rattle\.[^\s{]+?)(?:\.\{([^}]*)\})?(?: as (\S+?))?;?\s*$", re.M)
# Constructors of the library that may occur in patterns.
BUILT_IN = {"Some", "None", "Ok", "Err", "true", "false", "zero", "suc", "tt", "inl", "inr", "refl", "[]", "∷", "_"}
SIGNS = {":", "=", "→", "λ", "←", "×", "|", "↦", "∷", "let", "in", "do", "where", "record", "data", "pub", "abbrev"}


def read(path):
    with open(path, encoding="utf-8") as file:
        return file.read()


def names_of_use(text):
    """Returns the local names that `use` lines bring into scope, each with its path."""
    found = {}
    for path, group, alias in USE.findall(text):
        if group:
            for part in group.split(","):
                words = part.split()
                if words:
                    found[words[-1]] = f"{path}.{words[0]}"
        else:
            found[alias or path.split(".")[-1]] = path
    return found


def tokens_of(text):
    """Returns the tokens of a piece of a definition, without comments and quoted texts."""
    lines = [re.sub(r"(^|\s)--.*$", "", line) for line in text.split("\n")]
    return [it for it in TOKEN.findall("\n".join(lines)) if not it.startswith('"')]


def binders(tokens):
    """Returns the variables that a type, or the right side of an equation, binds."""
    bound = set()
    for at, token in enumerate(tokens):
        if token in "({" and at + 1 < len(tokens):
            names, after = [], at + 1
            while after < len(tokens) and tokens[after] not in ":(){}[],;=.→":
                names.append(tokens[after])
                after += 1
            if after < len(tokens) and tokens[after] == ":":
                bound |= set(names)
        elif token == "λ":
            after = at + 1
            while after < len(tokens) and not tokens[after].endswith("."):
                bound.add(tokens[after])
                after += 1
            if after < len(tokens):
                bound.add(tokens[after].rstrip("."))
        elif token == "let":
            after = at + 1
            while after < len(tokens) and tokens[after] not in (":", "="):
                bound.add(tokens[after])
                after += 1
        elif token == "←":
            before = at - 1
            bound.add(tokens[before])
    return bound - SIGNS - set("()[]{},;")


class Item:
    """A definition: its names, its kind, and its lines."""

    def __init__(self, kind, name, lines):
        self.kind, self.name, self.lines = kind, name, lines
        self.inner = set()


class Spec:
    """A file of definitions, split into its top-level definitions."""

    def __init__(self, path):
        self.path, text = path, read(path)
        self.uses, self.items, self.where, comment = names_of_use(text), [], {}, []
        for line in text.splitlines():
            start = START.match(line)
            if line.startswith("--"):
                comment.append(line)
            elif start:
                self.items.append(Item(start[1] or "function", start[2] or start[3], comment + [line]))
                comment = []
            elif line.strip() and self.items and not re.match(r"(pub )?use |infix|unfolding|open |module |pub mod", line):
                self.items[-1].lines += comment + [line]
                comment = []
        for item in self.items:
            self.where[item.name] = item
            if item.kind == "data":
                for line in item.lines:
                    found = re.match(r"\s+(?:pub )?(\S+)\s+:", line)
                    if found and not line.startswith(("data", "pub data")):
                        item.inner.add(found[1])
                        self.where.setdefault(found[1], item)

    def is_constructor(self, name):
        if name in BUILT_IN:
            return True
        if name in self.where:
            return name in self.where[name].inner
        path = self.uses.get(name)
        if path is None:
            return False
        kind, place, inner = file_of(path)
        if kind == "spec":
            return spec_at(place).is_constructor(inner)
        return kind == "type" or inner is None and name[:1].isupper()

    def pieces(self, item):
        """Returns the pieces of a definition, its head and each of its equations, with the names that each piece binds."""
        found, now = [], []
        for line in item.lines:
            if line.startswith("--"):
                continue
            if line[:1] not in " \t" and now:
                found.append("\n".join(now))
                now = []
            now.append(line)
        found.append("\n".join(now))
        for number, piece in enumerate(found):
            tokens = tokens_of(piece)
            if number == 0:
                bound = binders(tokens) | {item.name} | item.inner
                if item.kind == "record":
                    bound |= {it[0] for it in re.findall(r"^\s+(?:pub )?(\S+)\s+(:)", piece, re.M)}
                # A short definition may have an equation on the same line.
                yield tokens, bound
            else:
                depth, cut = 0, len(tokens)
                for at, token in enumerate(tokens):
                    depth += (token in "([{") - (token in ")]}")
                    if token == "=" and depth == 0:
                        cut = at
                        break
                left, right = tokens[:cut], tokens[cut + 1:]
                variables = {it for it in left if re.match(r"[\w'-]", it) and "." not in it and not self.is_constructor(it)}
                yield [it for it in left if it not in variables] + right, binders(right) | variables | {item.name}

    def cited(self, item):
        """Returns the local definitions and the imported paths that a definition uses."""
        local, distant = set(), set()
        for tokens, bound in self.pieces(item):
            seen = set()
            for at, token in enumerate(tokens):
                if at + 1 < len(tokens) and tokens[at + 1] == "=" and at and tokens[at - 1] in "{;":
                    continue
                if token == "do":
                    seen.add(">>=")
                first, _, rest = token.partition(".")
                if rest and first in self.uses and first not in bound and self.uses[first].split(".")[-1] in ("TheVariants", "TheConstants", "TheOpen"):
                    distant.add(f"{self.uses[first]}.{rest.split('.')[0]}")
                    continue
                seen |= {first or token, token}
            for name in [*self.where, *self.uses]:
                parts = [it for it in name.split("◌") if it] if "◌" in name else [name]
                if name in bound or not all(it in seen for it in parts):
                    continue
                if name in self.where:
                    if self.where[name] is not item:
                        local.add(self.where[name].name)
                else:
                    distant.add(self.uses[name])
        return local, distant


SPECS = {}


def spec_at(place):
    if place not in SPECS:
        SPECS[place] = Spec(place)
    return SPECS[place]


def file_of(path):
    """Returns what a path refers to: a definition of this repository, a declared type, or the library."""
    words = path.split(".")
    crate = words[1]
    if not os.path.isdir(f"crates/{crate}"):
        return "library", path, None
    # (a type whose contracts are of its own, as a recursive one, is declared under `contracts`)
    if words[3:4] in (["declared"], ["contracts"]):
        rest = words[4:]
        cut = next((n for n, it in enumerate(rest) if it[:1].isupper()), len(rest))
        name = rest[cut] if cut < len(rest) else ""
        if name == "TheConstants":
            name = rest[cut + 1] if cut + 1 < len(rest) else ""
        folder = "/".join(rest[:cut])
        return "type", f"crates/{crate}/src/{folder}.rt", name
    for end in range(len(words), 2, -1):
        name = f"crates/{crate}/" + "/".join(words[2:end]) + ".antt"
        if os.path.isfile(name):
            return "spec", name, words[end] if end < len(words) else None
    return "library", path, None


def clauses_of(path, wanted):
    """Returns the functions of a file, each with the number of lines of its clauses and the paths that these name."""
    text = read(f"crates/{path}")
    uses = names_of_use(text)
    head = rf"\bfn ({wanted})" if wanted else r"\bpub fn (\w+)"
    for found in re.finditer(head + r"\b[^{]*?\n((?:\s+(?:requires|ensures|//)[^\n]*\n|\s{8,}[^\n]*\n)+)\{", text):
        words = sorted({it.split(".")[0] for it in tokens_of(found[2])})
        yield found[1], found[2].strip().count("\n") + 1, [uses[it] for it in words if it in uses]


def ghosts_of(path):
    """Returns the paths that are named in the clauses and the ghost members of a file."""
    text = read(f"crates/{path}")
    uses = names_of_use(re.sub(r"^\s+", "", text, flags=re.M))
    body = "\n".join(re.findall(r"(?:ghost \w+\s*(?:=|:)|requires|ensures)[^\n]*(?:\n\s{8,}[^\n]*)*", text))
    words = {it.split(".")[0] for it in tokens_of(body)}
    return [path for name, path in uses.items() if all(it in words for it in name.split("◌") if it)]


class Reached:
    """The definitions that have been reached from the given paths, but those that are listed, or left to others."""

    def __init__(self, listed=(), left=()):
        self.items, self.types, self.library, self.order = {}, set(), set(), []
        self.listed, self.left = set(listed), set(left)

    def follow(self, paths):
        todo = list(paths)
        while todo:
            kind, place, name = file_of(todo.pop(0))
            if kind == "library":
                self.library.add(place.replace("Rattle.", "", 1))
            elif kind == "type":
                self.types.add((place, name))
            else:
                todo += self.enter(place, name)

    def enter(self, place, name):
        spec = spec_at(place)
        if name not in spec.where:
            return [spec.uses[name]] if name in spec.uses else []
        more, pending = [], [spec.where[name].name]
        while pending:
            one = pending.pop(0)
            if (place, one) in self.listed | self.left or one in self.items.get(place, []):
                continue
            if place not in self.order:
                self.order.append(place)
            self.items.setdefault(place, []).append(one)
            local, distant = spec.cited(spec.where[one])
            pending += sorted(local)
            more += sorted(distant)
        return more

    def lines(self, place):
        return sum(len(spec_at(place).where[it].lines) for it in self.items[place])

    def size(self):
        return sum(self.lines(place) for place in self.order)

    def names(self):
        return {(place, it) for place, names in self.items.items() for it in names}


def table_of(reached):
    rows = ["| file | lines | definitions |", "|---|---|---|"]
    for place in reached.order:
        spec = spec_at(place)
        names = sorted(reached.items[place], key=lambda it: spec.items.index(spec.where[it]))
        rows.append(f"| `{place}` | {reached.lines(place)} | {', '.join(f'`{it}`' for it in names)} |")
    return rows


def listed(pairs):
    """Returns lines of names by the file, or module, that has them."""
    groups = {}
    for place, name in pairs:
        groups.setdefault(place, set()).add(name)
    return [f"- `{place}`: {', '.join(f'`{it}`' for it in sorted(names))}" for place, names in sorted(groups.items())]


def place_of(file, name):
    """Returns the file and the name of a definition with which a part begins."""
    place = f"crates/{file}"
    return place, spec_at(place).where[name].name


class Part:
    """A part of the page: its functions, and the definitions that it is the first to reach."""

    def __init__(self, title, about, functions, definitions, listed, left):
        self.title, self.about = title, about
        self.functions = [(path, *found) for path, wanted in functions for found in clauses_of(path, wanted)]
        self.reached = Reached(listed, left)
        for file, name in definitions:
            self.reached.follow(self.reached.enter(*place_of(file, name)))
        self.reached.follow(path for *_, paths in self.functions for path in paths)

    def text(self):
        clauses = ["| function | lines | file |", "|---|---|---|",
                   *[f"| `{name}` | {lines} | `crates/{path}` |" for path, name, lines, _ in self.functions], ""]
        return [f"## {self.title}", "", self.about, "", *(clauses if self.functions else []), *table_of(self.reached), "",
                f"{sum(len(it) for it in self.reached.items.values())} definitions, {self.reached.size()} lines with their comments.", ""]


def parts_of():
    """Returns the parts of the page, each without what the parts before it list."""
    found, listed = [], set()
    for number, (title, about, functions, definitions) in enumerate(PARTS):
        left = [place_of(*it) for *_, later in PARTS[number + 1:] for it in later]
        found.append(Part(title, about, functions, definitions, listed, left))
        listed |= found[-1].reached.names()
    return found


def page_text():
    parts = parts_of()
    sizes = [it.reached.size() for it in parts]
    listed_names = {it for part in parts for it in part.reached.names()}
    beside = Reached(listed_names)
    beside.follow(path for file in BESIDE for path in ghosts_of(file))
    for place, name in FACTS:
        beside.follow([path for path in spec_at(f"crates/{place}").cited(spec_at(f"crates/{place}").where[name])[1] if ".specs." in path])
    types = {it for part in parts for it in part.reached.types}
    library = {it for part in parts for it in part.reached.library} | beside.library
    return "\n".join([
        "# What you have to trust", "",
        "Anyone who reads the definitions on this page, and trusts the toolchain and [the code without a contract](#the-code-without-a-contract), knows"
        " what is proved; [how to read a contract](ARCHITECTURE.md#how-to-read-a-contract) explains the notation. The definitions are those that are"
        " reached from the contract of the program, from the laws of `mufom_headline`, and from the public laws of `mufom_run_laws`, `mufom_judging`,"
        " `mufom_groups`, `mufom_prune`, `mufom_make` and `mufom_debug_laws`. `python3 tools/audit.py` writes this page; with `--check` it says whether"
        " the page is up to date.", "",
        "The page has parts, so that you need not read more than you want to know. Each part lists the definitions that no part before it has, in the order in"
        " which they are reached.", "",
        "| part | lines with their comments |", "|---|---|",
        *[f"| [{it.title}](#{it.title.lower().replace(' ', '-')}) | {size:,} |" for it, size in zip(parts, sizes)],
        f"| all | {sum(sizes):,} |", "",
        f"The headline is in the first two parts, {sizes[0] + sizes[1]:,} lines. It is proved of each run of the program, whatever the definition of `Answers`"
        " in the contract of `run`, from which it follows. Where these parts name an error of a file, the text of a plan, the arguments or a printed text,"
        " a later part defines it.", "",
        *[line for part in parts for line in part.text()],
        "## The types", "", "Types and constants that Rust declares, whose fields and variants the definitions use.", "",
        *listed(types), "",
        "## Beside them", "",
        "The clauses of what is outside, and how contracts see the types that own their contents, with the definitions that only these reach:",
        "", *[f"- `crates/{it}`" for it in BESIDE], "",
        "and two laws that tie the facts to a list: "
        + " and ".join(f"`{name}` of `crates/{place}`" for place, name in FACTS) + ".", "", *table_of(beside), "", *listed(beside.types - types), "",
        "## The code without a contract", "",
        "`program` is proved over any host. No clause covers how the arguments, files and streams of the system reach it:", "",
        "- `main` and `all_arguments` of `crates/mufom/src/main.rt` take the arguments from the system, and end the process with the status.",
        "- `RealHost` of `crates/mufom_host/src/real.rt` calls the system. It is trusted that a file or a stream takes the bytes that are passed to"
        " it, and returns those that it has. Blocks, short and interrupted calls, and lasting failures are proved over any writer and reader"
        " (`crates/mufom_host/src/streams.rt`).", "",
        "## The toolchain's library", "", "Definitions of the library that these use, by module.", "",
        *listed(tuple(it.rsplit(".", 1)) for it in library if "." in it), ""])


def main():
    text = page_text()
    if "--check" in sys.argv:
        same = os.path.isfile(PAGE) and read(PAGE) == text
        print("up to date" if same else f"{PAGE} is stale: run tools/audit.py")
        sys.exit(0 if same else 1)
    with open(PAGE, "w", encoding="utf-8") as file:
        file.write(text)
    print(f"{PAGE}: {text.count(chr(10))} lines")


main()
