"""A second reader of module files, written from the tables of docs/FORMAT.md alone.

It shares no code with the program. It is slow, and serves to test the program (try_files.py,
try_bytes.py): `answer` returns the result that `mufom check` must have for one file.
"""

FUNCTIONS = {0xA2: 1, 0xA3: 1}  # the number of operands of each function
FUNCTIONS.update(dict.fromkeys([*range(0xA5, 0xB3)], 2))
LETTERS = {0xC9: "I", 0xCC: "L", 0xD0: "P", 0xD2: "R", 0xD3: "S", 0xD8: "X"}
PARTNERS = {0xBA: 0xBB, 0xBC: 0xBD, 0xBE: 0xBF}
ATTRIBUTES = (1, 2, 3, 4, 5, 7, 8, 10)
PARTS = {
    "ST": 2, "SA": 2, "ASS": 2, "ASL": 2,
    "NI": 3, "ASI": 3, "ATI": 3, "NX": 3, "WX": 3, "ATX": 3,
    "BB": 4, "BE": 4, "NN": 4, "ASN": 4, "ATN": 4,
    "SB": 5, "ASP": 5, "LD": 5, "LR": 5, "RE LD": 5, "RE LR": 5, "literal": 5, "field": 5,
    "ASG": 6,
}
DECLARES = {"ST": "section", "NI": "public", "NX": "reference", "NN": "debug name"}
NAMES = {
    "SA": "section", "ASS": "section", "ASL": "section", "SB": "section", "ASP": "section",
    "ASI": "public", "ATI": "public", "WX": "reference", "ATX": "reference",
    "ASN": "debug name", "ATN": "debug name",
}
KINDS = {"I": "public", "X": "reference", "L": "section", "P": "section", "R": "section", "S": "section"}
ONCE = ("ASI", "WX", "SA", "ASS", "ASL")
LOADS = ("LD", "LR", "RE LD", "RE LR")


class Fault(Exception):
    def __init__(self, place, reason):
        super().__init__(place, reason)
        self.place, self.reason = place, reason


class More(Exception):
    """The bytes end inside a record, or where an optional field could begin."""


class Fields:
    """The fields of one record, from left to right."""

    def __init__(self, data, place):
        self.data, self.place = data, place

    def peek(self):
        if self.place >= len(self.data):
            raise More
        return self.data[self.place]

    def skip(self, count):
        if self.place + count > len(self.data):
            raise More
        self.place += count
        return self.data[self.place - count:self.place]

    def number(self):
        start, first = self.place, self.peek()
        if first > 0x88:
            raise Fault(start, "BadNumber")
        if first < 0x80:
            self.place += 1
            return first
        return int.from_bytes(self.skip(1 + first - 0x80)[1:], "big")

    def checked(self, reason, is_good):
        start = self.place
        value = self.number()
        if not is_good(value):
            raise Fault(start, reason)
        return value

    def index(self):
        return self.checked("BadNumber", lambda value: value < 2**32)

    def optional(self, most):
        count = 0
        while count < most and self.peek() <= 0x88:
            self.number()
            count += 1

    def string(self):
        first = self.peek()
        if first < 0x80:
            return self.skip(1 + first)[1:]
        if first not in (0xDE, 0xDF):
            raise Fault(self.place, "BadId")
        lead = first - 0xDD
        mark = self.place
        size = int.from_bytes(self.skip(1 + lead)[1:], "big")
        self.place = mark
        return self.skip(1 + lead + size)[1 + lead:]

    def counted(self):
        self.skip(self.checked("LongRun", lambda value: value <= 65535))

    def letter(self, letters):
        if self.peek() in letters:
            self.place += 1

    def begins_token(self):
        byte = self.peek()
        return byte <= 0x88 or 0xA0 <= byte <= 0xB9 or 0xC1 <= byte <= 0xDA

    def variable(self, tokens):
        start = self.place
        letter = LETTERS.get(self.peek())
        if letter is None:
            raise Fault(start, "UnsupportedVariable")
        self.place += 1
        try:
            return letter, self.index()
        except Fault:
            if tokens == 255:
                raise Fault(start, "TooLong") from None
            raise

    def function(self, terms):
        operands = FUNCTIONS.get(self.peek())
        if operands is None:
            raise Fault(self.place, "UnsupportedFunction")
        if terms < operands:
            raise Fault(self.place, "Underflow")
        self.place += 1
        return operands

    def expression(self):
        start, tokens, terms, variables = self.place, 0, 0, []
        while self.begins_token():
            token, byte = self.place, self.peek()
            if byte <= 0x88:
                self.number()
            elif byte <= 0xB9:
                terms -= self.function(terms)
            else:
                variables.append(self.variable(tokens))
            if tokens == 255:
                raise Fault(token, "TooLong")
            tokens, terms = tokens + 1, terms + 1
        if tokens == 0:
            raise Fault(start, "Empty")
        if terms != 1:
            raise Fault(self.place, "SurplusTerms")
        return variables

    def sized_expression(self):
        """An expression, and the size after it if that has no comma."""
        start, last, terms, variables = self.place, None, 0, []
        tokens = 0
        while self.begins_token():
            token, byte, last = self.place, self.peek(), None
            if byte <= 0x88:
                last = self.number()
            elif byte <= 0xB9:
                terms -= self.function(terms)
            else:
                variables.append(self.variable(tokens))
            if tokens == 255:
                raise Fault(token, "TooLong")
            tokens, terms = tokens + 1, terms + 1
        if terms == 2 and last in range(1, 9) and self.peek() in PARTNERS.values():
            return variables, last
        if tokens == 0:
            raise Fault(start, "Empty")
        if terms != 1:
            raise Fault(self.place, "SurplusTerms")
        return variables, None

    def close(self, bracket):
        if self.peek() != PARTNERS[bracket]:
            raise Fault(self.place, "BracketMismatch")
        self.place += 1


def header_record(data, start, code, number=None):
    fields = Fields(data, start)
    if fields.peek() != code:
        raise Fault(start, "BadHeader")
    fields.place += 1
    if code == 0xE0:
        values = fields.string(), fields.string()
    elif code == 0xEC:
        values = fields.number(), fields.number()
        fields.letter((0xCC, 0xCD))
    else:
        if fields.peek() != 0xD7:
            raise Fault(start, "BadHeader")
        fields.place += 1
        if fields.number() != number:
            raise Fault(start, "BadHeader")
        values = fields.number()
    return values, fields.place


class Row:
    """A complete record or item: its kind, the index that it names, and its contents."""

    def __init__(self, kind, index=None, variables=(), **more):
        self.kind, self.index, self.variables = kind, index, list(variables)
        self.more = more


def assignment(fields, start):
    code = fields.peek()
    if code in (0xC1, 0xC2, 0xC6, 0xCD, 0xD2):
        raise Fault(start, "UnsupportedRecord")
    kind = {0xD7: "ASW", 0xD3: "ASS", 0xCC: "ASL", 0xC9: "ASI", 0xCE: "ASN", 0xD0: "ASP", 0xC7: "ASG"}.get(code)
    if kind is None:
        raise Fault(fields.place, "BadRecord")
    fields.place += 1
    if kind == "ASW":
        fields.number()
        fields.number()
        return Row(kind)
    if kind == "ASG":
        bracket = fields.peek()
        if bracket not in PARTNERS:
            return Row(kind, None, fields.expression())
        fields.place += 1
        variables = fields.expression()
        fields.close(bracket)
        return Row(kind, None, variables)
    index = fields.index()
    if kind in ("ASS", "ASL"):
        fields.number()
        return Row(kind, index)
    return Row(kind, index, fields.expression())


def section_type(fields):
    index, letters = fields.index(), fields.place
    absolute = fields.peek() == 0xC1
    if not absolute and fields.peek() != 0xC3:
        raise Fault(letters, "BadSectionType")
    fields.place += 1
    if absolute:
        if fields.peek() != 0xD3:
            raise Fault(letters, "BadSectionType")
        fields.place += 1
    fields.letter((0xD0, 0xC4, 0xD2))
    fields.string()
    fields.optional(3)
    return Row("ST", index, absolute=absolute)


def note(fields):
    kind = {0xC9: "ATI", 0xD8: "ATX", 0xCE: "ATN"}.get(fields.peek())
    if kind is None:
        raise Fault(fields.place, "BadRecord")
    fields.place += 1
    index = fields.index()
    fields.number()
    if kind == "ATN":
        fields.checked("UnsupportedAttribute", lambda value: value in ATTRIBUTES)
    else:
        fields.number()
    fields.optional(4)
    return Row(kind, index)


def block(fields):
    kind = fields.checked("UnsupportedBlock", lambda value: value in (3, 4, 5, 6, 11))
    fields.number()
    fields.string()
    index, variables = None, []
    if kind in (4, 6):
        fields.number()
        fields.number()
        variables = fields.expression()
    if kind == 5:
        fields.optional(6)
    if kind == 11:
        fields.number()
        index = fields.index()
        variables = fields.expression()
    return Row("BB", index, variables, block=kind)


def repeat(fields):
    fields.number()
    code = fields.peek()
    if code not in (0xED, 0xE4):
        raise Fault(fields.place, "BadRecord")
    fields.place += 1
    if code == 0xE4:
        return Row("RE LR")
    fields.counted()
    return Row("RE LD")


def named(fields, kind, rest):
    row = Row(kind, fields.index())
    rest()
    return row


def alignment(fields):
    row = Row("SA", fields.index(), value=fields.number())
    fields.optional(1)
    return row


def weak(fields):
    row = Row("WX", fields.index())
    fields.number()
    fields.optional(1)
    return row


def block_end(fields):
    has_value = fields.begins_token()
    return Row("BE", None, fields.expression() if has_value else [], has_value=has_value)


def plain(kind, *readers):
    for reader in readers:
        reader()
    return Row(kind)


def record(data, start):
    fields = Fields(data, start)
    code = fields.peek()
    fields.place += 1
    rows = {
        0xE0: lambda: plain("MB", fields.string, fields.string),
        0xEC: lambda: plain("AD", fields.number, fields.number, lambda: fields.letter((0xCC, 0xCD))),
        0xE1: lambda: Row("ME"),
        0xE2: lambda: assignment(fields, start),
        0xE6: lambda: section_type(fields),
        0xE7: lambda: alignment(fields),
        0xE8: lambda: named(fields, "NI", fields.string),
        0xE9: lambda: named(fields, "NX", fields.string),
        0xF0: lambda: named(fields, "NN", fields.string),
        0xF4: lambda: weak(fields),
        0xF1: lambda: note(fields),
        0xF8: lambda: block(fields),
        0xF9: lambda: block_end(fields),
        0xE5: lambda: Row("SB", fields.index()),
        0xED: lambda: plain("LD", fields.counted),
        0xE4: lambda: Row("LR"),
        0xF7: lambda: repeat(fields),
    }
    if code == 0xF2:
        raise Fault(start, "UnsupportedRecord")
    if code not in rows:
        raise Fault(start, "BadRecord")
    return rows[code](), fields.place


def item(data, start, gnu):
    fields = Fields(data, start)
    bracket = fields.peek()
    if bracket not in PARTNERS:
        fields.counted()
        return Row("literal"), fields.place
    fields.place += 1
    variables, size = fields.sized_expression() if gnu else (fields.expression(), None)
    if size is None and fields.peek() == 0x90:
        fields.place += 1
        fields.checked("BadFieldSize", lambda value: 1 <= value <= 8)
    fields.close(bracket)
    return Row("field", None, variables), fields.place


class Judge:
    def __init__(self, data, reads_debug, gnu=False):
        self.data, self.reads_debug, self.gnu = data, reads_debug, gnu
        self.raw = 0  # the offset of a debug part before which the records end
        self.declared = {kind: [] for kind in ("section", "public", "reference", "debug name")}
        self.said, self.current, self.blocks = set(), None, []
        self.sections, self.publics, self.values = [], [], []
        self.loads = self.items = 0

    def names_unknown(self, variables):
        return any(index not in self.declared[KINDS[letter]] for letter, index in variables)

    def check(self, row, start):
        """Checks the rules for one record, in their order."""
        own = DECLARES.get(row.kind)
        names = NAMES.get(row.kind, "section" if row.kind == "BB" and row.index is not None else None)
        counter = {"ASP": row.index, "field": self.current}.get(row.kind)
        kind = row.more.get("block")
        opened = self.blocks[-1][1] if self.blocks else None
        tests = [
            ("DuplicateIndex", own and row.index in self.declared[own]),
            ("UnknownIndex", names and row.index not in self.declared[names]),
            ("UnknownIndex", row.kind != "ASI" and self.names_unknown(row.variables)),
            ("DuplicateValue", (row.kind, row.index) in self.said),
            ("BadAlignment", row.kind == "SA" and not 1 <= row.more["value"] <= 2**31),
            ("NoSection", row.kind in LOADS and self.current is None),
            ("BadP", any(letter == "P" and index != counter for letter, index in row.variables)),
            ("BlockNesting", row.kind == "BE" and (opened is None or row.more["has_value"] and opened in (3, 5))),
            ("Depth", row.kind == "BB" and len(self.blocks) == 32),
        ]
        for reason, stands in tests:
            if stands:
                raise Fault(start, reason)
        self.keep(row, start, own, kind)

    def keep(self, row, start, own, kind):
        if own:
            self.declared[own].append(row.index)
        if row.kind in ONCE or row.kind == "ASG":
            self.said.add((row.kind, row.index))
        if row.kind == "ST" and row.more["absolute"]:
            self.sections.append((start, row.index))
        if row.kind == "NI":
            self.publics.append((start, row.index))
        if row.kind == "ASI":
            self.values.append((start, row.variables))
        if row.kind == "SB":
            self.current = row.index
        if row.kind == "BB":
            self.blocks.append((start, kind))
        if row.kind == "BE":
            self.blocks.pop()
        self.items += row.kind in ("BB", "NN", "ASN", "ATN")
        self.loads += row.kind in ("SB", "ASP", "LD", "RE LD", "RE LR")
        self.loads += row.kind in ("literal", "field") and self.loader == "LR"

    def end_part(self, number):
        """Raises the error of a part as a whole: of several, the first in the file."""
        faults = []
        if number == 2:
            faults = [(at, "MissingBase") for at, index in self.sections if ("ASL", index) not in self.said]
        if number == 3:
            faults = [(at, "MissingValue") for at, index in self.publics if ("ASI", index) not in self.said]
            faults += [(at, "UnknownIndex") for at, variables in self.values if self.names_unknown(variables)]
        if number == 4 and self.blocks:
            faults = [(self.blocks[-1][0], "BlockNesting")]
        if faults:
            raise Fault(*min(faults))

    def offsets(self, place):
        offsets = []
        for number in range(8):
            start = place
            value, place = header_record(self.data, start, 0xE2, number)
            if value and any(value < earlier for earlier in offsets) or number == 7 and not value:
                raise Fault(start, "OffsetOrder")
            offsets.append(value)
        if next(filter(None, offsets)) != place:
            raise Fault(place, "PartGap")
        return offsets, place

    def row(self, start, items):
        """The record or item at an offset. Before raw debug data, its first byte counts as E1."""
        def read(data):
            first = Fields(data, start).peek()
            if items and (first <= 0x88 or first in PARTNERS):
                return item(data, start, self.gnu)
            return record(data, start)

        if start < self.raw < len(self.data):
            try:
                row, place = read(self.data[:self.raw] + b"\xE1")
                if place <= self.raw:
                    return row, place
            except More:
                pass
        return read(self.data)

    def part(self, number, place, end):
        items = False
        while place < end:
            start = place
            row, place = self.row(start, items)
            if row.kind not in ("literal", "field"):
                items = row.kind in ("LR", "RE LR")
                self.loader = row.kind
            if place > end:
                raise Fault(start, "PartGap")
            if PARTS.get(row.kind) != number:
                raise Fault(start, "WrongPart")
            self.check(row, start)
        self.end_part(number)
        return place

    def judge(self):
        (_, self.name), start = header_record(self.data, 0, 0xE0)
        (bits, units), place = header_record(self.data, start, 0xEC)
        if bits != 8 or units not in range(1, 9):
            raise Fault(start, "BadDescriptor")
        offsets, place = self.offsets(place)
        if self.gnu and not self.reads_debug:
            self.raw = offsets[4]
        for number in range(7):
            if not offsets[number]:
                continue
            end = next(filter(None, offsets[number + 1:]))
            if number < 2 or number == 4 and not self.reads_debug:
                if len(self.data) < end:
                    raise More
                place = end
            else:
                place = self.part(number, place, end)
        row, end = record(self.data, place)
        if row.kind != "ME":
            raise Fault(place, "WrongPart")
        if end < len(self.data):
            raise Fault(end, "AfterEnd")


def quoted(name):
    plain_bytes = set(range(0x20, 0x7F)) - {0x22, 0x5C}
    return '"%s"' % "".join(chr(byte) if byte in plain_bytes else "\\x%02X" % byte for byte in name)


def answer(data, reads_debug, gnu=False):
    """Returns the status, the output and the error output of `check` for a file with these bytes."""
    judge = Judge(data, reads_debug, gnu)
    try:
        judge.judge()
    except Fault as fault:
        return 1, "", "refused: file 0 at %d: %s\n" % (fault.place, fault.reason)
    except More:
        return 1, "", "refused: file 0 at %d: Truncated\n" % len(data)
    counts = [len(judge.declared[kind]) for kind in ("section", "public", "reference")]
    line = "file 0 %s: sections %d publics %d references %d loads %d debug %d\n"
    return 0, line % (quoted(judge.name), *counts, judge.loads, judge.items), ""
