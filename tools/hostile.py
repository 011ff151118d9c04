"""Large inputs that are chosen to take long. try_files.py --hostile makes them and measures the program.

Each kind is a function that returns its files and its command lines. A line has the exit status that it must
have and, if its image is large compared with the files, the size of that image in MiB.
"""

import random

PLAN = '[[region]]\nname = "all"\nbase = 4096\nsize = 1073741824\nsections = ["*"]\ncommon = true\n'
# A constant of the hasher that tables use by default. It multiplies the words of a text, each xored with its
# state or with this number. A word equal to this number makes everything before it 0.
MULTIPLIER = 0x9E37_79B9_7F4A_7C15


def number(value):
    if value < 0x80:
        return bytes([value])
    body = value.to_bytes((value.bit_length() + 7) // 8, "big")
    return bytes([0x80 + len(body)]) + body


def ident(text):
    return (bytes([len(text)]) if len(text) < 0x80 else b"\xDE" + bytes([len(text)])) + text


def file_of(name, sections=b"", externals=b"", debug=b"", data=b"", environment=b""):
    head, offsets = b"\xE0" + ident(b"68000") + ident(name) + b"\xEC\x08\x04\xCD", []
    parts, place = [b"", environment, sections, externals, debug, data, b""], len(head) + 64
    for part in parts:
        offsets.append(place if part else 0)
        place += len(part)
    offsets.append(place)
    for at, offset in enumerate(offsets):
        head += b"\xE2\xD7" + bytes([at]) + b"\x84" + offset.to_bytes(4, "big")
    return head + b"".join(parts) + b"\xE1"


def public(index, name, value):
    return b"\xE8" + number(index) + ident(name) + b"\xE2\xC9" + number(index) + value


def reference(index, name):
    return b"\xE9" + number(index) + ident(name)


def weak(index, size):
    return b"\xF4" + number(index) + number(size)


def collides(at):
    """A name that has the same hash under the default hasher for every number."""
    return b"%08d" % at + MULTIPLIER.to_bytes(8, "little") + b"together"


def colliding_publics():
    parts = [public(32 + at, collides(at), number(at)) for at in range(200_000)]
    return {"m": file_of(b"m", externals=b"".join(parts))}, [("check m", 0), ("link -o out m", 0), ("locate -o out m", 0)]


def colliding_references():
    """References that no module defines, so that each is kept once; when they are located, they are commons."""
    parts = [reference(11 + at, collides(at)) + weak(11 + at, 4) for at in range(100_000)]
    return {"m": file_of(b"m", externals=b"".join(parts)), "p": PLAN.encode()}, [("link -o out m m", 0), ("locate --plan p -o out m", 0)]


def descending_indexes():
    parts = [public(1_000_000 - at, b"n%d" % at, number(at)) for at in range(500_000)]
    return {"m": file_of(b"m", externals=b"".join(parts))}, [("check m", 0)]


def scattered_indexes():
    indexes = random.Random(1).sample(range(32, 2**32), 500_000)
    parts = [public(index, b"n%d" % at, number(at)) for at, index in enumerate(indexes)]
    return {"m": file_of(b"m", externals=b"".join(parts))}, [("check m", 0)]


def chain_of(count, last):
    parts = [public(32 + at, b"p%d" % at, b"\xC9" + number(33 + at) + b"\x01\xA5") for at in range(count - 1)]
    return file_of(b"m", externals=b"".join(parts) + public(31 + count, b"last", last))


def chain():
    """Each public is one more than the next."""
    return {"m": chain_of(300_000, b"\x00")}, [("locate -o out m", 0)]


def cycle():
    """The last public is the first."""
    return {"m": chain_of(300_000, b"\xC9" + number(32))}, [("locate -o out m", 1)]


def cycles_at_the_end():
    """Pairs of publics, 100,000 of them, each of which refers to the other."""
    parts = [public(32 + at, b"q%d" % at, b"\xC9" + number(32 + (at ^ 1))) for at in range(200_000)]
    return {"m": file_of(b"m", externals=b"".join(parts))}, [("locate -o out m", 1)]


def members():
    """Each of 1,023 members is needed by the one after it in the command; each has 200 names."""
    files = {"m0": file_of(b"m0", externals=reference(11, b"need_1"))}
    for m in range(1, 1024):
        own = [public(32, b"need_%d" % m, b"\x00")] + [public(32 + at, b"n_%d_%d" % (m, at), b"\x00") for at in range(1, 200)]
        files["m%d" % m] = file_of(b"m", externals=b"".join(own) + (reference(11, b"need_%d" % (m + 1)) if m < 1023 else b""))
    line = " ".join("m%d" % m for m in range(1023, 0, -1))
    return files, [("link -o out m0 + " + line, 0), ("locate -o out m0 + " + line, 0)]


def groups():
    """Each of 64 groups contains the one before it, so that the same modules are linked again and again."""
    files = {"m%d" % m: file_of(b"m", externals=b"".join(public(32 + at, b"n_%d_%d" % (m, at), b"\x00") for at in range(1000)))
             for m in range(64)}
    return files, [("link -o out " + "[ " * 64 + " ".join("m%d ]" % m for m in range(64)), 0)]


def sections():
    """100,000 sections in 900 regions."""
    regions = "".join('[[region]]\nname="r%d"\nbase=%d\nsize=65536\nsections=["s%d"]\n' % (r, r << 16, r) for r in range(900))
    parts = [b"\xE6" + number(1 + at) + b"\xC3\xD0" + ident(b"s%d" % (at % 900)) + b"\xE7" + number(1 + at) + b"\x04"
             + b"\xE2\xD3" + number(1 + at) + b"\x04" for at in range(100_000)]
    return {"m": file_of(b"m", sections=b"".join(parts)), "p": regions.encode()}, [
        ("locate --plan p -o out m", 0), ("locate --plan p -o out m m", 0), ("map --plan p m", 0)]


def long_expressions():
    """30,000 publics whose values have 255 tokens, half of which name the public after it."""
    parts = [public(32 + at, b"p%d" % at, (b"\xC9" + number(33 + at)) * 128 + b"\xA5" * 127) for at in range(30_000)]
    return {"m": file_of(b"m", externals=b"".join(parts) + public(30_032, b"last", b"\x01"))}, [("check m", 0), ("locate -o out m", 0)]


def deep_blocks():
    """Debug blocks that are nested 32 deep, again and again."""
    begin, end = b"\xF8\x04\x00\x01f\x00\x00\x00", b"\xF9\x00"
    blocks = (b"\xF8\x05\x00\x01c" + begin * 31 + end * 31 + b"\xF9") * 10_000
    return {"m": file_of(b"m", debug=blocks)}, [("check m", 0), ("link -o out m m", 0)]


def based(size):
    """One section from address 0 on."""
    return b"\xE6\x01\xC1\xD3\x01t\xE2\xD3\x01" + number(size) + b"\xE2\xCC\x01\x00"


def long_fields():
    """60,000 fields whose expressions have 255 tokens."""
    value = b"\xD2\x01" + b"\x01\xA5" * 127
    data = b"\xE5\x01" + (b"\xE4\xBE" + value + b"\xBF") * 60_000
    return {"m": file_of(b"m", sections=based(1 << 24), data=data)}, [
        ("check m", 0), ("show m", 0), ("show --listing m", 0), ("link -o out m", 0), ("locate -o out m", 0)]


def repeated_bytes():
    """A repeat of one byte that asks for the largest image."""
    data = b"\xE5\x01\xF7\x84\x04\x00\x00\x00\xED\x01\x55"
    return {"m": file_of(b"m", sections=based(1 << 26), data=data)}, [
        ("dump m", 0, 64), ("locate -o out m", 0, 64), ("bin -o out m", 0, 64)]


def scattered_bytes():
    """A million bytes at separate addresses, from the last address to the first."""
    pieces = (b"\xE2\xD0\x01" + number(2 * at) + b"\xED\x01" + bytes([at & 255]) for at in range(999_999, -1, -1))
    return {"m": file_of(b"m", sections=based(1 << 24), data=b"\xE5\x01" + b"".join(pieces))}, [
        ("dump m", 0), ("locate -o out m", 0), ("bin -o out m", 0, 2)]


def an_address_with_two_bytes():
    """Scattered bytes of which the last two have the same address."""
    pieces = [b"\xE2\xD0\x01" + number(2 * at) + b"\xED\x01\x00" for at in range(999_999, -1, -1)]
    return {"m": file_of(b"m", sections=based(1 << 24), data=b"\xE5\x01" + b"".join(pieces + pieces[-1:]))}, [("dump m", 1)]


def bytes_far_apart():
    """Two bytes at the ends of the longest raw image, and one more address between them."""
    def far(last):
        data = b"\xE5\x01\xED\x01\x55\xE2\xD0\x01" + number(last) + b"\xED\x01\xAA"
        return file_of(b"m", sections=based(1 << 27), data=data)
    return {"m": far((1 << 26) - 1), "n": far(1 << 26)}, [("bin -o out m", 0), ("bin -o out n", 1)]


def debug_lines():
    """500,000 names with a line number and an address each."""
    lines = []
    for at in range(500_000):
        index = number(32 + at)
        lines.append(b"\xF0" + index + b"\x00\xF1\xCE" + index + b"\x00\x07" + number(at) + b"\xE2\xCE" + index + number(at))
    debug = b"\xF8\x05\x00\x01c" + b"".join(lines) + b"\xF9"
    return {"m": file_of(b"m", debug=debug)}, [("check m", 0), ("addr --at 3E8 m", 0), ("show m", 0)]


def plan(text):
    """A small module, and a plan, cut to at most 65,536 bytes."""
    return {"m": file_of(b"m", sections=b"\xE6\x01\xC3\xD0\x01s\xE7\x01\x04\xE2\xD3\x01\x04"), "p": text.encode()[:65536]}


def plan_names():
    names = ",".join('"%x"' % at for at in range(9000))
    return plan('[[region]]\nname="r"\nbase=0\nsize=4096\nsections=[%s,"s"]\n' % names), [("locate --plan p -o out m", 0)]


def plan_regions():
    regions = "".join('[[region]]\nname="r%d"\nbase=%d\nsize=1\nsections=["a%d"]\n' % (r, r, r) for r in range(900))
    return plan(regions + '[[region]]\nname="r"\nbase=4096\nsize=64\nsections=["*"]\n'), [("locate --plan p -o out m", 0)]


def plan_brackets():
    return plan("a = " + "[" * 65_000), [("locate --plan p -o out m", 1)]


def plan_tables():
    return plan("[" + "a." * 30_000 + "a]\n"), [("locate --plan p -o out m", 1)]


def plan_keys():
    return plan("".join("k%x = 1\n" % at for at in range(6500))), [("locate --plan p -o out m", 1)]


def plan_text():
    return plan('a = "' + "\\u0041" * 10_000 + '"'), [("locate --plan p -o out m", 1)]


def text_lines_from_the_top():
    """A million lines of one byte and its address, from the last address to the first; and the same as an image."""
    lines = b"".join(b"@%X\n%02X\n" % (2 * at, at & 255) for at in range(999_999, -1, -1))
    return {"t": lines + b"q\n"}, [("fromtxt -o m t", 0), ("txt -o u m", 0, 12)]


def text_of_one_line():
    return {"t": b"@0\n" + b"00 " * 10_000_000 + b"\nq\n"}, [("fromtxt -o m t", 0)]


def text_of_empty_lines():
    return {"t": b"\n" * 30_000_000 + b"q\n", "u": b"\n" * 30_000_000}, [("fromtxt -o m t", 0), ("fromtxt -o m u", 1)]


def text_with_two_bytes():
    """The last line gives a second byte to the first of a million addresses."""
    lines = b"".join(b"@%X\n00\n" % (2 * at) for at in range(1_000_000))
    return {"t": lines + b"@0\n00\nq\n"}, [("fromtxt -o m t", 1)]


def kept_chain():
    """100,000 sections, each of which mentions the public in the next one, so that keeping the first keeps all."""
    sections, publics, data = [], [], []
    for at in range(100_000):
        sections.append(b"\xE6" + number(1 + at) + b"\xC3\xD0\x01s\xE7" + number(1 + at) + b"\x04\xE2\xD3" + number(1 + at) + b"\x04")
        publics.append(public(32 + at, b"p%d" % at, b"\xD2" + number(1 + at)))
        data.append(b"\xE5" + number(1 + at) + b"\xE4\xBE\xC9" + number(32 + (at + 1) % 100_000) + b"\xBF")
    return {"m": file_of(b"m", sections=b"".join(sections), externals=b"".join(publics), data=b"".join(data)), "p": PLAN.encode()}, [
        ("locate --plan p --keep p0 -o out m", 0), ("map --plan p m", 0)]


def entry(label, contents, size=None):
    """An entry of an archive: its header, its contents, and the padding."""
    size = len(contents) if size is None else size
    return label.ljust(16) + b" " * 32 + b"%-10d" % size + b"`\n" + contents + b"\n" * (len(contents) % 2)


ARCHIVE = b"!<arch>\n"


def with_root(archives):
    """The archives, and a module that needs `n_999`."""
    return {"r": file_of(b"r", externals=reference(11, b"n_999")), **{name: ARCHIVE + entries for name, entries in archives.items()}}


ONE = file_of(b"m", externals=public(32, b"n_0", b"\x00"))


def archive_of_a_chain():
    """A thousand members, each of which needs the one before it in the archive; the last is needed first."""
    chained = [file_of(b"m", externals=public(32, b"n_%d" % at, b"\x00") + (reference(11, b"n_%d" % (at - 1)) if at else b"")) for at in range(1000)]
    return with_root({"c": b"".join(entry(b"m%d.o/" % at, m) for at, m in enumerate(chained))}), [
        ("link -o out r + c", 0), ("locate -o out r + c", 0), ("map r + c", 0), ("map r + c c c", 0), ("check c", 1)]


def archives_cut_off():
    """The greatest size that an entry can state; and 40,001 modules, the last without its last byte."""
    return with_root({"s": entry(b"m.o/", ONE, 9_999_999_999), "c": entry(b"m.o/", ONE) * 40_000 + entry(b"m.o/", ONE)[:-1]}), [
        ("link -o out r + s", 1), ("link -o out r + c", 1)]


def archive_of_empty_entries():
    """A million entries without contents, which are no modules."""
    return with_root({"e": entry(b"m.o/", b"") * 1_000_000}), [("link -o out r + e", 1)]


def archive_of_tables():
    """A million tables of symbols, which are no members, before one that is."""
    return with_root({"t": entry(b"/", b"") * 1_000_000 + entry(b"m.o/", ONE)}), [("link -o out r + t", 0), ("map r + t", 1)]


def names_past_the_long_names():
    return with_root({"p": entry(b"//", b"m.o/\n") + entry(b"/1", ONE) * 10_000 + entry(b"/6", ONE)}), [("link -o out r + p", 1)]


def a_long_name_of_many_members():
    """One name of 60,000,000 bytes that 5,000 members have."""
    return with_root({"l": entry(b"//", b"x" * 60_000_000) + entry(b"/0", ONE) * 5_000}), [("link -o out r + l", 0), ("map r + l", 1)]


def archives_past_the_limits():
    """More modules than a run may have, and more bytes, with a bad header after the first hundred members."""
    return with_root({"m": entry(b"m.o/", ONE) * 65_536, "b": entry(b"m.o/", ONE) * 100 + entry(b"/", b"") + b" " * (1 << 26)}), [
        ("link -o out r + m", 1), ("link -o out r + b", 1)]


def no_files():
    """Commands that read no file."""
    return {}, [("make 65536", 0, 64), ("help Misfit", 0), ("help " + "x" * 100_000, 2)]


KINDS = [colliding_publics, colliding_references, descending_indexes, scattered_indexes, chain, cycle, cycles_at_the_end,
         members, groups, sections, long_expressions, deep_blocks, long_fields, repeated_bytes, scattered_bytes,
         an_address_with_two_bytes, bytes_far_apart, debug_lines, text_lines_from_the_top, text_of_one_line,
         text_of_empty_lines, text_with_two_bytes, kept_chain,
         archive_of_a_chain, archives_cut_off, archive_of_empty_entries, archive_of_tables, names_past_the_long_names,
         a_long_name_of_many_members, archives_past_the_limits, plan_names, plan_regions, plan_brackets, plan_tables,
         plan_keys, plan_text, no_files]
