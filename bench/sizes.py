#!/usr/bin/env python3
"""The sizes of code and of read-only data in the library and the program, whole and by function, and whether a row of month lengths
stands in them.

    bench/sizes.py [BEFORE]     prints the tables of bench/sizes.md; BEFORE is such a file of an earlier build, for the figures before
    bench/sizes.py --check      status 1 if a row or an eight-byte half of one is found, or if a function that has to stay a call
                                is not there; looks at what bindings/build and ./heronspan have built
"""
import os
import re
import struct
import sys

TARGET = os.path.join(os.path.dirname(os.path.abspath(__file__)), "..", "target")
LIBRARY, SHARED, PROGRAM = "staticlib/libcapi.a", "libheronspan.so", "bin/heronspan"
ROWS = [bytes([31, february, 31, 30, 31, 30, 31, 31, 30, 31, 30, 31]) for february in (28, 29)]
# A compiler moves a row of twelve bytes to the stack as two constants of eight that overlap.
HALVES = sorted({row[at:at + 8] for row in ROWS for at in (0, 4)})
# The compiler expands what costs under 250 of its units, and these are a little over it; docs/DECISIONS.md, "Months by rule".
CALLS = "date::span::number_in", "date::Date::nth_weekday"
FUNCTION = 2  # a symbol's type


def read(name):
    with open(os.path.join(TARGET, name), "rb") as file:
        return file.read()


def objects(data):
    """The objects of an archive, or the one that the file is."""
    if not data.startswith(b"!<arch>\n"):
        return [data]
    members, at = [], 8
    while at < len(data):
        size = int(data[at + 48:at + 58])
        members.append(data[at + 60:at + 60 + size])
        at += 60 + size + size % 2
    return [member for member in members if member.startswith(b"\x7fELF")]


def text_at(strings, at):
    return strings[at:strings.index(b"\0", at)].decode()


def sections(data):
    """Name, bytes and link of each section of an ELF file of 64 bits."""
    table, = struct.unpack_from("<Q", data, 0x28)
    entry, count, names = struct.unpack_from("<HHH", data, 0x3A)
    heads = [struct.unpack_from("<IIQQQQI", data, table + entry * i) for i in range(count)]
    strings = data[heads[names][4]:][:heads[names][5]]
    return [(text_at(strings, head[0]), data[head[4]:head[4] + head[5]], head[6]) for head in heads]


def functions(parts):
    """Name and size of each function."""
    for name, symbols, link in parts:
        if name == ".symtab":
            for at, kind, size in struct.iter_unpack("<IB11xQ", symbols):
                if kind % 16 == FUNCTION and size:
                    yield text_at(parts[link][1], at), size


def measured(name):
    """Sizes of the whole and of each function, the largest first."""
    whole, each = {"code": 0, "read-only data": 0, "together": 0}, {}
    for data in objects(read(name)):
        parts = sections(data)
        for part, content, _ in parts:
            kind = "code" if part.startswith(".text") else "read-only data" if part.startswith(".rodata") else None
            if kind:
                whole[kind] += len(content)
                whole["together"] += len(content)
        each.update(functions(parts))
    rest = whole["code"] - sum(each.values())
    return {**whole, **{f"`{name}`": n for name, n in sorted(each.items(), key=lambda of: (-of[1], of[0]))},
            **({"other code": rest} if rest else {})}


def found(name):
    data = read(name)
    return {"rows of twelve": sum(map(data.count, ROWS)), "halves of eight": sum(map(data.count, HALVES))}


def earlier(path):
    """The last figures of each row, by file and name."""
    figures, name = {}, None
    with open(path, encoding="utf-8") as file:
        for line in file:
            if line.startswith("## "):
                name = line[3:].strip()
            row = re.fullmatch(r"\| (\D.*?) \| (\S+) \| (\S+) \| (\S+) \|\n", line)
            if row and row[3][0].isdigit():
                figures[name, row[1]] = int(row[3].replace(",", ""))
    return figures


def show(n):
    return "-" if n is None else f"{n:,}"


def table(name, before):
    """Figures before and after; what is in one of the two alone counts as nothing in the other."""
    now = {**measured(name), **found(name)}
    if name == SHARED:  # its functions are the library's
        now = {row: n for row, n in now.items() if not row.startswith("`") and row != "other code"}
    gone = sorted(row for of, row in before if of == name and row not in now)
    yield from (f"## {name}", "", "| | before | after | change |", "|---|---|---|---|")
    for row in [*now, *gone]:
        old, new = before.get((name, row)), now.get(row)
        change = f"{(new or 0) - (old or 0):+,}" if before and old != new else "0" if before else "-"
        yield f"| {row} | {show(old)} | {show(new)} | {change} |"
    yield ""


def check():
    """What is wrong, in lines; what was looked at."""
    wrong, seen = [], [name for name in (LIBRARY, SHARED, PROGRAM) if os.path.exists(os.path.join(TARGET, name))]
    for name in seen:
        wrong += [f"month lengths in target/{name}: {n} {what}" for what, n in found(name).items() if n]
        if name == LIBRARY:
            there = measured(name)
            wrong += [f"the compiler has expanded {call} wherever target/{name} calls it" for call in CALLS if f"`{call}`" not in there]
    if not seen:
        wrong.append("nothing is built")
    return wrong, seen


def main(words):
    if words == ["--check"]:
        wrong, seen = check()
        print("\n".join(f"bench/sizes.py: {line}" for line in wrong) or f"no row of month lengths in {', '.join(seen)}")
        return bool(wrong)
    if len(words) > 1 or words[:1] == ["--help"]:
        sys.exit(__doc__)
    before = earlier(words[0]) if words else {}
    print("# Sizes\n\nIn bytes, written by `bench/sizes.py`; bench/README.md says what the figures mean.\n")
    print("\n".join(line for name in (LIBRARY, SHARED, PROGRAM) for line in table(name, before)).rstrip("\n"))
    return False


if __name__ == "__main__":
    sys.exit(main(sys.argv[1:]))
