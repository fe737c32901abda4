#!/usr/bin/env python3
"""Counts the instructions a byte of importing calendar files (bench/files.c) beside libical, on what bindings/build has built: files as
Google, gov.uk and Outlook write them, and the worst of 64 KiB. It needs libical's headers, and prints the table of bench/README.md.

    bench/files.py [FOLDER]      the files are kept in the folder, where one is named
"""
import datetime
import os
import subprocess
import sys
import tempfile

ROOT = os.path.dirname(os.path.dirname(os.path.abspath(__file__)))
sys.path[:0] = [os.path.join(ROOT, "bench"), os.path.join(ROOT, "oracle")]
import holidays
import instructions

PROGRAM = os.path.join(ROOT, "target", "calendar-files")
BUILD = f". tools/x86.sh && x86_link gcc {PROGRAM} -O2 -Iinclude bench/files.c target/staticlib/libcapi.a -lical"
START = datetime.date(2025, 5, 1)


def event(first, past=None):
    lines = [b"BEGIN:VEVENT", b"DTSTART;VALUE=DATE:" + first.strftime("%Y%m%d").encode()]
    lines += [b"DTEND;VALUE=DATE:" + past.strftime("%Y%m%d").encode()] if past else []
    return b"\n".join(lines + [b"END:VEVENT", b""])


def calendar(events):
    return b"BEGIN:VCALENDAR\n" + events + b"END:VCALENDAR\n"


def folded_everywhere(data):
    return b"".join(b"\n ".join(line[at:at + 1] for at in range(len(line))) + b"\n" for line in data.split(b"\n")[:-1])


def files():
    for years, name in ((40, "Google"), (80, "gov.uk"), (26, "Outlook"), (14, "Outlook")):
        yield name, dict(holidays.produced(years))[name]
    day = datetime.timedelta(1)
    yield "a fold at every byte", folded_everywhere(calendar(b"".join(event(START + k * day, START + (k + 1) * day) for k in range(270))))
    yield "9,361 open parts", b"BEGIN:VCALENDAR\n" + b"BEGIN:\n" * 9360
    yield "1,200 days backwards", calendar(b"".join(event(START - 2 * k * day) for k in range(1200)))
    yield "700 times 4,096 days", calendar(event(START, START + 4096 * day) * 700)
    yield "one line of 64 KiB", calendar(b"X:" + b"x" * 65503 + b"\n")


def main(folder):
    subprocess.run(["bash", "-c", BUILD], cwd=ROOT, check=True)
    names = []
    for at, (name, data) in enumerate(files()):
        assert len(data) <= 65536, (name, len(data))
        names.append((name, len(data), os.path.join(folder, f"{at}.ics")))
        with open(names[-1][2], "wb") as out:
            out.write(data)
    with open(os.devnull) as nothing:
        counts = instructions.of_calls(PROGRAM, [path for _, _, path in names], nothing)
    print("| file | bytes | instructions | a byte | libical | a byte | times |\n|---|---|---|---|---|---|---|")
    for (name, size, _), ours, libical in zip(names, counts[::2], counts[1::2]):
        print(f"| {name} | {size:,} | {ours:,} | {ours / size:.1f} | {libical:,} | {libical / size:.0f} | {libical / ours:.1f} |")


if len(sys.argv) > 1:
    main(sys.argv[1])
else:
    with tempfile.TemporaryDirectory() as kept:
        main(kept)
