#!/usr/bin/env python3
"""Asks four programs the same requests, compares their answers, and then times them and counts their instructions.

    bench/measure.py [PASSES]
    bench/measure.py --instructions [BEFORE]

bench/run builds the programs and calls this. It writes bench/results.md and the plots beside it. --instructions counts those of our builds
alone, in seconds, under other rules too, and prints them; BEFORE is what it printed of an earlier library, for the figures before.
"""
import os
import random
import statistics
import subprocess
import sys
import tempfile
import time
from datetime import date
from math import log

import instructions

HERE = os.path.dirname(os.path.abspath(__file__))
TARGET = os.path.join(HERE, "..", "target")
PROGRAMS = {"ours": "bench/ours", "Rust": "oracle/oracle", "QuantLib": "bench/quantlib", "plain C": "bench/plain"}
COLOURS = {"ours": "#1b6ca8", "Rust": "#c0392b", "QuantLib": "#8e6c00", "plain C": "#3a7d44"}
NONE = ("unasked", "error")  # the plain C takes the common case alone; QuantLib refuses one date
ROUNDS, PLOT_ROUNDS = 11, 5
WEEKEND = 96
AIMS = {"Rust": 3, "QuantLib": 20}
DAILY_AIM, PLAIN_AIM, PLAIN_FROM = 500, 2, 100


def day(year, month, of_month):
    return date(year, month, of_month).toordinal()


def closed(count, years):
    """Closed weekdays, spread at random over that many years from 2020; the same ones in every run."""
    r = random.Random(count)
    start = day(2020, 1, 1)
    weekdays = [d for d in range(start, start + int(years * 365.25)) if (d - 1) % 7 < 5]
    return sorted(r.sample(weekdays, count))


def calendar(mask, dates=()):
    return " ".join(map(str, [mask, len(dates), *dates]))


CALENDARS = {"null": calendar(0), "weekends": calendar(WEEKEND), "600 closed": calendar(WEEKEND, closed(600, 40)),
             "4,096 closed": calendar(WEEKEND, closed(4096, 100))}
START = day(2025, 1, 15)
REQUESTS = {
    "30 years quarterly": f"{START} {day(2055, 1, 15)} M 3 1 2 2 0 0 0",
    "30 years quarterly, 31st": f"{day(2025, 1, 31)} {day(2055, 1, 31)} M 3 1 2 2 0 0 0",
    "10 years monthly": f"{START} {day(2035, 1, 15)} M 1 1 2 2 0 0 0",
    "5 years weekly": f"{START} {day(2030, 1, 15)} W 1 1 2 2 0 0 0",
    "1 year daily": f"{START} {day(2026, 1, 15)} D 1 1 2 2 0 0 0",
    "CDS2015, 10 years": f"{day(2025, 3, 20)} {day(2035, 6, 20)} M 3 9 1 0 0 0 0",
}
# Counted beside the others by --instructions.
MORE = {
    "Forward, 30 years quarterly": f"{START} {day(2055, 1, 15)} M 3 2 2 2 0 0 0",
    "Forward, 5 years weekly": f"{START} {day(2030, 1, 15)} W 1 2 2 2 0 0 0",
    "30 years quarterly, end of month": f"{day(2025, 1, 31)} {day(2055, 1, 31)} M 3 1 2 2 1 0 0",
    "30 years quarterly, both anchors": f"{START} {day(2055, 1, 15)} M 3 1 2 2 0 {day(2025, 3, 15)} {day(2054, 12, 15)}",
    "30 years quarterly, Unadjusted": f"{START} {day(2055, 1, 15)} M 3 1 0 0 0 0 0",
    "Twentieth, 30 years quarterly": f"{START} {day(2055, 1, 15)} M 3 3 2 2 0 0 0",
    "ThirdWednesday, 30 years quarterly": f"{START} {day(2055, 1, 15)} M 3 5 2 2 0 0 0",
    "OldCDS, 30 years quarterly": f"{START} {day(2055, 1, 15)} M 3 7 2 2 0 0 0",
    "Zero": f"{START} {day(2055, 1, 15)} Y 0 0 2 2 0 0 0",
    "Forward weekly, 4,096 dates": f"{START} {START + 7 * 4095} W 1 2 1 1 0 0 0",
    "weekly, 4,096 dates": f"{START} {START + 7 * 4095} W 1 1 1 1 0 0 0",
}
MONTH_END = day(2025, 5, 31)
IMM = day(2025, 3, 19)
BUILDS = {(request, name): f"build {words} {table}" for request, words in REQUESTS.items()
          for name, table in CALENDARS.items()}
BUILDS["one date", "null"] = f"build {START} {START} M 1 1 0 0 0 0 0 0 0"
SMALL = {
    **{("adjust", name): f"adjust {MONTH_END} 2 {table}" for name, table in CALENDARS.items()},
    **{("advance 3 months", name): f"advance {START} M 3 2 0 {table}" for name, table in CALENDARS.items()},
    **{("advance 10 days", name): f"advance {START} D 10 2 0 {table}" for name, table in CALENDARS.items()},
    ("is an IMM date", "-"): f"immdate {IMM} 1",
    ("next IMM date", "-"): f"nextdate {IMM} 1",
    ("date of an IMM code", "-"): f"date 4835 {IMM + 1}",
    ("code of an IMM date", "-"): f"code {IMM}",
}


def path_of(name):
    return os.path.join(TARGET, PROGRAMS[name])


def run(name, words, lines):
    done = subprocess.run([path_of(name), *words], input="\n".join(lines) + "\n", capture_output=True, text=True,
                          env={**os.environ, **instructions.TIMING})
    if done.returncode:
        sys.exit(f"bench: {name} stopped: {done.stderr.strip()}")
    return done.stdout.split("\n")[:-1]


def compared(lines):
    """Our answers, once everybody who answers a line has answered alike."""
    said = {name: run(name, ["--once"], lines) for name in PROGRAMS}
    for i, line in enumerate(lines):
        for name in PROGRAMS:
            if said[name][i] not in (*NONE, said["ours"][i]):
                sys.exit(f"bench: {line[:100]}\n    ours {said['ours'][i][:200]}\n    {name} {said[name][i][:200]}")
    return said["ours"]


def timed(lines, passes, rounds):
    """For each line and program the median over passes of the median round, the programs by turns; for each other
    program also the median over passes of its time over ours in the same pass."""
    took = [{name: [] for name in PROGRAMS} for _ in lines]
    for _ in range(passes):
        for name in PROGRAMS:
            for i, line in enumerate(run(name, ["--time", str(rounds)], lines)):
                if line not in NONE:
                    took[i][name].append(float(line.split()[0]))
    rows = [{name: statistics.median(times) for name, times in row.items() if times} for row in took]
    for row, all_times in zip(rows, took):
        for name in list(row):
            row[name, "ours"] = statistics.median(a / b for a, b in zip(all_times[name], all_times["ours"]))
    return rows


def over_ours(row, name):
    return row.get((name, "ours"), row[name] / row["ours"])


def counted(name, lines):
    """Instructions of the second of two calls, for the lines that the program answers."""
    answered = [i for i, answer in enumerate(run(name, ["--once"], lines)) if answer not in NONE]
    with tempfile.TemporaryFile("w+") as questions:
        questions.write("\n".join(lines[i] for i in answered) + "\n")
        questions.flush()
        questions.seek(0)
        counts = instructions.of_calls(path_of(name), ["--once"], questions)
    if len(counts) != 2 * len(answered):
        sys.exit(f"bench: {len(counts)} counts of {name} for {len(answered)} questions")
    return {i: counts[2 * at + 1] for at, i in enumerate(answered)}


def fixed_cost(passes):
    """Time and instructions of setting the three working lists to zero, by themselves."""
    said = [run("plain C", ["--time", str(ROUNDS)], ["lists"])[0].split() for _ in range(passes)]
    median = statistics.median(float(words[0]) for words in said)
    return (f"Setting three lists of that size to zero ({int(said[0][2]):,} bytes) takes {figure(median)} by itself, "
            f"{counted('plain C', ['lists'])[0]:,} instructions.")


# Tables

def figure(ns):
    return f"{ns:,.0f} ns" if ns < 10000 else f"{ns / 1000:,.1f} µs" if ns < 1e7 else f"{ns / 1e6:,.1f} ms"


def ratio(x):
    return f"{x:,.2f}" if x < 10 else f"{x:,.0f}"


def cells(row, show):
    """Ours, then each other's figure and how many times ours it is."""
    out = [show(row["ours"])]
    for name in ("Rust", "QuantLib", "plain C"):
        out.append(f"{show(row[name])} | {ratio(over_ours(row, name))}" if name in row else "- | -")
    return " | ".join(out)


def table(keys, rows, show, counts=None):
    head = "| request | calendar | " + ("dates | " if counts else "")
    lines = [head + "ours | Rust | ÷ ours | QuantLib | ÷ ours | plain C | ÷ ours |",
             "|---|---|" + ("---|" if counts else "") + "---|" * 7]
    for at, ((request, name), row) in enumerate(zip(keys, rows)):
        lines.append(f"| {request} | {name} | " + (f"{counts[at]} | " if counts else "") + cells(row, show) + " |")
    return lines


def shortfalls(keys, rows, counts):
    """Rows of builds that miss an aim."""
    out = []
    for (request, name), row, count in zip(keys, rows, counts):
        for other, aim in AIMS.items():
            aim = DAILY_AIM if other == "Rust" and request == "1 year daily" else aim
            if other in row and over_ours(row, other) < aim:
                out.append(f"- {request}, {name}: {ratio(over_ours(row, other))} times as fast as {other}, aim {aim}")
        if "plain C" in row and count >= PLAIN_FROM and over_ours(row, "plain C") < 1 / PLAIN_AIM:
            out.append(f"- {request}, {name}: {ratio(1 / over_ours(row, 'plain C'))} times as long as plain C, "
                       f"aim {PLAIN_AIM}")
    return out or ["- none"]


# Plots

def mark(ns):
    """A power of ten on an axis."""
    return f"{ns} ns" if ns < 1000 else f"{ns // 1000} µs" if ns < 10 ** 6 else f"{ns // 10 ** 6} ms"


def svg(path, title, across, points):
    """Lines on two logarithmic axes; points are (x, {program: ns})."""
    width, height, left, below = 640, 420, 70, 50
    ys = [row[name] for _, row in points for name in PROGRAMS if name in row]
    low_x, high_x = 1, 4096
    low_y, high_y = 10 ** int(len(str(int(min(ys)))) - 1), 10 ** len(str(int(max(ys))))

    def place(x, y):
        px = left + (width - left - 20) * log(max(x, low_x) / low_x) / log(high_x / low_x)
        py = height - below - (height - below - 40) * log(y / low_y) / log(high_y / low_y)
        return px, py

    out = [f'<svg xmlns="http://www.w3.org/2000/svg" width="{width}" height="{height}" font-family="sans-serif" '
           'font-size="12">', f'<rect width="{width}" height="{height}" fill="white"/>',
           f'<text x="{left}" y="22" font-size="14">{title}</text>']
    y = low_y
    while y <= high_y:
        px, py = place(1, y)
        out.append(f'<line x1="{left}" y1="{py:.1f}" x2="{width - 20}" y2="{py:.1f}" stroke="#ddd"/>')
        out.append(f'<text x="{left - 6}" y="{py + 4:.1f}" text-anchor="end">{mark(y)}</text>')
        y *= 10
    for x in (1, 4, 16, 64, 256, 1024, 4096):
        px, py = place(x, low_y)
        out.append(f'<text x="{px:.1f}" y="{py + 18:.1f}" text-anchor="middle">{x:,}</text>')
    out.append(f'<text x="{(left + width) / 2}" y="{height - 10}" text-anchor="middle">{across}</text>')
    for at, name in enumerate(PROGRAMS):
        line = [place(x, row[name]) for x, row in points if name in row]
        if line:
            out.append(f'<polyline fill="none" stroke="{COLOURS[name]}" stroke-width="2" points="'
                       + " ".join(f"{px:.1f},{py:.1f}" for px, py in line) + '"/>')
            out.append(f'<text x="{left + 10}" y="{50 + 16 * at}" fill="{COLOURS[name]}">{name}</text>')
    out.append("</svg>")
    with open(os.path.join(HERE, path), "w", encoding="utf-8") as file:
        file.write("\n".join(out) + "\n")


POWERS = [2 ** k for k in range(13)]


def by_dates(unit, days):
    """Builds of 2 to 4,096 dates on the null calendar."""
    counts = [n for n in POWERS if n > 1]
    lines = [f"build {START} {START + (n - 1) * days} {unit} 1 1 2 2 0 0 0 {CALENDARS['null']}" for n in counts]
    return counts, lines


def plot(path, title, across, xs, lines):
    compared(lines)
    points = list(zip(xs, timed(lines, 1, PLOT_ROUNDS)))
    svg(path, title, across, points)
    return points


def plot_table(across, points):
    lines = [f"| {across} | ours | Rust | ÷ ours | QuantLib | ÷ ours | plain C | ÷ ours |", "|---|" + "---|" * 7]
    return lines + [f"| {x:,} | {cells(row, figure)} |" for x, row in points]


def print_instructions(before):
    """Our builds' instructions, beside those of an earlier table."""
    asked = {**BUILDS, **{(request, name): f"build {words} {table}" for request, words in MORE.items() for name, table in CALENDARS.items()}}
    lines = list(asked.values())
    counts = [answer.split()[4] for answer in run("ours", ["--once"], lines)]
    executed = counted("ours", lines)
    print("| request | calendar | dates | instructions |" + (" before | times before |" if before else ""))
    print("|---|---|---|---|" + ("---|---|" if before else ""))
    for at, key in enumerate(asked):
        earlier = before.get(key)
        more = f" {earlier:,} | {executed[at] / earlier:.2f} |" if earlier else " - | - |" if before else ""
        print(f"| {' | '.join(key)} | {counts[at]} | {executed[at]:,} |{more}")


def read_instructions(path):
    with open(path, encoding="utf-8") as file:
        rows = [[cell.strip() for cell in line.split("|")[1:]] for line in file if line.startswith("| ")]
    return {(row[0], row[1]): int(row[3].replace(",", "")) for row in rows if row[2].isdigit()}


def main():
    if sys.argv[1:2] == ["--instructions"]:
        print_instructions(read_instructions(sys.argv[2]) if len(sys.argv) > 2 else {})
        return
    passes = int(sys.argv[1]) if len(sys.argv) > 1 else 15
    start = time.time()

    def progress(what):
        print(f"{time.time() - start:4.0f} s  {what}", file=sys.stderr, flush=True)

    builds, small = list(BUILDS.values()), list(SMALL.values())
    said = compared(builds + small)
    counts = [int(answer.split()[4]) for answer in said[:len(builds)]]
    progress(f"{len(said)} answers are the same")
    rows = timed(builds + small, passes, ROUNDS)
    progress("timed")
    executed = [{} for _ in rows]
    for name in PROGRAMS:
        for i, n in counted(name, builds + small).items():
            executed[i][name] = n
        progress(f"instructions of {name} counted")
    weekly = plot("dates.svg", "a weekly build, by the number of its dates (null calendar)", "dates", *by_dates("W", 7))
    daily = plot("days.svg", "a daily build, by the number of its dates (null calendar)", "dates", *by_dates("D", 1))
    monthly = plot("closed.svg", "10 years monthly, by the number of closed dates (weekends closed)", "closed dates", POWERS,
                   [f"build {REQUESTS['10 years monthly']} {calendar(WEEKEND, closed(n, 100))}" for n in POWERS])
    progress("plots drawn")
    edge = len(builds)
    show = "{:,}".format
    lines = ["# Measured", "", "Written by `bench/run`; bench/README.md says what the figures mean.", "",
             instructions.machine(), "",
             "## Builds: time of one build", "", *table(BUILDS, rows[:edge], figure, counts), "",
             f"The fixed cost of a build of ours is that of one date, {figure(rows[edge - 1]['ours'])} and "
             f"{executed[edge - 1]['ours']:,} instructions. {fixed_cost(passes)}", "",
             "## Builds: instructions of one build", "", *table(BUILDS, executed[:edge], show, counts), "",
             "## Calls: time of one call", "", *table(SMALL, rows[edge:], figure), "",
             "## Calls: instructions of one call", "", *table(SMALL, executed[edge:], show), "",
             "## Builds that fall short of an aim, by time", "", *shortfalls(BUILDS, rows[:edge], counts), "",
             "## By the number of dates, weekly (dates.svg)", "", *plot_table("dates", weekly), "",
             "## By the number of dates, daily (days.svg)", "", *plot_table("dates", daily), "",
             "## By the number of closed dates, 10 years monthly (closed.svg)", "", *plot_table("closed dates", monthly)]
    with open(os.path.join(HERE, "results.md"), "w", encoding="utf-8") as file:
        file.write("\n".join(lines) + "\n")
    progress("written to bench/results.md")


if __name__ == "__main__":
    main()
