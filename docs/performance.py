#!/usr/bin/env python3
"""Measures for docs/PERFORMANCE.md and draws its chart, and README's. It needs nothing but Python,
and runs from any folder.

    docs/performance.py measure [PART..]
        runs the scripts that the page names (or those with a PART in their names), puts their
        tables into the page, and draws the charts
    docs/performance.py draw
        draws the charts of the tables in the page: docs/performance.svg has all rows, and
        docs/benchmarks.svg those of README; and writes the page's table of limits
    docs/performance.py check
        ends with status 1 if a chart or the limits are others, or a table is missing

The figures stand in the page alone. A line above a table says what prints it, and the tables below
it up to the next such line:

    <!-- measured by COMMAND -->

The command prints one table or several. A table of the page is the printed one whose head begins
with the same two columns. A line that begins with a dash says when and on what machine the commands
that it names were measured. `measure` needs what the scripts need: `cargo` and `rt` on the path,
and the two peers that docs/PERFORMANCE.md names. A script builds what it measures, which takes a
few minutes more where it has not been built.
"""

import datetime
import math
import os
import pathlib
import re
import statistics
import subprocess
import sys
import textwrap
import time
from html import escape

TOP = pathlib.Path(__file__).resolve().parent.parent
PAGE = TOP / "docs/PERFORMANCE.md"
CHART, FEW_CHART = TOP / "docs/performance.svg", TOP / "docs/benchmarks.svg"
MARK = re.compile(r"<!-- measured by (.*) -->$")


# The tables of the page.


def tables_of(lines):
    """Each run of table lines among these: where it begins and ends."""
    begin = None
    for at, line in enumerate([*lines, ""]):
        if line.startswith("|"):
            begin = at if begin is None else begin
        elif begin is not None:
            yield begin, at
            begin = None


def measured_tables(lines):
    """Each table that a command prints: the command, and where the table begins and ends."""
    for begin, end in tables_of(lines):
        mark = next((it for it in map(MARK.match, reversed(lines[:begin])) if it), None)
        if mark:
            yield mark.group(1), begin, end


def cells_of(line):
    """The cells of a line of a table."""
    return [it.strip() for it in line.strip().removeprefix("|").removesuffix("|").split("|")]


def with_commas(line):
    """A line of a table, with commas in whole numbers."""
    return re.sub(r"(?<=\| )\d{4,}(?= \|)", lambda it: f"{int(it.group()):,}", line)


def rows_with(lines, *columns):
    """The rows of the measured table whose head begins with these columns, each as its cells."""
    for _, begin, end in measured_tables(lines):
        if cells_of(lines[begin])[: len(columns)] == [*columns]:
            return [cells_of(it) for it in lines[begin + 2 : end]]
    return []


def numbers_of(cell):
    """The numbers in a cell, and None behind them."""
    return [*map(float, re.findall(r"[0-9.]+", cell)), None]


# What the chart shows: groups of rows. A row has a label, a ratio of times beside each peer where
# there is one, and the least and the greatest ratio of one place.

PEERS = ["plain Rust", "slotmap", "sharded-slab", "the shared cursor"]
PARTS = {
    "`alloc`": "Handles of one caller",
    "`Reserver::": "Reservations",
    "`spawn`": "Whole entities",
    "`apply`": "The sync point",
}
# The first columns of the tables that have plain Rust alone beside us, and their groups.
BESIDE_PLAIN = {
    ("Command of `apply`", "Order"): "The sync point, by kind of command",
    ("Work of a `Storage`", "Entities"): "A storage, by number of entities",
}


def groups_of(lines):
    """The groups by name. A row of the works belongs to the part that begins with it or before it,
    and ends with our time in nanoseconds."""
    groups, part = {}, ""
    for work, ours, _, plain, by_place, _, slots in rows_with(lines, "Work", "Here"):
        part = next((it for begin, it in PARTS.items() if work.startswith(begin)), part)
        ratios = [numbers_of(plain)[0], numbers_of(slots)[0], None]
        groups.setdefault(part, []).append(
            (work.replace("`", ""), ratios, numbers_of(by_place)[:2], ours)
        )
    for columns, part in BESIDE_PLAIN.items():
        for work, of, ours, _, plain, by_place in rows_with(lines, *columns):
            label = f"{work.replace('`', '')}: {of}"
            groups.setdefault(part, []).append(
                (label, [numbers_of(plain)[0], None, None], numbers_of(by_place)[:2], ours)
            )
    for work, entities, ours, _, plain, by_place, _, slots in rows_with(lines, "Work", "Entities"):
        ratios = [numbers_of(plain)[0], numbers_of(slots)[0], None]
        label = f"{work.replace('`', '')}: {entities}"
        groups.setdefault("Components, by number of entities", []).append(
            (label, ratios, numbers_of(by_place)[:2], ours)
        )
    for column, how in (-2, "singly"), (-1, "64 at once"):
        for row in rows_with(lines, "Threads", "Singly"):
            ratios = [None, None, numbers_of(row[column])[0]]
            if any(ratios):
                part = "A phase of threads, and its flush"
                groups.setdefault(part, []).append(
                    (f"{how}, threads: {row[0]}", ratios, [], row[column + 3])
                )
    for threads, ours, _, counter, ratio in rows_with(lines, "Threads", "In blocks"):
        ratios = [float(ours) / float(counter), None, None, float(ratio)]
        groups.setdefault("A reservation from a block", []).append(
            (f"from a block, threads: {threads}", ratios, [], ours)
        )
    return groups


# The rows of README's chart, by their labels, with what they are called there.
FEW = {
    "alloc, then free": "alloc, then free",
    "contains": "contains",
    "Reserver::reserve": "reserve, one thread",
    "Reserver::reserve_into, 64 at once": "reserve 64 at once, one thread",
    "singly, threads: 4": "reserve on 4 threads, then a flush",
    "64 at once, threads: 4": "reserve 64 at once on 4 threads",
    "from a block, threads: 4": "reserve from a block on 4 threads",
    "apply, a command, scattered": "apply a command at a sync point",
    "Spawn, 4 times get, despawn, rising: 100,000": "spawn, read 4 times, despawn",
}


def few_of(groups):
    """The one group of README's chart, in the order of FEW, with our times in its labels."""
    rows = {
        label: (f"{FEW[label]}: {ours} ns", *others, ours)
        for of in groups.values()
        for label, *others, ours in of
        if label in FEW
    }
    return {"": [rows[it] for it in FEW]}


# The picture. Each mark stands at a ratio of times; left of the line of the same time we are the
# faster side. A peer's mark has a colour and a shape, so that peers can be told apart by either.

TITLE = "Time of each call, ours divided by a peer's"
# The plot has this width; to its left are the labels, whose letters have at most this one, and to
# its right the figures.
PLOT, LETTER, FIGURES, ROW, HEAD = 470, 6.5, 228, 19, 30
MOST = 2
MARKS = {
    "plain": "M-4 0A4 4 0 1 1 4 0A4 4 0 1 1 -4 0Z",
    "slots": "M-4 -4H4V4H-4Z",
    "slab": "M-5 4L0 -5L5 4Z",
    "cursor": "M-6 0L0 -6L6 0L0 6Z",
}

STYLE = """
    .paper { fill: #ffffff } .faster { fill: #eef6f0 } .slower { fill: #f7f3ee }
    text { font: 12px system-ui, -apple-system, "Segoe UI", Helvetica, Arial, sans-serif; fill: #1f2328 }
    .title { font-size: 16px; font-weight: 600 } .group { font-weight: 600 } .quiet { fill: #59636e }
    .figure { text-anchor: end; font-variant-numeric: tabular-nums } .middle { text-anchor: middle }
    .grid { stroke: #d1d9e0 } .even { stroke: #59636e; stroke-width: 1.5 } .span { stroke: #818b98; stroke-width: 1.5 }
    path { stroke: #ffffff; stroke-width: 1 } .plain { fill: #0072b2 } .slots { fill: #d55e00 } .slab { fill: #24292f }
    .cursor { fill: #009e73 }
    @media (prefers-color-scheme: dark) {
        .paper { fill: #0d1117 } .faster { fill: #0f1a13 } .slower { fill: #1c1711 } text { fill: #e6edf3 } .quiet { fill: #9198a1 }
        .grid { stroke: #30363d } .even { stroke: #9198a1 } .span { stroke: #6e7681 }
        path { stroke: #0d1117 } .plain { fill: #56b4e9 } .slots { fill: #e69f00 } .slab { fill: #f0f3f6 }
        .cursor { fill: #2fc894 }
    }"""


def plot(least, left):
    """Where a ratio is in the plot that begins there, with that power of two."""
    return lambda ratio: round(
        left + (min(math.log2(ratio), MOST) - least) / (MOST - least) * PLOT, 1
    )


def text(x, y, words, kind):
    return f'<text class="{kind}" x="{x}" y="{y}">{escape(words, quote=False)}</text>'


def line(kind, x1, y1, x2, y2):
    return f'<line class="{kind}" x1="{x1}" y1="{y1}" x2="{x2}" y2="{y2}"/>'


def mark(kind, x, y):
    return f'<path class="{kind}" transform="translate({x} {y})" d="{MARKS[kind]}"/>'


def row_of(label, ratios, span, place_of, left, y):
    yield text(16, y + 4, label, "")
    if len(span) == 2:
        yield line("span", place_of(span[0]), y, place_of(span[1]), y)
    for kind, ratio in reversed([*zip(MARKS, ratios)]):
        if ratio:
            yield mark(kind, place_of(ratio), y)
    for column, ratio in enumerate(ratios):
        if ratio:
            yield text(
                left + PLOT + 70 + 48 * column,
                y + 4,
                f"{ratio:.2f}" if ratio >= 0.095 else f"{ratio:.2g}",
                "figure",
            )


def drawn(groups):
    """The chart of these groups of rows."""
    left = 30 + round(LETTER * max(len(label) for rows in groups.values() for label, *_ in rows))
    right, width = left + PLOT, left + PLOT + FIGURES
    least = min(
        math.floor(math.log2(it))
        for rows in groups.values()
        for _, ratios, *_ in rows
        for it in ratios
        if it
    )
    place_of = plot(least, left)
    even = place_of(1)
    top, heads = 96, HEAD if len(groups) > 1 else 10
    height = top + sum(heads + ROW * len(rows) for rows in groups.values()) + 34
    bottom = height - 26

    marks = [
        f'<rect class="paper" width="{width}" height="{height}"/>',
        f'<rect class="faster" x="{left}" y="{top}" width="{even - left}" height="{bottom - top}"/>',
        f'<rect class="slower" x="{even}" y="{top}" width="{right - even}" height="{bottom - top}"/>',
        text(16, 28, TITLE, "title"),
    ]
    for power in range(least, MOST + 1):
        x = place_of(2.0**power)
        marks.append(line("even" if power == 0 else "grid", x, top, x, bottom))
        name = "the same" if power == 0 else f"{2**power}×" if power > 0 else f"1/{2**-power}"
        marks += [
            text(x, top - 8, name, "quiet middle"),
            text(x, bottom + 16, name, "quiet middle"),
        ]
    x = 16
    for kind, words in zip(MARKS, PEERS):
        marks += [mark(kind, x + 6, 48), text(x + 18, 52, f"beside {words}", "quiet")]
        x += 84 + 6.2 * len(words)
    marks += [
        text(place_of(2.0**-2), top - 26, "◂ Forgeni is faster", "quiet middle"),
        text(place_of(2.0**1), top - 26, "Forgeni is slower ▸", "quiet middle"),
    ]
    marks.append(text(right + 130, top - 26, "our time ÷ the peer's", "quiet middle"))
    marks += [mark(kind, right + 58 + 48 * column, top - 12) for column, kind in enumerate(MARKS)]
    y = top
    for name, rows in groups.items():
        if name:
            marks += [
                f'<rect class="paper" x="{left}" y="{y}" width="{PLOT}" height="{HEAD - 8}"/>',
                text(16, y + 18, name, "group"),
            ]
        y += heads
        for label, ratios, span, _ in rows:
            marks += row_of(label, ratios, span, place_of, left, y + 3)
            y += ROW
    body = "\n".join(marks)
    size = f'width="{width}" height="{height}" viewBox="0 0 {width} {height}"'
    head = f'<svg xmlns="http://www.w3.org/2000/svg" {size} role="img">\n<title>{TITLE}</title>'
    return f"{head}\n<style>{STYLE}\n</style>\n{body}\n</svg>\n"


def charts_of(lines):
    """Each chart of the tables among these lines, by its file."""
    groups = groups_of(lines)
    return {CHART: drawn(groups), FEW_CHART: drawn(few_of(groups))}


# The table of limits: a work, the head of its table, how its rows begin, and the limits of the
# median of their ratios.

LIMITS_HEAD = "| Work | Limit | Ratio to plain Rust | Limit | Ratio to slotmap |"
LIMITS = [
    ("`alloc` of new slots", ("Work", "Here"), ["`alloc` of"], 1.1, None),
    ("`alloc`, then `free`, of one slot", ("Work", "Here"), ["`alloc`, then `free` |"], 1.0, None),
    ("The same, of all slots", ("Work", "Here"), ["`alloc`, then `free`, of all"], 1.05, None),
    (
        "`state`, `contains`, `is_alive`",
        ("Work", "Here"),
        ["`state`", "`contains`", "`is_alive`"],
        1.0,
        1.1,
    ),
    ("A phase to `flush` to `free`, singly", ("Work", "Here"), ["A phase"], 1.05, None),
    ("The same, 64 at once", ("Work", "Here"), ["The same"], 1.05, None),
    ("`request` to `flush` to `free`", ("Work", "Here"), ["`request`"], 1.0, None),
    ("A `World`: spawn, 4 times `get`, despawn", ("Work", "Here"), ["`spawn`, 4"], 0.9, None),
    (
        "`HandleMap`: spawn, 4 times `get`, despawn, rising",
        ("Work", "Entities"),
        ["Spawn, 4 times `get`, despawn, rising"],
        1.1,
        1.0,
    ),
    (
        "The same, scattered",
        ("Work", "Entities"),
        ["Spawn, 4 times `get`, despawn, scattered"],
        1.1,
        1.0,
    ),
    ("`iter` over a map", ("Work", "Entities"), ["`iter`"], 1.0, 0.9),
    ("A command of `apply`, of each kind", ("Command of `apply`", "Order"), [""], 1.0, None),
    ("A spawn in a new slot", ("Command of `apply`", "Order"), ["spawn in a new"], 1.0, None),
    ("A `Storage`, and `born`", ("Work of a `Storage`", "Entities"), [""], 1.2, None),
    (
        "A frame of 64 systems that compute, 4 workers",
        ("Systems", "Workers"),
        ["compute | 4"],
        1.1,
        None,
    ),
    ("`Entities::try_clone_from`; plain: a copy", ("Slots", "`try_clone_from`"), [""], 1.3, 1.2),
    (
        "`HandleMap::clone_from`; plain: `Vec<Option<T>>`",
        ("Slots", "`HandleMap<i64>::clone_from`"),
        [""],
        1.3,
        None,
    ),
]


def medians_of(lines, columns, begins):
    """The medians of the columns `Ratio` of a table, over its rows that begin so."""
    for _, begin, end in measured_tables(lines):
        head = cells_of(lines[begin])
        if head[:2] == [*columns]:
            rows = [cells_of(it) for it in lines[begin + 2 : end]]
            rows = [it for it in rows if " | ".join(it).startswith(tuple(begins))]
            for at in [at for at, name in enumerate(head) if name == "Ratio"]:
                ratios = [float(it[at]) for it in rows if it[at]]
                yield statistics.median(ratios) if ratios else None


def beside_limit(limit, ratio):
    """The two cells of a limit and of what was measured."""
    if limit is None or ratio is None:
        return "|"
    return f"{limit:.2f} | " + (f"{ratio:.2f}" if round(ratio, 2) <= limit else f"**{ratio:.2f}**")


def with_limits(lines):
    """These lines, with the table of limits that follows from the other tables."""
    rows = []
    for name, columns, begins, plain, slots in LIMITS:
        beside_plain, beside_slots, *_ = [*medians_of(lines, columns, begins), None, None]
        rows.append(
            f"| {name} | {beside_limit(plain, beside_plain)} | {beside_limit(slots, beside_slots)} |"
        )
    at = lines.index(LIMITS_HEAD)
    end = next(end for begin, end in tables_of(lines) if begin == at)
    return [*lines[: at + 2], *rows, *lines[end:]]


def draw(lines):
    """Writes the table of limits, and draws the charts."""
    PAGE.write_text("\n".join(with_limits(lines)) + "\n")
    for file, chart in charts_of(lines).items():
        file.write_text(chart)


# Measuring.


def idle():
    """The part of a second in which the processors have nothing to do."""

    def read():
        with open("/proc/stat") as file:
            ticks = [int(it) for it in file.readline().split()[1:9]]
        return ticks[3] + ticks[4], sum(ticks)

    free, all_ticks = read()
    time.sleep(1)
    free_then, all_then = read()
    return (free_then - free) / max(all_then - all_ticks, 1)


def machine(free):
    """The day and the machine, whose processors were idle for this part of the second before."""
    found = re.search(r"model name\s*: (.*)", pathlib.Path("/proc/cpuinfo").read_text())
    model = re.sub(r"\((R|TM)\)", "", found.group(1)) if found else "an unknown processor"
    rust = subprocess.run(["rustc", "--version"], text=True, capture_output=True).stdout.split()[1]
    model = " ".join(model.split())
    return f"on {datetime.date.today()}, {os.cpu_count()} processors ({model}, idle for {100 * free:.0f} %), Rust {rust}"


DAY = re.compile(r"^- (on \d[^:]*):\s+((?:`[^`]+`,?\s+)+)", re.MULTILINE)


def days_of(lines):
    """When each command was measured, and on what machine."""
    return {
        command: it[1]
        for it in DAY.finditer("\n".join(lines))
        for command in re.findall("`([^`]+)`", it[2])
    }


def with_days(lines, days):
    """These lines, with those days: an item of a list for each day and machine."""
    text = "\n".join(lines)
    items = [
        f"- {day}: {', '.join(f'`{it}`' for it in days if days[it] == day)}"
        for day in dict.fromkeys(days.values())
    ]
    said = "\n".join(
        "\n".join(textwrap.wrap(it, 140, subsequent_indent="  ", break_on_hyphens=False))
        for it in items
    )
    at = DAY.search(text).start()
    return f"{text[:at]}{said}\n\n{DAY.sub('', text[at:])}".splitlines()


def with_tables(lines, command, printed):
    """These lines, with the tables that the command has printed in place of those of before."""
    new = [printed[begin:end] for begin, end in tables_of(printed)]
    for its, begin, end in reversed([*measured_tables(lines)]):
        if its == command:
            same = [it for it in new if cells_of(it[0])[:2] == cells_of(lines[begin])[:2]]
            if not same:
                sys.exit(f"{command} has printed no table with a head like {lines[begin]}")
            lines = [*lines[:begin], *map(with_commas, same[0]), *lines[end:]]
            new.remove(same[0])
    for table in new:
        print(f"  the page has no table with the head {table[0]}")
    return lines


def measure(parts):
    lines = PAGE.read_text().splitlines()
    every = dict.fromkeys(command for command, _, _ in measured_tables(lines))
    commands = [it for it in every if not parts or any(part in it for part in parts)]
    for command in commands:
        free, began = idle(), time.monotonic()
        ran = subprocess.run(command, shell=True, cwd=TOP, text=True, stdout=subprocess.PIPE)
        if ran.returncode:
            sys.exit(f"{command} ended with status {ran.returncode}:\n{ran.stdout[-2000:]}")
        print(f"{command}: {time.monotonic() - began:.0f} s", flush=True)
        lines = with_tables(lines, command, ran.stdout.splitlines())
        lines = with_days(lines, days_of(lines) | {command: machine(free)})
        PAGE.write_text("\n".join(lines) + "\n")
    draw(lines)


def faults_of(lines):
    """What is wrong with the page and the chart."""
    for at, line_of_page in enumerate(lines):
        if MARK.match(line_of_page) and not lines[at + 1].startswith("|"):
            yield f"docs/PERFORMANCE.md:{at + 1}: no table stands under this line"
    for command in dict.fromkeys(command for command, _, _ in measured_tables(lines)):
        if not (TOP / command.split()[0]).exists():
            yield f"docs/PERFORMANCE.md: there is no {command.split()[0]}"
        if command not in days_of(lines):
            yield f"docs/PERFORMANCE.md: no line says when {command} was measured"
    if with_limits(lines) != lines:
        yield "the table of limits isn't what `docs/performance.py draw` writes of the page's tables"
    for file, chart in charts_of(lines).items():
        if not file.exists() or file.read_text() != chart:
            yield f"docs/{file.name} isn't what `docs/performance.py draw` draws of the page's tables"


def main(words):
    lines = PAGE.read_text().splitlines()
    match words:
        case ["measure", *parts]:
            measure(parts)
        case ["draw"]:
            draw(lines)
        case ["check"]:
            faults = [*faults_of(lines)]
            print(
                *faults,
                f"performance: {len([*measured_tables(lines)])} tables, {len(faults)} faults",
                sep="\n",
            )
            return 1 if faults else 0
        case _:
            print(__doc__, file=sys.stderr)
            return 2
    return 0


if __name__ == "__main__":
    sys.exit(main(sys.argv[1:]))
