#!/usr/bin/env python3
"""Compares README and the pages with what they quote. It needs the programs that the gate built,
and runs at the top of the repository. With `--unbuilt` it leaves out what the programs print, and
needs none.

Above each fenced block stands a line that says what the block is:

    <!-- from FILE -->       it stands in that file: each run of its lines between lines `..`, whatever their indentation
    <!-- prints COMMAND -->  that shell command prints the block; with lines `..`, each run of its lines
    <!-- ran by the gate --> commands, which `.ci/run` runs
    <!-- picture -->         a drawing

A block without such a line is refused, so nothing that a page quotes goes uncompared. The Rust in
the package's README is the front page of its docs, and `cargo test` runs it. Two tables of
docs/FORMATS.md are compared too: the steps of its first schedule with what the program prints, and
the refusals of scripts, script by script. Links and paths lead to what is there, and so do the
files that CONTRIBUTING lists for a change. The forms that were replaced are those of
.ci/replaced.txt. Words that only the sources use occur in code alone. No cell of a table is longer
than a reader takes in at once.
"""

import pathlib
import re
import subprocess
import sys

PROGRAM = "crates/spawnrun/out/spawnrun"
FRONT_PAGE = pathlib.Path("rust/forgeni/README.md")
FORMATS = pathlib.Path("docs/FORMATS.md")
DECISIONS = pathlib.Path("docs/DECISIONS.md")
REPLACED = pathlib.Path(".ci/replaced.txt")
MARK = re.compile(r"<!-- (from|prints|ran by the gate|picture)(?: (.*))? -->$")

MOST_OF_CELL = 300

# Words of the sources for which the pages have one that readers know.
INTERNAL = re.compile(
    r"\b(seats?|badges?|aside|settled?|at home|ungone|credits?|kit)\b", re.IGNORECASE
)


def runs_of(lines):
    """The runs of lines between lines `..`, each without the indentation that its lines share."""
    runs = [[]]
    for line in lines:
        if line.strip() == "..":
            runs.append([])
        else:
            runs[-1].append(line)
    return [unindented(it) for it in runs if any(it)]


def unindented(lines):
    depth = min((len(it) - len(it.lstrip()) for it in lines if it.strip()), default=0)
    return [it[depth:].rstrip() for it in lines]


def has_run(lines, run):
    """Whether the run stands in these lines, at any indentation."""
    size = len(run)
    return any(unindented(lines[at : at + size]) == run for at in range(len(lines) - size + 1))


def printed(command, given=None):
    """What a shell command prints on standard output."""
    how = {"shell": True, "input": given, "text": True, "capture_output": True}
    return subprocess.run(command, **how).stdout.splitlines()


def blocks_of(page):
    """Each fenced block of a page: its first line's number, the line above it, and its own
    lines."""
    above, block, at = "", None, 0
    for number, line in enumerate(page.read_text().splitlines(), 1):
        if line.lstrip().startswith("```"):
            if block is None:
                block, at = [], number
                above = (
                    "<!-- ran by the gate -->"
                    if page == FRONT_PAGE and line == "```rust"
                    else above
                )
            else:
                yield at, above, block
                block = above = None
        elif block is not None:
            block.append(line)
        elif line.strip():
            above = line
        above = above or ""


def fault_of(mark, block, built):
    """What is wrong with a block under this line, or None. What a command prints is compared if the
    programs are built."""
    what = MARK.match(mark.strip())
    if not what:
        return "has no line that says what it is"
    kind, object = what.groups()
    if kind == "from":
        lines = pathlib.Path(object).read_text().splitlines()
        return (
            None
            if all(has_run(lines, it) for it in runs_of(block))
            else f"doesn't stand in {object}"
        )
    if kind == "prints" and built:
        lines = printed(object) or printed(f"{object} 2>&1")
        same = all(has_run(lines, it) for it in runs_of(block)) if ".." in block else lines == block
        return None if same else f"isn't what this prints: {object}"
    return None


def cells_of(page, head):
    """The cells of each row of the table that begins with this head."""
    lines = page.read_text().splitlines()
    rows = lines[lines.index(head) + 2 :]
    end = next((at for at, it in enumerate(rows) if not it.startswith("|")), len(rows))
    return [[it.strip() for it in row.strip("|").split("|")] for row in rows[:end]]


def faults_of_schedule():
    """The steps of the page's schedule are the lines of its file, each with the line that it
    prints."""
    cells = cells_of(FORMATS, "| Line | Prints | |")
    steps, said = [it[0].strip("`") for it in cells], [it[1].strip("`") for it in cells]
    file = "examples/two_callers.txt"
    if steps != pathlib.Path(file).read_text().splitlines():
        yield f"{FORMATS}: its first schedule is not {file}"
    if said != printed(f"{PROGRAM} replay < {file}"):
        yield f"{FORMATS}: its first schedule doesn't print what it says"


def faults_of_refusals():
    """Each script of the table of refusals is refused with its line."""
    for line, _, script in cells_of(FORMATS, "| Line | What is wrong | A script that meets it |"):
        if script and printed(f"{PROGRAM} run", script.strip("`")) != [line.strip("`")]:
            yield f"{FORMATS}: {script} isn't refused with {line}"


def faults_of_touched():
    """Each file of CONTRIBUTING's table of changes is there: `CRATE`: `FOLDER/` `NAME`, `NAME`;
    `FOLDER/NAME`."""
    page = pathlib.Path("CONTRIBUTING.md")
    for _, files in cells_of(page, "| You change | Files |"):
        for crate, parts in re.findall(r"`(\w+)`: (.*?)(?=\. |\.$|$)", files):
            folder = pathlib.Path("crates", crate)
            for name in re.findall(r"`([\w/]+)`", parts) if folder.is_dir() else ():
                if re.match(r"(src|specs|proofs|cases)/", name):
                    folder = pathlib.Path("crates", crate)
                path = folder / name
                folder = path if name.endswith("/") else folder
                if not any(path.with_suffix(it).exists() for it in ("", ".rt", ".antt", ".cases")):
                    yield f"{page}: {path} isn't there"


def faults_of_replaced():
    """Each form that was replaced has its row on the page of decisions, and no other form has; what
    replaces it is in its file."""
    listed = [
        it.split("; ") for it in REPLACED.read_text().splitlines() if it and not it.startswith("#")
    ]
    forms, rows = [it[0] for it in listed], [
        it[0] for it in cells_of(DECISIONS, "| Form | What replaces it, and why |")
    ]
    yield from (
        f"{DECISIONS}: no row says what replaces this form: {it}" for it in forms if it not in rows
    )
    yield from (
        f"{DECISIONS}: this form isn't in {REPLACED}: {it}" for it in rows if it not in forms
    )
    yield from (
        f"{REPLACED}: {file} doesn't have {it}"
        for _, file, it in listed
        if it not in pathlib.Path(file).read_text()
    )


def faults_of_tables(page):
    """No cell of a table has more than MOST_OF_CELL characters."""
    fenced = False
    for number, line in enumerate(page.read_text().splitlines(), 1):
        fenced ^= line.lstrip().startswith("```")
        for cell in line.split("|") if line.startswith("|") and not fenced else ():
            if len(cell.strip()) > MOST_OF_CELL:
                yield f"{page}:{number}: a cell of {len(cell.strip())} characters, more than {MOST_OF_CELL}: {cell.strip()[:60]} .."


def faults_of_text(page):
    """Each link of a page leads to a file, and so does each path of a folder that is at the top or
    beside the page. No word is internal."""
    text = re.sub(r"```.*?```|<!--.*?-->", "", page.read_text(), flags=re.S)
    yield from (f"{page}: the word {it}" for it in INTERNAL.findall(re.sub(r"`[^`]*`", "", text)))
    for path in re.findall(r"`([\w.]+/[\w./-]*\w)`", text):
        near = [
            it / path for it in (page.parent, pathlib.Path()) if (it / path.split("/")[0]).is_dir()
        ]
        if (
            near
            and "NAME" not in path
            and not any(it.exists() or it.with_suffix(".antt").exists() for it in near)
        ):
            yield f"{page}: {path} isn't there"
    yield from (
        f"{page}: no {it}"
        for it in re.findall(r"\]\(([^):]+)\)", text)
        if not (page.parent / it).exists()
    )


def main():
    built, faults, count = "--unbuilt" not in sys.argv[1:], [], 0
    pages = [*sorted(pathlib.Path().glob("*.md")), *sorted(pathlib.Path("docs").glob("*.md"))]
    pages += sorted(pathlib.Path("crates").glob("*/README.md"))
    pages += sorted(pathlib.Path("rust").glob("*/README.md"))
    for page in pages:
        faults += [*faults_of_text(page), *faults_of_tables(page)]
        for at, mark, block in blocks_of(page):
            count += 1
            fault = fault_of(mark, block, built)
            if fault:
                faults.append(f"{page}:{at}: the block {fault}")
    faults += [*faults_of_touched(), *faults_of_replaced()]
    if built:
        faults += [*faults_of_schedule(), *faults_of_refusals()]
    print(
        *faults,
        f"pages: {count} blocks of {len(pages)} pages compared, {len(faults)} faults",
        sep="\n",
    )
    return 1 if faults else 0


if __name__ == "__main__":
    sys.exit(main())
