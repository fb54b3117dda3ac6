#!/usr/bin/env python3
"""Checks that lines of sources written by hand have at most 100 columns.

    .ci/columns.py

A text in quotes isn't counted, since it would have to be cut. Neither are an import of one name, a
tactic's list of lemmas, a row of a table, and what a program prints.
"""

import io
import pathlib
import re
import subprocess
import sys
import tokenize

MOST = 100
# `rt fmt` joins what ends this far right.
LAID_OUT = {".rt": 105, ".antt": 105}
# What the eraser and .ci/contracts.py make.
MADE = {"rust/forgeni/src/proved", "rust/forgeni/src/contracts"}
# Rust's texts, and what could be taken for the beginning of one.
TEXT = re.compile(
    r"""//[^\n]* | '(?:\\[^']*|[^'\\\n])' | b?r(?P<marks>\#*)".*?"(?P=marks) | b?"(?:\\.|[^"\\])*" """,
    re.VERBOSE | re.DOTALL,
)
# An import of one name, the lemmas of a tactic, a row of a table, whose cells have a gap between
# them, and what a program prints.
WHOLE = re.compile(r"\s*((pub |ghost )?use [^,{]*(\{[^,]*\};?)?$|#\[tactic|/// \||//! .* => )|.*\S {2,}\S")


def sources():
    listed = subprocess.run(["git", "ls-files"], capture_output=True, text=True, check=True)
    for path in map(pathlib.Path, listed.stdout.split()):
        if MADE & {str(it) for it in path.parents}:
            continue
        if path.suffix in (".rt", ".antt", ".rs", ".py"):
            yield path, path.read_text()
        elif path.suffix == "" and path.is_file() and not path.is_symlink():
            text = path.read_bytes()
            if text.startswith(b"#!/usr/bin/env python3"):
                yield path, text.decode()


def texts_of_python(text):
    """The texts of a Python file, but not its docs, by their first and last places."""
    before = None
    for token in tokenize.generate_tokens(io.StringIO(text).readline):
        is_doc = before in (None, tokenize.NEWLINE, tokenize.INDENT)
        if token.type == tokenize.STRING and not is_doc:
            yield token.start, token.end
        if token.type not in (tokenize.NL, tokenize.COMMENT):
            before = token.type


def texts_of_rust(text):
    lines = [0] + [at.end() for at in re.finditer("\n", text)]
    line = 0
    for found in TEXT.finditer(text):
        if found[0].startswith("//"):
            continue
        places = []
        for at in found.span():
            while line + 1 < len(lines) and lines[line + 1] <= at:
                line += 1
            places.append((line + 1, at - lines[line]))
        yield tuple(places)


def widths(path, text):
    """How many columns each line has outside of texts."""
    lines = text.split("\n")
    counts = [len(line) for line in lines]
    python = path.suffix not in (".rt", ".antt", ".rs")
    for first, last in texts_of_python(text) if python else texts_of_rust(text):
        for line in range(first[0], last[0] + 1):
            begin = first[1] if line == first[0] else 0
            end = last[1] if line == last[0] else len(lines[line - 1])
            counts[line - 1] -= end - begin
    return zip(lines, counts)


def main():
    faults = files = 0
    for path, text in sources():
        files += 1
        for number, (line, width) in enumerate(widths(path, text), 1):
            if width > LAID_OUT.get(path.suffix, MOST) and not WHOLE.match(line):
                print(f"{path}:{number}: {width} columns")
                faults += 1
    print(f"columns: {files} files, {faults} lines above {MOST}")
    sys.exit(faults > 0)


if __name__ == "__main__":
    main()
