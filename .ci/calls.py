#!/usr/bin/env python3
"""Prints the public calls of types of the crates, one line each: its name and arguments, and the
first sentence of its doc comment.

    calls.py TYPE..

`CRATE::TYPE` is the type of one crate, if several have one of that name. `docs/IN_RATTLE.md` quotes
what it prints, and `.ci/pages.py` compares. It runs at the top of the repository.
"""

import pathlib
import re
import sys
import textwrap

ROOT = pathlib.Path("crates")
WIDTH = 138
CALL = re.compile(r"    pub (?:const )?fn (\w+)(?:<.*?>)?\((.*?)\)(?: |$)")
ASIDE = ("alloc", "rt")


def first_sentence(comments):
    """The first sentence of a doc comment, without its links."""
    text = re.split(r"(?<=[.])(?: |$)", " ".join(comments).split("  ")[0])[0]
    return re.sub(r"\[(`[^`]*`)\](?:\([^)]*\))?", r"\1", text).replace("`", "")


def arguments(text):
    """The names of the arguments that a caller thinks of."""
    names = [
        it.split(":")[0].strip().removeprefix("mut ")
        for it in re.sub(r"\[[^]]*\]", "", text).split(",")
    ]
    return [it for it in names if it and not it.endswith("self") and it not in ASIDE]


def calls_of(type, file):
    """The public calls of a type in a file: each as it is called, and what it does."""
    lines, within, comments = file.read_text().splitlines(), False, []
    for at, line in enumerate(lines):
        if line and not line[0].isspace():
            within = re.match(rf"impl(?:<.*?>)? {type}(?:<.*>)? (?:\{{|where)", line) is not None
        call = (
            CALL.match(" ".join([line, *(it.strip() for it in lines[at + 1 : at + 9])]))
            if within
            else None
        )
        if call:
            yield f"{call[1]}({', '.join(arguments(call[2]))})", first_sentence(comments)
        if line.startswith("    ///"):
            comments = [*comments, line.strip()[3:].strip()]
        elif not line.startswith(("    #[", "    // ")):
            comments = []


def print_calls(path):
    crate, type = path.split("::") if "::" in path else ("ent_*", path)
    files = [it for it in ROOT.glob(f"{crate}/src/*.rt") if "_tests" not in it.parts[1]]
    files.sort(key=lambda it: (f"pub struct {type}" not in it.read_text(), str(it)))
    calls = [it for file in files for it in calls_of(type, file)]
    width = max(len(name) for name, _ in calls)
    print(type)
    for name, what in calls:
        print(
            *textwrap.wrap(
                f"  {name:<{width}}  {what}", WIDTH, subsequent_indent=" " * (width + 4)
            ),
            sep="\n",
        )


for type in sys.argv[1:]:
    print_calls(type)
