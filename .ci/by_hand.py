#!/usr/bin/env python3
"""Counts what is written by hand in the package: lines of code of rust/forgeni/src outside APART,
and functions with a branch.

    .ci/by_hand.py

Comments, blank lines and test modules aren't counted. A branch is `if`, `match`, `while`, `for`,
`loop` or `let .. else`, in a closure too. Each function with one is in a row of a table of
docs/PROVED.md, which says why it is by hand, and a row has such functions alone. Missing rows are
printed as they have to be written there. The script fails if the table isn't right, or if there is
more than MOST allows.

Fields of proved types that are visible in the whole package are used in no file by hand but SEES.
The script fails if another one does.
"""

import pathlib
import re
import sys

SOURCES, PAGE = pathlib.Path("rust/forgeni/src"), pathlib.Path("docs/PROVED.md")
DRAWING = pathlib.Path("rust/forgeni/drawing")
# What is made, what stands in for the kit, and what draws pictures. docs/PROVED.md says of each why
# it isn't counted.
APART = {"contracts", "proved", "kit"}
# The only file by hand that sees fields of proved types, and what such a field looks like in the
# erased sources.
SEES, FIELD = SOURCES / "several.rs", re.compile(r"^ +pub\(crate\) (\w+):", re.MULTILINE)
MOST = {"lines of code": 2725, "functions with a branch": 35}
BRANCHES, ITEMS = {"if", "else", "match", "while", "for", "loop"}, {"impl", "trait", "mod"}
# A row: files, each with its functions, and why they are by hand.
ROW = re.compile(r"^\| (`[\w/]+\.rs`: [^|]*) \|(.*)\|$", re.MULTILINE)
TOKEN = re.compile(
    r"""(?P<gap>\s+ | //[^\n]* | /\*.*?\*/) | b?r(?P<marks>\#*)".*?"(?P=marks) | b?"(?:\\.|[^"\\])*" | b?'(?:\\[^']*.|[^'\\])'
    | '\w+ | \w+ | .""",
    re.VERBOSE | re.DOTALL,
)


class File:
    """A file by hand: its functions with a branch, and its lines of code, those of tests apart."""

    def __init__(self, text):
        self.words, self.places, self.close = [], [], {}
        line, opened = 1, []
        for token in TOKEN.finditer(text):
            if not token["gap"]:
                if token[0] in "([{":
                    opened.append(len(self.words))
                elif token[0] in ")]}":
                    self.close[opened.pop()] = len(self.words)
                self.words.append(token[0])
                self.places.append(line)
            line += token[0].count("\n")
        self.branches, self.tests, self.test_modules = [], set(), []
        self.walk(0, len(self.words), "", None)
        self.lines = set(self.places) - self.tests

    def walk(self, at, end, owner, function):
        """Reads what stands there, in an item or in a function."""
        while at < end:
            word = self.words[at]
            before = self.words[at - 1] if at else ""
            if word == "#" and "[" in self.words[at + 1 : at + 3]:
                at = self.attribute(at)
            elif word in ITEMS and before in ("", "{", "}", ";", "]", "pub", ")"):
                body = self.find(at)
                kind = f"{owner}{self.name(at, body)}::" if word != "mod" else owner
                at = self.inside(body, kind, None)
            elif word == "fn" and re.match(r"\w", self.words[at + 1]):
                at = self.inside(self.find(at), owner, (owner + self.words[at + 1], at))
            elif word == "macro_rules":
                at = self.inside(self.find(at), owner, (self.words[at + 2] + "!", at))
            else:
                is_branch = word in BRANCHES and not (word == "for" and self.words[at + 1] == "<")
                if is_branch and function and function not in self.branches:
                    self.branches.append(function)
                at += 1

    def inside(self, body, owner, function):
        if self.words[body] == "{":
            self.walk(body + 1, self.close[body], owner, function)
        return self.close.get(body, body) + 1

    def find(self, at, ends="{;"):
        """The place where the body of an item begins, or its end if it has none."""
        while self.words[at] not in ends:
            at = self.close.get(at, at) + 1
        return at

    def attribute(self, at):
        """Goes past an attribute, and past its item if that is a test."""
        opened = at + 1 + (self.words[at + 1] == "!")
        end = self.close[opened] + 1
        if self.words[opened:end] == "[ cfg ( test ) ]".split():
            begin, end = at, self.find(end)
            if self.words[end - 2] == "mod":
                self.test_modules.append(self.words[end - 1])
            end = self.close.get(end, end) + 1
            self.tests |= set(self.places[begin:end])
        return end

    def name(self, at, body):
        """`Type`, or `<Type as Trait<..>>`: the type without parameters, and both without paths,
        lifetimes and bounds."""
        parts, part, depth = {"": "", "for": "", "where": ""}, "", 0
        for place in range(at + 1, body):
            word = self.words[place]
            depth += word == "<"
            if depth == 0 and part != "where" and word in parts:
                part = word
            elif word[0] != "'" and (depth == 0 or parts[part]):
                parts[part] += word + " " * (word in ("dyn", "mut"))
            depth -= word == ">" and self.words[place - 1] != "-"
        first, of = (re.sub(r"\w+::|(?<=<),", "", parts[it]) for it in ("", "for"))
        of, own = (re.sub("<.*|:.*", "", it) for it in (of, first))
        return f"<{of} as {first}>" if of else own


def files():
    """Each file by hand, and those that are test modules apart."""
    paths = sorted(
        it for it in SOURCES.rglob("*.rs") if it.relative_to(SOURCES).parts[0] not in APART
    )
    found = {it: File(it.read_text()) for it in paths}
    tests = set()
    for path, file in found.items():
        folder = path.parent if path.name in ("lib.rs", "mod.rs") else path.with_suffix("")
        tests |= {folder / f"{it}.rs" for it in file.test_modules} | {
            folder / it / "mod.rs" for it in file.test_modules
        }
    return {it: found[it] for it in paths if it not in tests}, [
        found[it] for it in paths if it in tests
    ]


def rows_of(page):
    """The functions of the table, each with its file and the reason of its row."""
    for functions, reason in ROW.findall(page):
        for part in functions.split("; "):
            path, *names = re.findall(r"`([^`]+)`", part)
            yield from (((name, path), reason.strip()) for name in names)


def uses_of_fields(files):
    """Where each of these files names a field of a proved type that the package sees, as in
    `it.slots` or `HandleMap { slots, .. }`."""
    texts = {it: it.read_text() for it in (SOURCES / "proved").rglob("*.rs")}
    fields = {field for text in texts.values() for field in FIELD.findall(text)}
    owners = {
        it
        for text in texts.values()
        if FIELD.search(text)
        for it in re.findall(r"^pub struct (\w+)", text, re.MULTILINE)
    }
    for path, file in files.items():
        words = ["", "", *file.words, ""]
        for at, word in enumerate(words[2:-1], 2):
            before, after = words[at - 2 : at], words[at + 1]
            is_field = word in fields and before[1] == "." and before[0] != "." and after != "("
            is_taken_apart = (
                word in owners and after == "{" and before[1] not in ("for", "impl", ">")
            )
            if is_field or is_taken_apart:
                yield path, file.places[at - 2], word
    # The pictures have fields of these names, and no values of these types.
    for path in DRAWING.rglob("*.rs"):
        yield from ((path, line, it) for it, line in zip(*own_words(path)) if it in owners)


def own_words(path):
    file = File(path.read_text())
    return file.words, file.places


def main():
    by_hand, tests = files()
    branches = [
        (name, str(path.relative_to(SOURCES)))
        for path, file in by_hand.items()
        for name, _ in file.branches
    ]
    counts = {
        "lines of code": sum(len(it.lines) for it in by_hand.values()),
        "functions with a branch": len(branches),
    }
    of_tests = sum(len(it.tests) for it in by_hand.values()) + sum(
        len(set(it.places)) for it in tests
    )
    rows = dict(rows_of(PAGE.read_text()))
    print(
        f"{SOURCES}: {', '.join(f'{count:,} {of}' for of, count in counts.items())}, and {of_tests} lines of tests that aren't counted"
    )
    faults = [
        f"{count:,} {of}, and {MOST[of]:,} at most"
        for of, count in counts.items()
        if count > MOST[of]
    ]
    missing = [f"| `{path}`: `{name}` |  |" for name, path in branches if (name, path) not in rows]
    faults += ["rows that are missing in " + str(PAGE) + ":\n" + "\n".join(missing)] * bool(missing)
    faults += [
        f"{PAGE}: no such function with a branch: `{name}` of {path}"
        for name, path in rows
        if (name, path) not in branches
    ]
    faults += [
        f"{PAGE}: no reason: `{name}` of {path}"
        for (name, path), reason in rows.items()
        if not reason
    ]
    uses = list(uses_of_fields(by_hand))
    faults += [
        f"{path}:{line}: `{word}`: {SEES.name} alone sees fields of proved types"
        for path, line, word in uses
        if path != SEES
    ]
    faults += (
        []
        if any(path == SEES for path, _, _ in uses)
        else [f"{SEES}: it uses no field of a proved type"]
    )
    print(
        f"{SEES}: {sum(path == SEES for path, _, _ in uses)} uses of fields of proved types, and {len(by_hand) - 1} files that have none"
    )
    if faults:
        sys.exit("\n".join(faults))


if __name__ == "__main__":
    main()
