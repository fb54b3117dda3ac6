#!/usr/bin/env python3
"""What a user of the package sees in its docs: counts the types and the functions that have an
example, and the links that lead nowhere.

    shown_docs.py FOLDER    the folder that `cargo doc` wrote, with its folder `forgeni`

It reads the pages of rustdoc that `all.html` lists. A type has an example if the docs above its
fields, variants and functions have one. Functions are those of the pages: free ones, those of a
type and those of a trait. What a type has from a trait isn't counted again, so `fmt` or `clone`
never is. An example is code that `cargo test` runs or compiles: code that has to fail is none.
LIMITS says how many there have to be. A link leads nowhere if its file isn't there, or if the file
has no such place. Links to other sites aren't followed.
"""

import collections
import functools
import html
import pathlib
import re
import sys
import urllib.parse

# How many of 100 types and functions have an example, at least.
LIMITS = {"types": 100, "functions": 90}
TYPES = ("struct", "enum", "trait", "type", "union")
METHOD = re.compile(r'id="((?:ty)?method\.\w+)" class="method"')
# Where the docs of a type end, and where its own functions do.
PARTS = re.compile(
    r'<h2 id="(?:fields|variants|implementations|required-|provided-|object-safety|dyn-compatibility|aliased-type)'
)
REST = re.compile(
    r'<h2 id="(?:(?:trait|synthetic|blanket)-implementations|deref-methods|implementors|foreign-impls)'
)
EXAMPLE = re.compile(
    r'<div class="example-wrap(?! compile_fail)[^"]*"><pre class="rust rust-example-rendered'
)


def examples(root):
    """Each type and each function of the pages, and whether it has an example."""
    listed = re.findall(r'<li><a href="([^"]+)">', (root / "all.html").read_text())
    for path in listed:
        kind, name = re.match(r"(\w+)\.(\w+)", pathlib.Path(path).name).groups()
        if kind not in (*TYPES, "fn"):
            continue
        page = (root / path).read_text()
        own = REST.split(page)[0]
        top = PARTS.split(own)[0]
        place = path.rpartition("/")[0].replace("/", "::")
        full = f"{place}::{name}" if place else name
        yield "functions" if kind == "fn" else "types", full, bool(EXAMPLE.search(top))
        parts = METHOD.split(own) if kind != "type" else []
        for at in range(1, len(parts), 2):
            yield "functions", f"{full}::{parts[at].partition('.')[2]}", bool(
                EXAMPLE.search(parts[at + 1])
            )


def lost_links(folder):
    """Each link of the pages that leads nowhere, with its page."""

    @functools.cache
    def text_of(file):
        return re.sub(r"<script.*?</script>", "", file.read_text(), flags=re.S)

    @functools.cache
    def places_of(file):
        return {html.unescape(it) for it in re.findall(r'\bid="([^"]+)"', text_of(file))}

    for page in sorted((folder / "forgeni").rglob("*.html")):
        for link in sorted(set(re.findall(r'href="([^"]+)"', text_of(page)))):
            path, _, place = html.unescape(link).partition("#")
            if re.match(r"\w+:", path):
                continue
            file = (page.parent / urllib.parse.unquote(path)).resolve() if path else page
            is_line = re.fullmatch(r"\d+(-\d+)?", place)
            if (
                not file.exists()
                or place
                and not is_line
                and not {place, urllib.parse.unquote(place)} & places_of(file)
            ):
                yield page.relative_to(folder), link


def main():
    folder = pathlib.Path(sys.argv[1])
    counts, without, faults = collections.Counter(), collections.defaultdict(list), []
    for what, name, has in examples(folder / "forgeni"):
        counts[what] += 1
        if not has:
            without[what].append(name)
    for what, limit in LIMITS.items():
        have = counts[what] - len(without[what])
        print(f"{what} with an example: {have} of {counts[what]}")
        if 100 * have < limit * counts[what]:
            faults += [f"{it} has no example" for it in without[what]]
    lost = list(lost_links(folder))
    print(f"links without a target: {len(lost)}")
    faults += [f"{page}: {link} leads nowhere" for page, link in lost]
    if "--list" in sys.argv[2:]:
        print(*without["functions"], sep="\n")
    print(*faults, sep="\n", end="\n" if faults else "")
    return 1 if faults else 0


if __name__ == "__main__":
    sys.exit(main())
