#!/usr/bin/env python3
"""Looks for names that a user of the package can't know, where a user looks: in its pages, and in
what the compiler says of typical mistakes.

    .ci/names.py [DOCS]     reads the pages that `cargo doc` wrote into this folder, by default rust/offline/target/doc
    .ci/names.py --fit      writes what the compiler says into rust/forgeni/tests/ui

It counts, and fails unless each is 0: names in signatures and docs that aren't public; links
without a target; links whose text is a name other than that of what they lead to. A mistake is a
program NAME.rs of rust/forgeni/tests/ui, and NAME.txt is what the compiler says of it: its message,
what it marks, and its notes, but not where the package's lines are. The texts are compared if the
compiler is the one of VERSION there. No text of any compiler may have a name that isn't public.
"""

import html.parser
import json
import pathlib
import re
import subprocess
import sys
import tempfile
import urllib.parse

TOP = pathlib.Path(__file__).resolve().parent.parent
PACKAGE, SOURCES, MISTAKES = (
    TOP / "rust/offline",
    TOP / "rust/forgeni/src",
    TOP / "rust/forgeni/tests/ui",
)
PAGES = (
    pathlib.Path(
        next((it for it in sys.argv[1:] if not it.startswith("-")), PACKAGE / "target/doc")
    )
    / "forgeni"
)
# The type or function that a page is of, by its file, and what an anchor of it is of.
PAGE = re.compile(r"(?:^|/)(?:struct|enum|trait|type|fn|macro|constant|attr|derive)\.(\w+)\.html$")
MEMBER = re.compile(
    r"^(?:method|tymethod|variant|associatedtype|associatedconstant|structfield)\.(?:\w+\.field\.)?(\w+?)(?:-\d+)?$"
)
OWN = re.compile(r'id="(?:variant|associatedtype|structfield|associatedconstant)\.(\w+)')
# A name of a type or a trait, those of parameters, and a link's text that is a name.
NAME, PARAMETER = re.compile(r"(?<![\w':.])(?<!type )[A-Z]\w*"), re.compile(
    r"[A-Z][A-Z0-9_]*|Self|Item|Output"
)
NAMED = re.compile(r"[A-Z]\w*|(?:\w+::)+\w+")
DECLARED = re.compile(
    r"^ *(?:pub(?:\([a-z]+\))? )?(?:struct|enum|trait|type|mod) (\w+)", re.MULTILINE
)
VOID = set("area base br col embed hr img input link meta param source track wbr".split())


class Page(html.parser.HTMLParser):
    """A page: its anchors, its links, and the names in its signatures and in the code of its docs
    that are no links. A contract is left out: .ci/contracts.py looks its names up."""

    def __init__(self, text):
        super().__init__()
        self.anchors, self.links, self.signatures, self.codes = set(), [], [], []
        self.opened, self.link, self.is_given = [], None, False
        self.own = set(OWN.findall(text)) | set(
            re.findall(r"[<,] ?(?:<wbr>)?([A-Z]\w*)(?=[,&:])", text)
        )
        self.feed(text)

    def handle_starttag(self, tag, attributes):
        found = dict(attributes)
        name, classes = found.get("id") or "", set((found.get("class") or "").split())
        self.anchors |= {name} if name else set()
        # What std implements for each type isn't the package's.
        if (
            "implementations" in name
            and not name.startswith("impl")
            or name.startswith("deref-methods")
        ):
            self.is_given = name.startswith(("blanket", "synthetic", "deref"))
        where = (
            "signature"
            if classes & {"code-header", "item-decl"}
            else "hint"
            if tag == "summary"
            else "pre"
            if tag == "pre"
            else "code"
            if tag == "code"
            else "contract"
            if tag == "details"
            else ""
        )
        if where == "signature":
            self.signatures.append("")
        if where == "code" and "pre" not in self.state():
            self.codes.append("")
        if tag == "a" and "href" in found and "src" not in classes:
            self.link = [found["href"], ""]
            self.links.append(self.link)
        if tag in ("br", "wbr", "div", "span") and "signature" in self.state():
            self.signatures[-1] += " "
        if tag not in VOID:
            self.opened.append((tag, where))

    def handle_endtag(self, tag):
        while self.opened and self.opened.pop()[0] != tag:
            pass
        self.link = None if tag == "a" else self.link

    def state(self):
        return [where for _, where in self.opened if where]

    def handle_data(self, text):
        state = self.state()
        if self.link:
            self.link[1] += text
        elif state[-1:] == ["signature"] and not self.is_given:
            self.signatures[-1] += re.sub(r"//.*", "", text)
        elif state == ["code"]:
            self.codes[-1] += text


def read_pages():
    texts = {it: it.read_text() for it in sorted(PAGES.rglob("*.html"))}
    return {it: Page(text) for it, text in texts.items() if "<p>Redirecting to" not in text}


def names_of(pages):
    """What is public, and what the sources declare beside it."""
    places = [it.relative_to(PAGES) for it in pages]
    public = {it[1] for place in places if (it := PAGE.search(place.name))} | {
        part for place in places for part in place.parent.parts
    }
    # Some are there by a feature alone.
    exports = [
        it
        for file in SOURCES.glob("*.rs")
        for it in re.findall(r"(?m)^pub use ([^;]*);", file.read_text())
    ]
    public |= {name for text in exports for name in re.findall(r"\w+", text.split("::", 1)[-1])}
    own = {name for page in pages.values() for name in page.own}
    # What stands in for Rattle's library has std's names.
    sources = [it.read_text() for it in SOURCES.rglob("*.rs") if "kit" not in it.parts]
    return public, {name for text in sources for name in DECLARED.findall(text)} - public - own


def is_other(text, page, anchor):
    """Whether the text of a link is the name of something else than the page or what it leads to
    there."""
    member, words = MEMBER.match(anchor), text.split("::")
    if not NAMED.fullmatch(text) or text == "Self":
        return False
    if member:
        return words[-1] != member[1] or len(words) > 1 and words[-2] not in (page, "Self")
    return words[-1] != page


def faults_of(pages, public, hidden):
    """What is wrong with the pages, by kind."""
    names, dead, others = [], [], []
    for path, page in pages.items():
        place = path.relative_to(PAGES)
        for text in (it for it in page.signatures if not place.name.startswith("macro.")):
            found = (
                it
                for it in NAME.findall(text)
                if not PARAMETER.fullmatch(it) and it not in page.own | public
            )
            names += [f"{place}: `{it}` in {' '.join(text.split())[:90]}" for it in found]
        for text in page.codes:
            names += [
                f"{place}: `{it}` in docs"
                for it in re.findall(r"(?<!\w)[A-Z]\w*", text)
                if it in hidden
            ]
        for href, text in page.links:
            if re.match(r"\w+:", href):
                continue
            target, _, anchor = href.partition("#")
            to = (path.parent / target).resolve() if target else path
            known = pages.get(to)
            if (
                not to.exists()
                or anchor
                and known
                and not known.anchors & {anchor, urllib.parse.unquote(anchor)}
            ):
                dead.append(f"{place}: {href} ({text})")
            elif target and (of := PAGE.search(to.name)) and is_other(text.strip(), of[1], anchor):
                others.append(f"{place}: `{text}` leads to {href}")
    return {
        "names that aren't public": names,
        "links without a target": dead,
        "links by another name": others,
    }


def said_of(path, library):
    """What the compiler says of a program, without places in the package."""
    with tempfile.TemporaryDirectory() as folder:
        command = [
            "rustc",
            "--edition",
            "2024",
            "--emit",
            "metadata",
            "--error-format",
            "json",
            "--extern",
            f"forgeni={library}",
        ]
        run = subprocess.run(
            [*command, "-L", str(library.parent), "--out-dir", folder, str(path)],
            capture_output=True,
            text=True,
        )
    if run.returncode == 0:
        sys.exit(f"{path}: it compiles")
    lines = []

    def add(message, indent):
        code = f"[{message['code']['code']}]" if message["code"] else ""
        lines.append(f"{indent}{message['level']}{code}: {message['message']}")
        for span in (it for it in message["spans"] if it["file_name"] == str(path)):
            new = span.get("suggested_replacement")
            lines.extend(
                [
                    f"{indent}  line {span['line_start']}: {it}"
                    for it in (span["label"], new and f"write `{new}`")
                    if it
                ]
            )
        for child in message["children"]:
            add(child, indent + "  ")

    for line in run.stderr.splitlines():
        message = json.loads(line)
        if not message["message"].startswith(
            ("aborting due", "For more information", "Some errors have")
        ):
            add(message, "")
    return "".join(it + "\n" for it in "\n".join(lines).splitlines())


def leaks_of(text, public, hidden):
    """The names in a text of the compiler that aren't public."""
    # A user may see the modules of what is erased, and the files in them.
    made = {it.stem for it in (SOURCES / "proved").rglob("*.rs")} | set(
        re.findall(r"(?m)^mod (\w+);", (SOURCES / "proved/modules.rs").read_text())
    )
    modules = {
        it
        for it in re.findall(r"\b(\w+)::", text)
        if it in hidden and it not in made or it == "proved"
    }
    return sorted(modules | {it for it in re.findall(r"\b[A-Z]\w+", text) if it in hidden})


def mistakes(public, hidden, fit):
    """Compares what the compiler says of each mistake."""
    command = [
        "cargo",
        "build",
        "--offline",
        "--locked",
        "--quiet",
        "--lib",
        "--message-format",
        "json",
    ]
    lines = subprocess.run(
        command, cwd=PACKAGE, stdout=subprocess.PIPE, text=True, check=True
    ).stdout.splitlines()
    library = next(
        pathlib.Path(name)
        for line in lines
        for name in json.loads(line).get("filenames", [])
        if name.endswith(".rlib")
    )
    version, file = (
        subprocess.run(["rustc", "--version"], capture_output=True, text=True).stdout.split()[1],
        MISTAKES / "VERSION",
    )
    is_same = file.exists() and file.read_text().strip() == version
    faults, programs = [], sorted(MISTAKES.glob("*.rs"))
    for path in programs:
        said, text = said_of(path, library), path.with_suffix(".txt")
        faults += [
            f"{path.name}: the compiler shows `{it}`, which isn't public"
            for it in leaks_of(said, public, hidden)
        ]
        text.write_text(said) if fit else None
        if is_same and not fit and (not text.exists() or text.read_text() != said):
            faults.append(f"{text.name} isn't what the compiler says:\n{said}")
    file.write_text(version + "\n") if fit else None
    others = {it.stem for it in MISTAKES.glob("*.txt")} - {it.stem for it in programs}
    faults += [f"{it}.txt: no such program" for it in sorted(others)]
    how = (
        "compared"
        if is_same or fit
        else f"not compared, since {version} isn't the compiler of {file.name}"
    )
    print(f"what the compiler says of {len(programs)} mistakes, {how}: {len(faults)} faults")
    return faults


def main():
    pages = read_pages()
    if not pages:
        sys.exit("there are no pages: cargo doc in rust/offline")
    public, hidden = names_of(pages)
    found = faults_of(pages, public, hidden)
    links = sum(len(page.links) for page in pages.values())
    print(
        f"{len(pages)} pages, {links} links: "
        + ", ".join(f"{len(all_of)} {kind}" for kind, all_of in found.items())
    )
    faults = [it for all_of in found.values() for it in all_of] + mistakes(
        public, hidden, "--fit" in sys.argv[1:]
    )
    sys.exit("\n".join(faults) if faults else 0)


main()
