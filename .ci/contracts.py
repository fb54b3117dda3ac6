#!/usr/bin/env python3
"""The module `contracts` of the package: pages with all definitions that its contracts cite, for
rustdoc.

    contracts.py write           writes rust/forgeni/src/contracts
    contracts.py check FOLDER    fails if it isn't what the docs in this folder link to; `cargo doc` has written them

The contracts in the docs of the package link to definitions (`rust/erase/src/contracts.rs`). There
are pages of those to which a contract links that rustdoc shows, of what they cite, and so on: one
page for a file of `specs/`, crate by crate, in the order in which one reads them. A page has the
text of the file without its imports and without what nobody cites. Names in it are links too. Those
of Rattle's library have one page, LOGIC, with a line each: a contract may cite no other. The module
is compiled for the docs alone. It runs at the top of the repository.
"""

import collections
import functools
import html
import pathlib
import re
import subprocess
import sys
import tempfile
import urllib.parse

import theorems

PROVED, PAGES = pathlib.Path("rust/forgeni/src/proved"), pathlib.Path("rust/forgeni/src/contracts")
# A link to a definition, in a source and in a page of rustdoc.
LINK = re.compile(r"\]\(crate::contracts::(?:(\w+)::)?(\w+)#([^)]+)\)")
SHOWN = re.compile(r'href="[^"]*contracts/(?:(\w+)/)?(\w+)/index\.html#([^"]+)"')
WORD = re.compile(r"[^\W\d][\w']*(?:\.[^\W\d][\w']*)*")
MADE = "by .ci/contracts.py. It isn't edited by hand."

# Rattle's own words, which no file here defines.
LOGIC = {
    "ensures": "what holds when the call returns. Its name, if it has one, is that of the clause.",
    "requires": "what has to hold when the call is made.",
    "result": "what the call returns.",
    "old": "the value before a call, of something that the call changes: `self.old`.",
    "new": "the value after a call, of something that the call changes: `self.new`.",
    "now": "the value of something that is only borrowed: `self.now` is the value that the call looks at.",
    "λ": "a function: `λ x. t` maps `x` to `t`.",
    "record": "a value with named fields: `record { index = 0; generation = 1 }`.",
    "Type": "the type of types. A statement is a type as well, and is true if that has a value.",
    "ℕ": "the natural numbers: 0, 1, 2 and so on. A difference of them is 0 where it would be negative.",
    "ℤ": "the integers. Their operators are those of ℕ with a ℤ, as in `a +ℤ b`; `pos n` is the number `n`.",
    "Bool": "the truth values, `true` and `false`.",
    "true": "the value `true` of Rust's `bool`.",
    "false": "the value `false` of Rust's `bool`.",
    "IsTrue": "the value is `true`.",
    "IsFalse": "the value is `false`.",
    "T": "the statement that a truth value is `true`.",
    "List": "the lists: `[]` is empty, `x ∷ xs` begins with `x`, and `xs ++ ys` is one after the other. Contracts see a `Vec` as one.",
    "length": "how many items a list has.",
    "take": "the first so many items of a list, or all if there are fewer.",
    "drop": "the list without its first so many items.",
    "reverse": "the list from its end to its beginning.",
    "map": "the list of what a function returns for each item.",
    "filter": "the items of a list that pass a test.",
    "slice_get": "the item at a position of a list, if there is one.",
    "All": "a statement holds for each item of a list.",
    "AllPairs": "a relation holds between each item and each later one.",
    "AllZip": "a relation holds between the items of two lists at the same position. The lists have the same length.",
    "Contains": "the list has this item.",
    "SomeIndex": "a statement holds for some position of the list.",
    "min": "the lesser of two numbers.",
    "max": "the greater of two numbers.",
    "Option": "Rust's `Option`.",
    "Some": "Rust's `Some`.",
    "None": "Rust's `None`.",
    "IsSome": "there is a value.",
    "IfSome": "a statement of the value, if there is one.",
    "IfNone": "a statement that holds if there is no value.",
    "OnSome": "a statement that holds if there is a value.",
    "is_some": "Rust's `is_some`.",
    "unwrap_or": "the value, or another one if there is none.",
    "UnwrapsOrElse": "the value, or one for which a statement holds if there is none.",
    "option_map": "Rust's `Option::map`.",
    "option_copied": "Rust's `Option::copied`: the value behind the reference.",
    "option_copied_mut": "the value behind the mutable reference.",
    "Result": "Rust's `Result`.",
    "Ok": "Rust's `Ok`.",
    "Err": "Rust's `Err`.",
    "IsOk": "there is no error.",
    "IfOk": "a statement of the value, if there is no error.",
    "IfErr": "a statement of the error, if there is one.",
    "OnOk": "a statement that holds if there is no error.",
    "OnErr": "a statement that holds if there is an error.",
    "IsErrOf": "there is an error, and it is this one.",
    "IsErrAnd": "there is an error, and a statement holds for it.",
    "vec_len": "how many items the vector has.",
    "vec_capacity": "the number of items that the vector has room for.",
    "sem": "what is behind a reference.",
    "ModifiesValue": "a call of the closure changes the first of two values into the second.",
    "nat_cmp": "Rust's `cmp` of two unsigned numbers.",
    "ordering_then": "Rust's `Ordering::then`.",
    "decimal": "the text of a number in decimal.",
    "digits_value": "the number that digits write.",
    "FinMap.FinMap": "the finite maps with keys in this order.",
    "FinMap.empty": "the map without keys.",
    "FinMap.get": "the value of a key, if the map has it.",
    "FinMap.contains_key": "whether the map has a key.",
    "FinMap.insert": "the map with one more key, or with another value of that key.",
    "FinMap.remove": "the map without a key.",
    "FinMap.len": "how many keys the map has.",
    "FinMap.keys": "the keys of the map, in their order.",
    "FinMap.values": "the values of the map, in the order of their keys.",
    "FinMap.entries": "the keys of the map with their values, in the order of the keys.",
    "FinMap.is_sorted": "whether the keys of a list of entries are in strictly ascending order.",
    "FinMap.put": "the list of entries with one more, at its place.",
    "FinMap.find": "the value of the first entry with a key.",
    "FinSet.FinSet": "the finite sets of values in this order.",
    "FinSet.empty": "the set without values.",
    "FinSet.contains": "whether the set has a value.",
    "FinSet.insert": "the set with one more value.",
    "FinSet.remove": "the set without a value.",
    "FinSet.len": "how many values the set has.",
    "FinSet.from_list": "the set of the values of a list.",
}
SIGNS = [
    ("a ≡ b", "they are equal; `a ≢ b`: they aren't"),
    ("A → B", "if `A` holds, then `B` does. Of types: the functions from `A` to `B`"),
    ("A × B", "both hold. Of types: the pairs"),
    ("A ⊎ B", "one of them holds"),
    ("A ↔ B", "one holds if and only if the other does"),
    ("(x : A) → B", "for each `x` of `A`, `B` holds"),
    ("(x : A) × B", "for an `x` of `A`, `B` holds"),
    ("f a b", "the function `f` at `a` and `b`"),
]


def page_name(module):
    """The name of the page of a file, as `first_fault` of `FirstFault`. The eraser writes the
    same."""
    return re.sub(r"(?<=.)([A-Z])", r"_\1", module.replace(".", "")).lower()


def files_of(crate):
    """The files of definitions of a crate by their modules, each after those that it uses."""
    folder = theorems.CRATES / crate / "specs"
    listed, found = {}, {}

    def list_all(file, path):
        for name in re.findall(r"^pub mod (\w+)", file.read_text(), re.M):
            listed[".".join([*path, name])] = its = folder.joinpath(*path, f"{name}.antt")
            if (folder.joinpath(*path, name)).is_dir():
                list_all(its, [*path, name])

    def add(module):
        if module in listed and module not in found:
            used = re.findall(
                rf"\buse Rattle\.{crate}\.specs\.([\w.]+?)(?=\.?[\s{{;])",
                listed[module].read_text(),
            )
            for other in used:
                add(other)
            found[module] = listed[module]

    list_all(folder / "Lib.antt", [])
    for module in listed:
        add(module)
    return found.items()


@functools.cache
def imports_of(file):
    """What a file imports: modules by the names that they have in it, and for each other name its
    module and its name there."""
    text = theorems.code_of(file.read_text().splitlines())
    modules = {here: module for module, here in re.findall(r"use (Rattle[\w.]+) as (\w+)", text)}
    lists = re.findall(r"use (Rattle[\w.]+)\.\{([^}]*)\}", text)
    return modules, {
        here: (module, there) for module, names in lists for there, here in theorems.as_pairs(names)
    }


def around(lines, span):
    """The lines of the head of the module around a definition, if one is: its parameters are the
    definition's too."""
    code = next(
        it
        for it in sorted(span)
        if not lines[it].lstrip().startswith(("--", "module ")) and lines[it]
    )
    if not lines[code].startswith(" "):
        return range(0)
    first = next((it for it in range(code, -1, -1) if lines[it].startswith("module ")), None)
    if first is None:
        return range(0)
    return range(
        first, 1 + next(it for it in range(first, len(lines)) if lines[it].endswith("where"))
    )


class Definitions:
    """The files of definitions of all crates, what is shown of each, and where names lead."""

    def __init__(self):
        lines = pathlib.Path("crates.txt").read_text().splitlines()
        order = [it.split(":")[0].split()[0] for it in lines if it.startswith("ent_")]
        order = [it for it in order if (theorems.CRATES / it / "specs").is_dir()]
        self.files = {
            (crate, page_name(module)): file for crate in order for module, file in files_of(crate)
        }
        self.pages = {file: page for page, file in self.files.items()}
        self.order = list(self.pages)
        self.shown, self.passed = collections.defaultdict(set), collections.defaultdict(set)
        self.faults = []

    def named(self, file, name):
        """The definition of a name in a file, with the file that has it: another one may pass it
        on."""
        if name in theorems.specs_of(file):
            return file, name
        passed = re.findall(r"^pub use (Rattle[\w.]+)\.\{([^}]*)\}", file.read_text(), re.M)
        for module, there in (
            (module, there)
            for module, names in passed
            for there, here in theorems.as_pairs(names)
            if here == name
        ):
            return self.in_module(module, there)
        return None

    def in_module(self, module, name):
        """Where a name of a module leads: to a file and a name in it, or to a word of LOGIC. None
        if it isn't shown."""
        crate, _, *path = module.split(".")[1:]
        if (theorems.CRATES / crate).is_dir():
            file = self.files.get((crate, page_name(".".join(path))))
            return self.named(file, name) if file else None
        word = f"{path[-1]}.{name}" if path[-1] in ("FinMap", "FinSet") else name
        return (None, word) if word in LOGIC else None

    def target(self, file, word):
        """Where a word of a file leads, and how much of the word is the name."""
        modules, names = imports_of(file)
        head, _, rest = word.partition(".")
        if head in modules and rest:
            name = rest.split(".")[0]
            found = self.in_module(modules[head], name)
            return found and (*found, f"{head}.{name}")
        if head in theorems.specs_of(file):
            return file, head, head
        found = head in names and self.in_module(*names[head])
        return (*found, head) if found else None

    def add(self, file, name):
        """Shows a definition, and what it cites."""
        left = [(file, name)]
        while left:
            file, name = left.pop()
            item = theorems.specs_of(file)[name]
            if item.lines in self.shown[file]:
                continue
            self.shown[file].add(item.lines)
            lines = file.read_text().splitlines()
            head = theorems.code_of([lines[it] for it in around(lines, item.lines)])
            for word in set(WORD.findall(head + item.text)):
                found = self.target(file, word)
                if found and found[0]:
                    left.append(found[:2])

    def cite(self, crate, page, name):
        """Shows what a contract links to."""
        if page == "logic":
            if name not in LOGIC:
                self.faults.append(
                    f"a contract cites {name} of Rattle's library, and LOGIC has no line for it"
                )
            return
        file = self.files.get((crate, page))
        found = file and self.named(file, name)
        if file and not found and name in imports_of(file)[1]:
            self.passed[file].add(name)
        elif not found:
            self.faults.append(f"a contract cites {name}, which isn't in {crate}, {page}")
        elif found[0] == file:
            self.add(file, name)
        else:
            self.faults.append(f"a contract cites {name} of {file}, which only passes it on")


def linked(definitions, file, number, own):
    """A line of a definition as HTML: its names are links, and those that it makes have a place to
    lead to. A name that is defined further down is that of a variable here."""
    crate, page = definitions.pages[file]
    code, comment = re.match(r"((?:(?!--).)*)(.*)", file.read_text().splitlines()[number]).groups()
    out, at = "", 0
    for it in WORD.finditer(code):
        out += html.escape(code[at : it.start()], quote=False)
        word, at = it[0], it.end()
        is_field = code[: it.start()].endswith(".")
        found = None if is_field else definitions.target(file, word)
        if found and found[0] == file and min(theorems.specs_of(file)[found[1]].lines) > number:
            found = None
        if found and found[0] == file and found[1] in own:
            own.discard(found[1])
            out += f'<b id="{found[1]}">{found[1]}</b>' + word[len(found[2]) :]
        elif found:
            there, name, text = found
            if there is None:
                target = f"../../logic/index.html#{name}"
            else:
                other, its_page = definitions.pages[there]
                if definitions.order.index(there) > definitions.order.index(file):
                    definitions.faults.append(f"{file} cites {name} of {there}, which comes later")
                folder = (
                    ""
                    if there == file
                    else f"../{its_page}/index.html"
                    if other == crate
                    else f"../../{other}/{its_page}/index.html"
                )
                target = f"{folder}#{name}"
            out += f'<a href="{target}">{text}</a>{word[len(text) :]}'
        else:
            out += word
    return out + html.escape(code[at:] + comment, quote=False)


def prose(text):
    """A comment as Markdown: what isn't in backticks means itself."""
    parts = text.split("`")
    parts[::2] = [re.sub(r"([*_\[\]<>&~'\"|\\])", r"\\\1", it) for it in parts[::2]]
    return "`".join(parts)


def head_of(file):
    """The comment with which a file begins, as one paragraph."""
    lines = []
    for line in file.read_text().splitlines():
        if not line.startswith("--"):
            break
        lines.append(line[2:].strip())
    return prose(" ".join(lines)) or "Its definitions."


def docs(lines, mark="///"):
    return [f"{mark} {it}".rstrip() for it in lines]


def page_of(definitions, file):
    """The module of a file: its head and its definitions, in their order."""
    crate, page = definitions.pages[file]
    lines, made = file.read_text().splitlines(), theorems.specs_of(file)
    names = collections.defaultdict(set)
    for name, item in made.items():
        names[item.lines].add(name)
    out, aliases, above = [head_of(file), ""], [], range(0)
    if definitions.passed[file]:
        variants = ", ".join(f'<b id="{it}">{it}</b>' for it in sorted(definitions.passed[file]))
        out += ["<pre>", "-- the variants of the type in Rust", variants, "</pre>", ""]
    for span in sorted(definitions.shown[file], key=min):
        head = around(lines, span)
        if head and head != above and not span >= set(head):
            out += ["<pre>", *(linked(definitions, file, it, set()) for it in head), "</pre>", ""]
        above = head
        own = set(names[span])
        aliases += sorted(it for it in own if re.fullmatch(r"[\w']+", it) and it.isascii())
        text = [linked(definitions, file, it, own) for it in sorted(span)]
        while not text[-1]:
            text.pop()
        definitions.faults += [
            f"{file}: no line makes {it}" for it in sorted(own) if re.fullmatch(r"[\w']+", it)
        ]
        out += ["<pre>", *text, "</pre>", ""]
    aliases = ", ".join(f'"{it}"' for it in sorted(set(aliases) - {page}) if "'" not in it)
    return [f"#[doc(alias({aliases}))]", *docs(out[:-1]), f"pub mod {page} {{}}", ""]


def logic():
    """The module of Rattle's own words."""
    lines = [
        "The words of the logic, a line each, and its signs.",
        "",
        "| Sign | Means |",
        "|---|---|",
    ]
    lines += [f"| `{sign}` | {meaning} |" for sign, meaning in SIGNS]
    lines += ["", "| Word | Means |", "|---|---|"]
    lines += [
        f'| <b id="{word}"><code>{word}</code></b> | {meaning} |' for word, meaning in LOGIC.items()
    ]
    return [*docs(lines), "pub mod logic {}", ""]


def cited_in_sources():
    """What all contracts link to, also those that the package doesn't show."""
    return {it for file in PROVED.rglob("*.rs") for it in LINK.findall(file.read_text())}


def cited_in_docs(folder):
    """What the contracts link to that these docs show."""
    root = folder / "forgeni"
    files = [it for it in root.rglob("*.html") if it.relative_to(root).parts[0] != "contracts"]
    links = {it for file in files for it in SHOWN.findall(file.read_text())}
    return {(crate, page, urllib.parse.unquote(html.unescape(name))) for crate, page, name in links}


def pages(cited):
    """The text of each file of the module if contracts link to these, and what is wrong."""
    definitions = Definitions()
    for it in sorted(cited):
        definitions.cite(*it)
    shown = [it for it in definitions.pages if definitions.shown[it] or definitions.passed[it]]
    crates = list(dict.fromkeys(definitions.pages[it][0] for it in shown))
    count = sum(len(definitions.shown[it]) for it in shown)
    front = [
        "What the contracts in these docs mean: the definitions that they cite, as they were proved.",
        "",
        f"There are {count}, and each one cites only what comes before it. To understand a contract, follow its links. To read them all,",
        "begin here:",
        "",
        "- [`logic`]: Rattle's own words and signs.",
    ]
    for crate in crates:
        its = [page for other, page in map(definitions.pages.get, shown) if other == crate]
        front.append(f"- [`{crate}`]: " + ", ".join(f"[`{it}`]({crate}::{it})" for it in its))
    front += [
        "",
        "A definition is a statement or a function of values as contracts see them: a `Vec` is a list, an `Entities` a record. It",
    ]
    front += ["is never run."]
    made = {}
    for crate in crates:
        its = [it for it in shown if definitions.pages[it][0] == crate]
        text = [f"// Made of crates/{crate}/specs {MADE}", ""]
        text += [f"//! The definitions of crate `{crate}`, in the order in which one reads them:"]
        text += [f"//! {', '.join(f'[`{definitions.pages[it][1]}`]' for it in its)}.", ""]
        for file in its:
            text += page_of(definitions, file)
        made[PAGES / f"{crate}.rs"] = text
    head = [f"// Made of crates/*/specs {MADE}", "", *docs(front, "//!"), ""]
    made[PAGES / "mod.rs"] = [*head, *logic(), *(f"pub mod {it};" for it in crates), ""]
    return {it: "\n".join(text) for it, text in made.items()}, definitions.faults


def write(made):
    PAGES.mkdir(exist_ok=True)
    for file in set(PAGES.glob("*.rs")) - made.keys():
        file.unlink()
    for file, text in made.items():
        file.write_text(text)


def main():
    what, *folders = sys.argv[1:]
    if what == "write":
        # rustdoc says which contracts it shows, if all that they may link to is there.
        write(pages(cited_in_sources())[0])
        with tempfile.TemporaryDirectory() as folder:
            subprocess.run(
                ["cargo", "doc", "--offline", "--quiet", "--no-deps", "--target-dir", folder],
                cwd="rust/offline",
                check=True,
            )
            made, faults = pages(cited_in_docs(pathlib.Path(folder, "doc")))
        write(made)
    else:
        made, faults = pages(cited_in_docs(pathlib.Path(folders[0])))
        if {it: it.read_text() for it in PAGES.glob("*.rs")} != made:
            faults.append(f"{PAGES} is not what the docs link to: `.ci/contracts.py write`")
    lines = sum(text.count("\n") for text in made.values())
    print(
        *faults, f"contracts: {len(made)} files with {lines} lines, {len(faults)} faults", sep="\n"
    )
    return 1 if faults else 0


if __name__ == "__main__":
    sys.exit(main())
