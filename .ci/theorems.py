#!/usr/bin/env python3
"""What one has to read to believe a theorem of docs/PROVED.md.

    theorems.py check            compares the page with the sources
    theorems.py write            writes the lists of the page
    theorems.py show FUNCTION    prints the contract, and what one has to read, file by file

A theorem is some clauses of the contract of a call. A line `<!-- read FILE FUNCTION: CLAUSE.. -->`
names them, and the script writes what stands below it, up to an empty line: what the call requires,
and how many lines there are to read. These are the definitions that the clauses cite, those that
these cite, and so on. A definition is counted with the comment above it, once, and a type with its
model. What comes from the kit is no part of a list: `show` names it, and `<!-- kit -->` counts it.
If a block above quotes the contract from FILE, what the call requires isn't written again, and the
clauses are those of the block.

The page is refused if a quote leaves out something that the call requires, if a clause isn't one of
the call, or if a list isn't what the sources give. It needs no program, and runs at the top of the
repository.
"""

import collections
import functools
import itertools
import pathlib
import re
import sys
import textwrap

import pages
import picks

PAGE = pathlib.Path("docs/PROVED.md")
READ = re.compile(r"<!-- read (\S+) (\S+): (.*) -->$")
CRATES = pathlib.Path("crates")
Item = collections.namedtuple("Item", "file lines text")
HEAD = re.compile(
    r"(?:  )?(?:(?:abbrev|unfoldable) pub|pub (?:record|data)) (\S+)|abbrev (mutual)|pub (?!mod )(\S+)"
)
TYPE = re.compile(r"(?:pub(?:\(\w+\))? )?(?:struct|enum|trait|const|type) (\w+)")
MODEL = re.compile(r"impl(?:<.*>)? Model for (\w+)")


def code_of(lines):
    """The lines without comments and texts."""
    return re.sub(
        r'"(\\.|[^"\\])*"', "", "\n".join(re.sub(r"(^|\s)(--|//).*", "", it) for it in lines)
    )


def spec_names(name, text):
    """The names that a definition makes: its own and its constructors', or those of a group."""
    return {name, *re.findall(r"\n  pub (\S+) :" if name == "mutual" else r"\n  (\w+) :", text)}


@functools.cache
def specs_of(file):
    """The definitions of a file of specs, by name. Each goes on to the next comment or definition
    after an empty line."""
    lines, spans, found = file.read_text().splitlines(), [], {}
    for blank, numbers in itertools.groupby(range(len(lines)), lambda it: not lines[it].strip()):
        at, *others = numbers
        last = others[-1] if others else at
        block = re.sub(
            r"^module (?:.*\n)*?.*\bwhere$", "", "\n".join(lines[at : last + 1]), flags=re.M
        ).split("\n")
        first = next(
            (it for it in block if it and not it.lstrip().startswith(("--", "infix", "module "))),
            "use ",
        )
        head = HEAD.match(first)
        if head:
            spans.append([head[head.lastindex], at, last])
        elif spans and not blank and not first.startswith("use "):
            spans[-1][2] = last
    for name, at, last in spans:
        text = code_of(lines[at : last + 1])
        found.update(
            (it, Item(file, frozenset(range(at, last + 1)), text)) for it in spec_names(name, text)
        )
    return found


def rust_span(lines, at):
    """The lines of the item at this line, its comments and attributes with it, but not the examples
    in its docs."""
    first = last = at
    while first and lines[first - 1].startswith(("///", "#[")):
        first -= 1
    if not lines[at].endswith((";", "}")):
        last = next(it for it in range(at, len(lines)) if lines[it].startswith("}"))
    fences = [it for it in range(first, at) if lines[it].startswith("/// ```")]
    examples = {it for begin, end in zip(fences[::2], fences[1::2]) for it in range(begin, end + 1)}
    return [it for it in range(first, last + 1) if it not in examples]


@functools.cache
def types_of(file):
    """The types of a Rust file, each with its model. A type with a model cites by that alone: its
    fields are private."""
    lines, types, models = file.read_text().splitlines(), {}, {}
    for at, line in enumerate(lines):
        for pattern, found in [(TYPE, types), (MODEL, models)]:
            head = pattern.match(line)
            if head:
                found[head[1]] = rust_span(lines, at)
    made = {}
    for name, span in types.items():
        model = models.get(name, [])
        made[name] = Item(
            file, frozenset([*span, *model]), code_of([lines[it] for it in model or span])
        )
    return made


def type_in(crate, path, name):
    """A type of a crate, in the file whose modules the path names if several have one of that
    name."""
    source = CRATES / crate / "src"

    def rank(file):
        modules = file.relative_to(source).with_suffix("").parts
        named = sum(it in path for it in modules)
        return len(modules) - named, -named, str(file)

    return next(
        (
            types_of(it)[name]
            for it in sorted(source.rglob("*.rt"), key=rank)
            if name in types_of(it)
        ),
        None,
    )


def definition(module, name):
    """The definition of a name in a module, or the module and the name if it is the kit's."""
    crate, _, *path = module.split(".")[1:]
    if not (CRATES / crate).is_dir():
        return ".".join([crate, *path]), name
    if path[0] in ("declared", "contracts"):
        within = {"TheVariants": path[-2], "TheConstants": name}
        return type_in(crate, path, within.get(path[-1], path[-1]))
    return specs_of(CRATES / crate / "specs" / ("/".join(path) + ".antt"))[name]


def as_pairs(names):
    """The names of a list in braces: each as it is there, and as it is here."""
    return [(it.split()[0], it.split()[-1]) for it in names.strip("{}").split(",") if it.strip()]


@functools.cache
def scope_of(file):
    """What the names of a file stand for: its own definitions, those that it uses, and modules
    under another name."""
    text = code_of(file.read_text().splitlines())
    scope = collections.defaultdict(set)
    modules = {here: module for module, here in re.findall(r"use (Rattle[\w.]+) as (\w+)", text)}
    for name, item in (types_of(file) if file.suffix == ".rt" else specs_of(file)).items():
        scope[name].add(item)
    for module, names in re.findall(r"use (Rattle[\w.]+)\.\{([^}]*)\}", text):
        for there, here in as_pairs(names):
            scope[here].add(definition(module, there))
    for path, names in re.findall(r"^(?:pub )?use ((?:\w+::)+)(\{[^}]*\}|\w+);", text, re.M):
        crate, *inner = path.split("::")[:-1]
        crate = file.parts[1] if crate == "crate" else crate
        for there, here in as_pairs(names):
            scope[here].add(type_in(crate, inner, there) if (CRATES / crate).is_dir() else None)
    return scope, modules


def cited(file, text):
    """What a text of a file cites."""
    scope, modules = scope_of(file)
    words = {it.strip(".") for it in re.split(r"[\s()\[\]{},;]+", text)}
    words |= {it for word in words for it in re.split(r"[<>&:]+", word)}
    heads = {it.split(".")[0] for it in words} | words
    found = set()
    for name in scope:
        parts = [it for it in name.split("◌") if it]
        if all(it in heads for it in parts):
            found |= scope[name]
    for head, _, name in (it.partition(".") for it in words):
        if head in modules:
            found.add(definition(modules[head], name.split(".")[0]))
    for crate, name in re.findall(r"\b(\w+)::(\w+)", text):
        found.add(type_in(crate, [], name))
    return found - {None}


def closure(file, text):
    """All that a text of a file rests on: the definitions, and the names of the kit."""
    items, kit, left = set(), set(), cited(file, text)
    while left:
        each = left.pop()
        if not isinstance(each, Item):
            kit.add(each)
        elif each not in items:
            items.add(each)
            left |= cited(each.file, each.text)
    return items, kit


def lines_by_file(items):
    """How many lines of each file there are to read, in the order of the layers."""
    lines = collections.defaultdict(set)
    for item in items:
        lines[item.file] |= item.lines
    order = [
        it.split(":")[0].split()[0]
        for it in pathlib.Path("crates.txt").read_text().splitlines()
        if ":" in it and it[0] != "#"
    ]
    return {
        it: sorted(lines[it])
        for it in sorted(lines, key=lambda it: (order.index(it.parts[1]), str(it)))
    }


def contract_of(file, name):
    """The contract of a call: its signature, what it requires, its clauses by name, and the `impl`
    around it."""
    owner, _, function = name.rpartition("::")
    lines = file.read_text().splitlines()

    def within(at):
        depth = len(lines[at]) - len(lines[at].lstrip())
        return next(
            (lines[it] for it in range(at, 0, -1) if depth and lines[it].startswith("impl")), ""
        )

    def is_head(at):
        is_of = re.match(r"impl(?:<.*?>)? (\w+)", within(at))
        return (
            re.match(rf"\s*(?:pub )?(?:const )?fn {function}\b", lines[at])
            and (is_of[1] if is_of else "") == owner
        )

    start = next(it for it in range(len(lines)) if is_head(it))
    depth = len(lines[start]) - len(lines[start].lstrip())
    parts = [[]]
    for line in lines[start : lines.index(" " * depth + "{", start)]:
        if line.strip().startswith(("requires", "ensures")):
            parts.append([])
        if line.strip() and not line.strip().startswith("//"):
            parts[-1].append(line.strip())
    signature, *clauses = parts
    ensures = {
        re.match(r"ensures (\w+)", it[0])[1]: it for it in clauses if it[0].startswith("ensures")
    }
    return signature, [it for it in clauses if it[0].startswith("requires")], ensures, within(start)


def formula_of(clause):
    """What a clause says, without its keyword and its name."""
    return re.match(r"\w+ (?:\w+ )?\{ ?(.*?) ?\}$", " ".join(clause))[1]


def theorems():
    """Each theorem of the page: its call, its file, what is cited of it, how its list begins, and
    what is wrong."""
    quotes = {at: (mark, [it.strip() for it in block]) for at, mark, block in pages.blocks_of(PAGE)}
    block = None
    for at, line in enumerate(PAGE.read_text().splitlines(), 1):
        block = quotes.get(at, block) if not line.startswith("#") else None
        found = READ.match(line)
        if not found:
            continue
        file, name, names = pathlib.Path(found[1]), found[2], found[3].split()
        signature, requires, ensures, within = contract_of(file, name)
        faults = [f"has no clause {it}" for it in names if it not in ensures]
        clauses = [ensures[it] for it in names if it in ensures]
        quoted = (
            block
            and block[0].split()[2:3] == [found[1]]
            and any(re.search(rf"fn {name.split('::')[-1]}\b", it) for it in block[1])
        )
        if quoted:
            faults += [
                f"leaves out {it}"
                for clause in [*requires, *clauses]
                for it in clause
                if it not in block[1]
            ]
        text = code_of([within, *signature, *itertools.chain(*requires, *clauses)])
        conditions = (
            ""
            if quoted or not requires
            else f", which requires {', '.join(f'`{formula_of(it)}`' for it in requires)}"
        )
        yield name, file, text, f"To read for `{name}`{conditions}", [
            f"{PAGE}:{at}: {name} {it}" for it in faults
        ]


def wrapped(text):
    """The lines of an element of a list."""
    return textwrap.wrap(
        text, width=140, subsequent_indent="  ", break_long_words=False, break_on_hyphens=False
    )


def reading(items, before, head):
    """What there is to read for one theorem: how much, and how much of it no theorem above
    needs."""
    files, known = lines_by_file(items), lines_by_file(before)
    total, new = sum(map(len, files.values())), sum(
        len(set(lines) - set(known.get(it, []))) for it, lines in files.items()
    )
    added = f", {new} of them not above" if 0 < new < total else ""
    return wrapped(f"- {head}: {total} lines in {len(files)} files{added}.")


def kit_counted(kit):
    """How many definitions of the kit are cited."""
    modules = {module for module, _ in kit}
    return wrapped(
        f"- From Rattle's library, which the gate doesn't prove again: {len(kit)} definitions in {len(modules)} modules."
    )


def made():
    """The page as the sources want it, and what is wrong with its quotes."""
    lists, faults, all_items, all_kit = [], [], set(), set()
    for _, file, text, head, wrong in theorems():
        items, kit = closure(file, text)
        lists.append(reading(items, all_items, head))
        faults += wrong
        all_items, all_kit = all_items | items, all_kit | kit
    text = PAGE.read_text()
    lists += [reading(all_items, all_items, "To read for all of them"), kit_counted(all_kit)]
    parts = re.split(r"(<!-- (?:read .*|all|kit) -->\n)(?:(?!<!-- ).+\n)*", text)
    parts[2::2] = ["\n".join([*each, parts[2 * at + 2]]) for at, each in enumerate(lists)]
    return "".join(parts), faults


def show(name):
    file, text = next((file, text) for each, file, text, *_ in theorems() if each == name)
    items, kit = closure(file, text)
    print(f"== {file}", text, sep="\n")
    for path, numbers in lines_by_file(items).items():
        lines = path.read_text().splitlines()
        print(f"\n== {path}", *(lines[it] for it in numbers), sep="\n")
    print("\n== of the kit", *sorted(f"{module} {name}" for module, name in kit), sep="\n")


def main():
    what, *names = sys.argv[1:]
    if what == "show":
        return show(*names)
    page, faults = made()
    if what == "write":
        PAGE.write_text(page)
    elif page != PAGE.read_text():
        faults.append(f"{PAGE}: its lists are not what the sources give: `.ci/theorems.py write`")
    if what == "check":
        picks.compare(
            ".ci/theorems.py",
            "theorems",
            [it[2] for it in map(READ.match, PAGE.read_text().splitlines()) if it],
        )
    print(*faults, f"theorems: {len(faults)} faults", sep="\n")
    return 1 if faults else 0


if __name__ == "__main__":
    sys.exit(main())
