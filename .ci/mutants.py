#!/usr/bin/env python3
"""Mutants: patches of a crate's code that the prover has to refuse, each by what its file names.

    .ci/mutants.py fit                   each fits the code, and says what refuses it; none that `named_mutants.txt` lists is lost
    .ci/mutants.py try --gate [CRATE..]  those with a line `gate` are refused by what their files say
    .ci/mutants.py try --built ..        over the libraries as `rt ci` left them, however old their files look
    .ci/mutants.py try --since FILE ..   beside `rt ci`: each crate once the libraries below it are made that are newer than this file
    .ci/mutants.py try [CRATE..]         all of these crates, or of all crates
    .ci/mutants.py try --changed REV     all of the crates whose sources, specs or proofs differ from that commit
    .ci/mutants.py try --name ..         writes the line `refused by` into each file that has none

A mutant is a file `crates/CRATE/mutants/NAME.patch`: a header, and what `git diff --relative`
prints in the crate's folder, so `patch -p1` applies it there. What a hunk replaces, with its
context, is once in the file; the numbers of its lines aren't read, so they may be old.

In the header, lines with `#` say what the mutant does. A line `refused by: FUNCTION: GOAL` says
which function the prover refuses then, and which goal of that proof it names. A goal is a clause at
a return, an invariant, or what a call requires, and its name says which. If a lemma that the goal's
answer cites fails, or the answer cites a step that the mutant took away, the script cuts it, and
the prover must name the goal. The gate tries the mutants with a line `gate`.

Only the function that the file names is checked. Of those that it calls the contracts count, which
no mutant changes: their bodies are left out, and a hole stands for each of their proofs, and for
the proof of each lemma. So a try takes seconds where the check of a crate takes minutes. Mutants of
several functions of a crate are tried in one check, two of one function in two. The script runs at
the top of the repository, and needs `rt` on the PATH.
"""

import argparse
import concurrent.futures
import os
import pathlib
import re
import shutil
import subprocess
import sys
import tempfile
import threading
import time

PARTS = ("src", "specs", "proofs")
GATE = 70
# The mutants and tests that have to stay, by name.
NAMED = pathlib.Path(".ci/named_mutants.txt")
# What the prover calls a clause at a return, an invariant of a type or of a loop, and what a call
# requires.
GOAL = re.compile(r"(returns|invariant_of-[\w.-]+?|[\w.-]+-(requires|init|preserved))(-[\w.-]+)?")


HUNK = re.compile(r"@@ .*? @@.*")


class Mutant:
    """One mutant, as its file has it."""

    def __init__(self, path):
        self.path, self.crate, self.name = path, path.parts[1], path.stem
        # Of each hunk: its file, the lines that it replaces, and those that it puts there.
        self.hunks, self.refused_by, self.is_of_gate = [], None, False
        file = None
        for line in path.read_text().splitlines():
            if line.startswith("--- "):
                file = line.removeprefix("--- ").split("/", 1)[-1].split("\t")[0]
            elif HUNK.match(line):
                self.hunks.append((file, [], []))
            elif self.hunks and line[:1] in ("-", "+", " ", "") and not line.startswith("+++ "):
                for side, signs in zip(self.hunks[-1][1:], ("- ", "+ ")):
                    side.extend([line[1:]] if (line[:1] or " ") in signs else [])
            elif file is None and line.startswith("refused by: "):
                function, _, goal = line.removeprefix("refused by: ").rpartition(": ")
                self.refused_by = function, goal
            elif file is None and line == "gate":
                self.is_of_gate = True

    def over(self, texts):
        """These texts of the crate's files with the mutant, by path; or why it doesn't fit them."""
        texts = dict(texts)
        for file, *sides in self.hunks:
            path = pathlib.Path("crates", self.crate, file or "")
            old, new = ("".join(f"{it}\n" for it in side) for side in sides)
            if not file or not old or not path.is_file():
                return f"it names no lines of {path}"
            text = texts.get(file) or path.read_text()
            if f"\n{text}".count(f"\n{old}") != 1:
                return f"the lines that it replaces stand {text.count(old)} times in {path}"
            texts[file] = f"\n{text}".replace(f"\n{old}", f"\n{new}")[1:]
        return texts if self.hunks else "it replaces nothing"

    def fault(self):
        """What is wrong with its file, or None."""
        texts = self.over({})
        if isinstance(texts, str):
            return texts
        if self.refused_by and not GOAL.fullmatch(self.refused_by[1]):
            return f"`{self.refused_by[1]}` is no clause, no invariant, and nothing that a call requires"
        return (
            None
            if self.refused_by or not self.is_of_gate
            else "it has no line `refused by: FUNCTION: GOAL`"
        )

    def functions(self):
        """The functions to check: the one that its file names, or those whose text it changes."""
        return [self.refused_by[0]] if self.refused_by else enclosing(self)


def mutants_of(crates=("*",)):
    paths = [it for name in crates for it in pathlib.Path("crates").glob(f"{name}/mutants/*.patch")]
    return [Mutant(it) for it in sorted(paths)]


class Prover:
    """The check of a crate, or of some of its functions, as the kit makes it."""

    def __init__(self):
        self.kit = pathlib.Path(shutil.which("rt")).resolve().parent.parent
        self.top = pathlib.Path.cwd()
        self.uses, self.marks = {}, {}
        for line in pathlib.Path("crates.txt").read_text().splitlines():
            head, _, used = line.partition("#")[0].partition(":")
            if head.strip():
                name, *marks = head.split()
                self.uses[name], self.marks[name] = used.split(), marks

    def below(self, crate):
        found = {it for it in self.uses[crate] if it in self.uses}
        return found.union(*(self.below(it) for it in found))

    def words(self, crate, functions, kept):
        """The command that checks these functions, or all of them if none is named."""
        root = "src/main.rt" if os.path.isfile(f"crates/{crate}/src/main.rt") else "src/lib.rt"
        words = [self.kit / "bin/rattle", "check", "--crate-name", crate, root]
        for used in ["std", *self.uses[crate]]:
            own = self.top / f"crates/{used}/out/rlib/{used}.rlib"
            words += [
                "--extern",
                f"{used}={own if used in self.uses else self.kit / f'rlibs/{used}.rlib'}",
            ]
        words += ["-L", f"dependency={self.kit / 'rlibs'}"]
        for used in sorted(self.below(crate)):
            words += ["-L", f"dependency={self.top / f'crates/{used}/out/rlib'}"]
        words += [
            "--antt-project",
            self.kit / "rattle/logic/antt-project.json",
            "--logic-built",
            self.kit / "logic_built",
        ]
        words += ["--crate-type", "staticlib"] if "staticlib" in self.marks[crate] else []
        words += ["--links", f"{crate}=", "--jobs", "1", "--incremental", kept, "--allow-holes"]
        return [str(it) for it in [*words, *(word for it in functions for word in ("--only", it))]]

    def build_below(self, crate, anew=False):
        """Builds the libraries below a crate that aren't built, or may be older than their sources:
        `rt` does so before each check."""
        if anew or any(is_older_than_its_sources(it) for it in self.below(crate)):
            said = subprocess.run(
                ["rt", "check", "--only", ""], cwd=f"crates/{crate}", capture_output=True, text=True
            )
            if said.returncode:
                sys.exit(
                    f"the libraries below {crate} are not built: {said.stdout[-500:]}{said.stderr[-500:]}"
                )

    def check(self, crate, texts, functions, kept):
        """The status and what is printed of a check of these functions with these texts in place of
        the crate's own."""
        for alone in (empty_others, put_holes, None):
            with tempfile.TemporaryDirectory() as room:
                room = pathlib.Path(room)
                for part in PARTS:
                    if os.path.isdir(f"crates/{crate}/{part}"):
                        shutil.copytree(f"crates/{crate}/{part}", room / part)
                for path, text in texts.items():
                    (room / path).write_text(text)
                if alone and functions:
                    alone(room, crate, functions)
                how = {
                    "cwd": room,
                    "stdout": subprocess.PIPE,
                    "stderr": subprocess.STDOUT,
                    "errors": "replace",
                }
                said = subprocess.run(self.words(crate, functions, kept), **how)
                if not alone or not is_of_the_room(said.stdout, functions):
                    return 0 if lacks_only_holes(said.stdout) else said.returncode, with_functions(
                        room, said.stdout
                    )


def is_older_than_its_sources(crate):
    """Whether the library of a crate isn't built, or a file of the crate is newer."""
    built = pathlib.Path(f"crates/{crate}/out/rlib/{crate}.rlib/format")
    files = [
        it
        for part in PARTS
        for it in pathlib.Path(f"crates/{crate}/{part}").rglob("*")
        if it.is_file()
    ]
    return not built.is_file() or any(it.stat().st_mtime > built.stat().st_mtime for it in files)


def is_of_the_room(said, functions):
    """Whether a check is refused for what was left out, and not for what it tries: a file can't be
    read so, or an error stands elsewhere."""
    files = re.findall(r"(?m)^(?:\./)?(?:specs|proofs)/(\S+)\.antt:\d+:\d+: error", said)
    return bool(re.search(r"\berror\[[\w-]+\]", said)) or not all(
        is_of("::".join(it.split("/")[:-1]), functions) for it in files
    )


# An error stands behind a place, or begins a line. What is printed of a goal may have the word too,
# as `error.Differs` of a type's variant.
UNPROVED = re.compile(r"(?m)^(?:[^\s:]+(?::\d+)*: )?error(?:\[[\w-]+\])?:|not proved|no proof")


def lacks_only_holes(said):
    """Whether all that was to be proved is proved. With holes such a check doesn't end with 0."""
    return re.search(r"(?m)^only=.* holes=", said) and not UNPROVED.search(said)


def is_of(name, functions):
    return any(f"::{name}".endswith(f"::{it}") for it in functions)


def put_hole(folder, crate, path):
    """A hole for the proof of this function, whose answers go."""
    for name in ("Answers.antt", "Invariants.antt"):
        (folder / name).unlink(missing_ok=True)
    folder.mkdir(parents=True, exist_ok=True)
    (folder / "Proof.antt").write_text(
        f"use Rattle.{crate}.proofs.{'.'.join(path)}.Statement.{{statement}}\n\n"
        f"pub {path[-1]}_spec : {{M : Type 1}} → statement M\n{path[-1]}_spec = ?\n"
    )


def put_holes(room, crate, functions):
    """Takes the answers of all other functions away, and leaves a hole for the proof of each."""
    for answers in sorted(room.glob("proofs/**/Answers.antt")):
        path = answers.parent.relative_to(room / "proofs").parts
        if not is_of("::".join(path), functions) and not path[-1].startswith("+"):
            put_hole(answers.parent, crate, path)


HEAD = re.compile(r"( *)(?:pub(?:\([a-z]+\))? )?fn (\w+)")


def empty_others(room, crate, functions):
    """As `put_holes`, and leaves the bodies of these functions out: a caller sees no more than
    their contracts. So the paths through them aren't made. What the mutant itself changed stays,
    and so do cycles, methods of traits and what returns an `impl`. Of a lemma too no more is seen
    than what it says, so a hole stands for its proof."""
    put_holes(room, crate, functions)
    for file in sorted((room / "proofs").rglob("*.antt")):
        if file.name not in ("Answers.antt", "Invariants.antt", "Proof.antt", "Lib.antt"):
            empty_lemmas(file)
    files = sorted((room / "src").rglob("*.rt"))
    homes = homes_in(room, files)
    for file in files:
        own = pathlib.Path("crates", crate, file.relative_to(room)).read_text()
        for path in empty_bodies(
            file, module_of(file.relative_to(room / "src")), homes, own, functions
        ):
            put_hole(room.joinpath("proofs", *path), crate, path)


def homes_in(room, files):
    """The modules that have a type of each name."""
    homes = {}
    for file in files:
        for name in re.findall(
            r"(?m)^(?:pub(?:\([a-z]+\))? )?(?:struct|enum) (\w+)", file.read_text()
        ):
            homes.setdefault(name, []).append(module_of(file.relative_to(room / "src")))
    return homes


def empty_bodies(file, module, homes, own, functions):
    """Leaves the bodies of the other functions of a file out, and gives the paths of those
    functions. Without the mutant its text is `own`."""
    lines, owner, at, emptied = file.read_text().splitlines(), module, 0, []
    while at < len(lines):
        begun = re.match(r"(impl|trait|pub trait|pub\(crate\) trait)\b(.*)", lines[at])
        if begun or lines[at] == "}":
            owner = owner_of(begun[1], begun[2], homes, module) if begun else module
        body = body_of(lines, at)
        if body:
            first, end = body
            path = (
                None
                if owner is None
                else (*filter(None, owner.split("::")), HEAD.match(lines[at])[2])
            )
            if path and not stays(lines, at, body, own) and not is_of("::".join(path), functions):
                lines[first:end] = [f"{HEAD.match(lines[at])[1]}    loop {{}}"]
                emptied.append(path)
                end = first + 1
            at = end
        at += 1
    file.write_text("\n".join(lines) + "\n")
    return emptied


def stays(lines, at, body, own):
    """Whether the function has to keep its body: it is of a cycle, returns an `impl`, or the mutant
    changed it."""
    first, end = body
    is_of_cycle = any("#[cycle" in it for it in lines[max(at - 4, 0) : at])
    return (
        is_of_cycle
        or any("-> impl" in it for it in lines[at:first])
        or "\n".join(lines[at : end + 1]) not in own
    )


LEMMA = re.compile(r"( *)(?:pub )?([^\sA-Z:(){}][^\s:(){}]*) : ")
# What a function of the proofs gives, which may be computed: no lemma.
VALUE = re.compile(r"(?:ℕ|ℤ|[A-Z]\w*|\(?(?:List|Option|Result|Type)\b[^≡≢<≤]*)$")


def empty_lemmas(file):
    """Leaves a hole for each lemma of the file. What is no lemma has a word in front, or gives a
    value, and stays: it can be opened."""
    lines, left, at = file.read_text().splitlines(), [], 0
    while at < len(lines):
        head = LEMMA.match(lines[at])
        body = head and next(
            (it for it in range(at + 1, len(lines)) if not lines[it].startswith(f"{head[1]}    ")),
            None,
        )
        if (
            not body
            or not lines[body].startswith(f"{head[1]}{head[2]} ")
            or gives_value(lines[at:body])
        ):
            left.append(lines[at])
            at += 1
            continue
        left += [*lines[at:body], f"{head[1]}{head[2]} = ?"]
        own = tuple(f"{head[1]}{it}" for it in (f"{head[2]} ", "  ", "}", ")", "]"))
        at = body + 1
        while at < len(lines) and (
            lines[at].startswith(own)
            or not lines[at]
            and "".join(lines[at + 1 : at + 2]).startswith(own)
        ):
            at += 1
    file.write_text("\n".join(left) + "\n")


def gives_value(signature):
    return VALUE.match(" ".join(signature).split("→")[-1].split(" : ")[-1].strip())


def module_of(path):
    return re.sub(r"(^|/)(lib|main|mod)$", "", str(path.with_suffix(""))).replace("/", "::")


def owner_of(kind, head, homes, module):
    """The type whose own methods stand here, in its module, or None if they are those of a
    trait."""
    said = re.sub(r"<[^<>]*(?:<[^<>]*>)?[^<>]*>", "", head).split("{")[0].split()
    if kind != "impl" or "for" in said or not said or len(homes.get(said[0], [])) != 1:
        return None
    # Where the type is that of a type, as `Filled<'_, Log<C>>`, the prover's name has the words of
    # that too, in the module of these methods: `filling::Filled+Log+C`.
    within = re.search(rf"\b{said[0]}<(.*)>", head)
    words = (
        [it for it in re.findall(r"'?\w+", within[1]) if it[0] != "'" and it != "_"]
        if within
        else []
    )
    parameters = re.findall(r"(?:^<|, )(\w+)", head.split(f"{said[0]}<")[0])
    if all(it in parameters for it in words):
        return "::".join(filter(None, (homes[said[0]][0], said[0])))
    return "::".join(filter(None, (module, "+".join([said[0], *words]))))


def body_of(lines, at):
    """The lines of the body of the function that begins on this line: its first one, and that of
    the bracket which ends it."""
    head = HEAD.match(lines[at])
    if not head:
        return None
    indent = head[1]
    for first in range(at, len(lines)):
        if lines[first] == f"{indent}{{" or re.search(r"\)(?: -> [^{};]*)? \{$", lines[first]):
            break
        if re.search(r"[;}]$", lines[first]) and not re.search(
            r"^ +(requires|ensures|\(|λ|→|×)|\}$", lines[first]
        ):
            return None
    else:
        return None
    end = next((it for it in range(first + 1, len(lines)) if lines[it] == f"{indent}}}"), None)
    return None if end is None else (first + 1, end)


def with_functions(room, said):
    """What is printed, with the function's name before each place of the source where a goal is
    open."""

    def named(note):
        lines = (room / note[1]).read_text().splitlines()[: int(note[2])]
        names = [it[1] for it in (re.search(r"\bfn (\w+)", line) for line in lines) if it]
        return f"note: {names[-1] if names else '?'}: {note[0].removeprefix('note: ')}"

    return re.sub(r"(?m)^note: (src/[^\s:]+):(\d+):", named, said)


def refusals(crate, said):
    """Which functions a check doesn't prove, each with what it names of their proofs: the goals and
    lemmas that don't hold."""
    found = {it: [] for it in re.findall(rf"(?m)^fn {crate}::(\S+): (?:not proved|no proof)", said)}
    for function, goal, why in failing(said):
        # An answer that cites what is gone with the mutant says nothing of the contract.
        if function in found and not GONE.search(why):
            found[function].append(goal)
    for function, goals in re.findall(
        rf"(?m)^fn {crate}::(\S+): no proof: .*?`search` did not prove (.*)$", said
    ):
        found[function] += re.findall(r"`([^`]+)`", goals)
    for name, file, goal in re.findall(
        r"(?m)^note: (\w+): src/(\S+)\.rt:\S+ it is not proved .*?\(`([^`]+)`\)", said
    ):
        owners = [it for it in found if it.split("::")[-1] == name]
        if len(owners) > 1:
            owners = [it for it in owners if it.startswith(file.replace("/", "::") + "::")]
        owners = owners or list(found)
        if len(owners) == 1:
            found[owners[0]].append(goal)
    return {it: list(dict.fromkeys(goals)) for it, goals in found.items()}


GONE = re.compile(r"has no (?:field )?`|is not in scope")


def failing(said):
    """What fails in the answers: of which function, what it is called, and why."""
    errors = re.findall(
        r"(?m)^(?:\./)?proofs/(\S+)/\w+\.antt:\d+:\d+: error: (?:in )?`([^`]+)`(.*)", said
    )
    return [(folder.replace("/", "::"), name, why) for folder, name, why in errors]


def goals_in(found):
    """What is named without the lemmas: an mutant is refused by what the function owes, and not by
    a step of its proof."""
    return {it: [goal for goal in named if GOAL.fullmatch(goal)] for it, named in found.items()}


def answers_left(crate, said):
    """The answers by path, without lemmas that fail, answers that cite what is gone with the
    mutant, and all that cites one of those."""
    texts = {}
    for function in {it for it, _, _ in failing(said)}:
        folder = "/".join(("proofs", *function.split("::")))
        path = pathlib.Path("crates", crate, folder, "Answers.antt")
        cut = [
            name
            for it, name, why in failing(said)
            if it == function and (not GOAL.fullmatch(name) or GONE.search(why))
        ]
        cut += re.findall(
            rf"(?m)^(?:\./)?{re.escape(folder)}/.* has no `([^`]+)` that can be named", said
        )
        if not cut or not path.is_file():
            continue
        blocks = re.split(r"\n\n(?=\S)", path.read_text())
        for lemma in cut:
            cites = re.compile(rf"(?<![\w.-]){re.escape(lemma)}(?![\w-])")
            cut += [
                name
                for it in blocks
                if cites.search(it)
                for name in declared(it)
                if name not in cut
            ]
        texts[f"{folder}/Answers.antt"] = "\n\n".join(
            it for it in blocks if not set(declared(it)) & set(cut)
        )
    return texts


def declared(block):
    """The names that a part of a proof file declares."""
    return re.findall(r"(?m)^ *(?:pub )?([^\s:(){}]+) :", block)


def of_clause_first(goals):
    """The goal that says most of the contract: one of a clause of the function, else of its
    invariant, else the first."""
    kinds = [r"^returns.*-clause-", r"^returns", r"invariant"]
    rank = lambda it: next((at for at, kind in enumerate(kinds) if re.search(kind, it)), len(kinds))
    return min(goals, key=rank) if goals else None


def enclosing(mutant):
    """The functions whose text an mutant changes, by the ends of the names that the prover gives
    them, or none where they can't be told."""
    found = []
    for file, old, new in mutant.hunks:
        text = pathlib.Path("crates", mutant.crate, file).read_text()
        # Up to the first line that changes.
        same = next(
            (at for at, (one, other) in enumerate(zip(old, new)) if one != other),
            min(len(old), len(new)),
        )
        before = text[: text.index("\n".join(old))] + "\n".join(old[: same + 1])
        name = re.findall(
            r"(?m)^\s*(?:pub(?:\([a-z]+\))? )?(?:const )?(?:extern \"C\" )?fn (\w+)", before
        )
        head = re.findall(r"(?m)^(impl\b.*|\})", before)
        module = re.sub(
            r"(^|/)(lib|mod)$", "", file.removeprefix("src/").removesuffix(".rt")
        ).replace("/", "::")
        owner = ""
        if name and head and head[-1].startswith("impl"):
            said = (
                re.sub(r"<[^<>]*(?:<[^<>]*>)?[^<>]*>", "", head[-1].removeprefix("impl"))
                .split("{")[0]
                .split()
            )
            of = said[said.index("for") + 1] if "for" in said else said[0]
            owner = (of + said[0].split("::")[-1] if "for" in said else of) + "::"
            # A method has the name of its type's module, wherever it stands.
            module = (
                module
                if re.search(
                    rf"(?m)^(?:pub(?:\([a-z]+\))? )?(?:struct|enum) {re.escape(of)}\b", text
                )
                else ""
            )
        if not name:
            return []
        found.append("::".join(it for it in (module, owner + name[-1]) if it))
    return list(dict.fromkeys(found))


# What a try comes to.
REFUSED, OTHERWISE, LET_THROUGH, UNKNOWN = (
    "refused",
    "refused otherwise",
    "LET THROUGH",
    "NOT TRIED",
)


def goals_of(mutant, found):
    """The functions of the mutant among those that a check doesn't prove, where it names a goal of
    theirs."""
    ends = tuple(f"::{it}" for it in mutant.functions())
    return {it: goals for it, goals in found.items() if goals and f"::{it}".endswith(ends)}


def verdict(mutant, status, said, names):
    """What a check with the mutant came to, and what to say of it."""
    if status == 0:
        return LET_THROUGH, "the prover proves it"
    found = goals_in(refusals(mutant.crate, said))
    if status != 1 or not found or re.search(r"\berror\[[\w-]+\]", said):
        errors = [it for it in said.splitlines() if "error" in it][:3] or said.splitlines()[-3:]
        return UNKNOWN, f"no verdict (status {status}): " + " | ".join(it[:200] for it in errors)
    if mutant.refused_by:
        function, goal = mutant.refused_by
        if goal in found.get(function, []):
            return REFUSED, f"by {function}: {goal}"
        return OTHERWISE, "; ".join(f"{it}: {', '.join(goals[:6])}" for it, goals in found.items())
    own = goals_of(mutant, found) or {it: goals for it, goals in found.items() if goals}
    if not own:
        return UNKNOWN, f"no goal is named: {', '.join(found)}"
    function, goal = min(
        ((it, of_clause_first(own[it])) for it in own),
        key=lambda it: not it[1].startswith("returns"),
    )
    if names:
        text = mutant.path.read_text()
        at = text.index("--- ") if text.startswith("--- ") else text.index("\n--- ") + 1
        mutant.path.write_text(f"{text[:at]}refused by: {function}: {goal}\n{text[at:]}")
    return REFUSED, f"by {function}: {goal}"


def alone(prover, mutant, kept, names):
    """Tries one mutant by itself: first over the functions that it should be refused by, then over
    all."""
    texts, functions = mutant.over({}), mutant.functions()
    if isinstance(texts, str):
        return UNKNOWN, texts
    status, said = prover.check(mutant.crate, texts, functions, kept)
    if functions and not mutant.refused_by and status in (0, 2):
        status, said = prover.check(mutant.crate, texts, [], kept)
    left = answers_left(mutant.crate, said)
    if left and verdict(mutant, status, said, False)[0] == OTHERWISE:
        status, said = prover.check(mutant.crate, {**texts, **left}, functions, kept)
    return verdict(mutant, status, said, names)


def rounds_of(mutants):
    """The mutants in groups, each of which can be made at once: no two of one function."""
    rounds = []
    for mutant in mutants:
        functions = set(mutant.functions())
        for group, taken, texts in rounds:
            made = mutant.over(texts)
            if functions and not functions & taken and len(group) < 16 and isinstance(made, dict):
                group.append(mutant)
                taken.update(functions)
                texts.update(made)
                break
        else:
            made = mutant.over({})
            rounds.append(([mutant], functions, made if isinstance(made, dict) else {}))
    return rounds


def together(prover, crate, group, functions, texts, kept, names):
    """Tries mutants of several functions in one check: what refuses one stands in its function's
    own proof. Those that this doesn't settle are tried by themselves."""
    settled = {}
    if len(group) > 1:
        status, said = prover.check(crate, texts, sorted(functions), kept)
        found = (
            goals_in(refusals(crate, said))
            if status == 1 and not re.search(r"\berror\[[\w-]+\]", said)
            else {}
        )
        for mutant in group:
            if goals_of(mutant, found):
                mine = verdict(mutant, status, said, names)
                settled.update({mutant: mine} if mine[0] == REFUSED else {})
    return [(it, settled.get(it) or alone(prover, it, kept, names)) for it in group]


def try_crate(prover, crate, mutants, names):
    """Tries the mutants of one crate, over what the first ones have checked of it already."""
    results = []
    with tempfile.TemporaryDirectory() as room:
        kept, begun = f"{room}/kept", f"crates/{crate}/out/incremental"
        if os.path.isdir(begun):
            subprocess.run(["cp", "-al", begun, kept], check=True)
        else:
            os.mkdir(kept)
        for group, functions, texts in rounds_of(mutants):
            began = time.monotonic()
            tried = together(prover, crate, group, functions, texts, kept, names)
            took = (time.monotonic() - began) / len(group)
            for mutant, (kind, said) in tried:
                results.append((mutant, kind, said))
                print(f"{crate}/{mutant.name}: {kind} {said} ({took:.0f} s)", flush=True)
    return results


def changed_since(revision):
    """The crates whose sources, specs or proofs differ from a commit, in what is committed or
    not."""
    said = subprocess.run(
        ["git", "diff", "--name-only", revision, "--", "crates"],
        capture_output=True,
        text=True,
        check=True,
    )
    new = subprocess.run(
        ["git", "ls-files", "--others", "--exclude-standard", "crates"],
        capture_output=True,
        text=True,
        check=True,
    )
    paths = [it.split("/") for it in (said.stdout + new.stdout).splitlines()]
    return sorted({it[1] for it in paths if len(it) > 3 and it[2] in PARTS})


def lost(mutants):
    """What the list of names has that isn't there: a mutant, its line `gate`, or a test."""
    there = {f"{it.crate}/{it.name}": it for it in mutants}
    for line in NAMED.read_text().splitlines():
        kind, name = line.partition("#")[0].split() or (None, None)
        if kind == "test":
            crate, function = name.split("/")
            sources = pathlib.Path("crates", crate, "src").rglob("*.rt")
            if not any(f"fn {function}(" in it.read_text() for it in sources):
                yield f"{NAMED}: no test {name}"
        elif kind and name not in there:
            yield f"{NAMED}: no mutant {name}"
        elif kind == "gate" and not there[name].is_of_gate:
            yield f"{NAMED}: {name} has no line `gate`"


def fit():
    mutants = mutants_of()
    faults = [f"{it.path}: {it.fault()}" for it in mutants if it.fault()]
    faults += lost(mutants)
    gate = sum(it.is_of_gate for it in mutants)
    faults += (
        [f"the gate tries {gate} mutants, and at most {GATE} are wanted"] if gate > GATE else []
    )
    unnamed = sum(not it.refused_by for it in mutants)
    print(
        *faults,
        f"mutants: {len(mutants)}, {gate} of them in the gate, {unnamed} without a line `refused by`, {len(faults)} faults",
        sep="\n",
    )
    return 1 if faults else 0


def is_made_since(crate, begun):
    """Whether the library of a crate has been made since then. `rt ci` may take one that it kept,
    whose files are older than their names. This file is written first, and the others at once."""
    try:
        made = os.stat(f"crates/{crate}/out/rlib/{crate}.rlib/format").st_ctime
    except FileNotFoundError:
        return False
    return begun < made < time.time() - 5


def try_crates(prover, by_crate, options):
    """Tries these mutants, each crate on one worker: of the crates whose libraries are there, that
    with most of them first."""
    left = sorted(by_crate, key=lambda it: -len(by_crate[it]))
    begun = os.stat(options.since).st_ctime if options.since else None
    taking = threading.Lock()

    def is_ready(crate):
        return begun is None or all(is_made_since(it, begun) for it in prover.below(crate))

    def take():
        with taking:
            while left:
                for crate in filter(is_ready, left):
                    left.remove(crate)
                    return crate
                time.sleep(1)

    def work(_):
        results = []
        while crate := take():
            results += try_crate(prover, crate, by_crate[crate], options.name)
        return results

    with concurrent.futures.ThreadPoolExecutor(options.jobs) as pool:
        return [it for results in pool.map(work, range(options.jobs)) for it in results]


def try_all(options):
    crates = changed_since(options.changed) if options.changed else options.crates or ["*"]
    by_crate = {}
    for it in mutants_of(crates):
        if it.is_of_gate or not options.gate:
            by_crate.setdefault(it.crate, []).append(it)
    lacking = [it for it in options.crates if it not in by_crate]
    if lacking:
        sys.exit(f"no mutants in crates/{lacking[0]}")
    prover = Prover()
    for crate in by_crate if not options.built else ():
        prover.build_below(crate)
    results = try_crates(prover, by_crate, options)
    # A library may have been built over another build of one below it, as an earlier run on the
    # machine had it.
    again = {}
    for mutant, kind, _ in results:
        if kind == UNKNOWN:
            again.setdefault(mutant.crate, []).append(mutant)
    for crate in again:
        prover.build_below(crate, anew=True)
    results = [it for it in results if it[1] != UNKNOWN] + try_crates(prover, again, options)
    faults = [
        f"{mutant.crate}/{mutant.name}: {kind}: {said}"
        for mutant, kind, said in results
        if kind != REFUSED
    ]
    count = len(results) - len(faults)
    print(
        *faults,
        f"mutants tried: {len(results)}, refused as their files say: {count}, not so: {len(faults)}",
        sep="\n",
    )
    return 1 if faults else 0


def main():
    words = argparse.ArgumentParser(description="Tries mutants.")
    verbs = words.add_subparsers(dest="verb", required=True)
    verbs.add_parser("fit")
    of_try = verbs.add_parser("try")
    of_try.add_argument("crates", nargs="*", metavar="CRATE")
    of_try.add_argument("--gate", action="store_true")
    of_try.add_argument("--changed", metavar="REV")
    of_try.add_argument("--name", action="store_true")
    of_try.add_argument("--built", action="store_true")
    of_try.add_argument("--since", metavar="FILE")
    of_try.add_argument("--jobs", type=int, default=os.cpu_count())
    options = words.parse_args()
    if options.verb == "try":
        return try_all(options)
    return fit()


if __name__ == "__main__":
    sys.exit(main())
