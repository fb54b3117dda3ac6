#!/usr/bin/env python3
"""A second eraser. It reads the proved sources by itself, and compares its results with
`rust/forgeni/src/proved`, token by token.

    .ci/second_eraser.py                        prints what differs, class by class; any other difference is an error
    .ci/second_eraser.py --fit                  writes this into rust/erase/differences.txt
    .ci/second_eraser.py --mutate 500 --seed 1  changes one token of the results at a time; the comparison must find each change

It has another author than `rust/erase`, and another form. A reader goes down a grammar. A name must
be an item of these crates, a binding, or in one of the lists below of names that mean the same in
both languages. Whatever the grammar and the lists don't have is an error. How often each class of
difference occurs, and why it keeps the meaning, stands in that file. Another count or class is an
error too.
"""

import argparse
import collections
import pathlib
import random
import re
import sys

SOURCES, RESULTS, PACKAGE, PAGE = (
    "crates",
    "rust/forgeni/src/proved",
    "rust/forgeni/Cargo.toml",
    "rust/erase/differences.txt",
)
TOP = pathlib.Path(__file__).resolve().parent.parent
EDITION = "2024"
LIST, LINTS = (
    "modules.rs",
    "#[allow(dead_code, unused_assignments, unused_imports, unused_labels, unused_variables, clippy::all)]",
)
# What the package calls otherwise: the modules that crates are, what crates declare, and functions
# that only the package may call.
TABLE = [
    line.split()
    for line in (TOP / "rust/erase/names.txt").read_text().splitlines()
    if line and line[0] != "#"
]
MODULES = {it[1]: it[2] for it in TABLE if it[0] == "module"}
NAMED = {(it[1], it[2]): it[3] for it in TABLE if it[0] == "name"}
INSIDE = {f"{it[1]}::{name}" for it in TABLE if it[0] == "inside" for name in it[2:]}


def named(text):
    """The paths that a text lists as `PATH: NAMES;`."""
    lists = [it.rsplit(":", 1) for it in text.split(";")]
    return {f"{path.strip()}::{it}" for path, names in lists for it in names.split()}


# In what order the results have modules, and the functions of types, each topic in a block of its
# own.
ORDER = (TOP / "rust/erase/topics.txt").read_text()
FIRST = {crate: names.split() for crate, names in re.findall(r"(?m)^modules (\w+) (.*)$", ORDER)}
TOPICS = {
    (file, of): [it.split() for it in re.findall(r"(?m)^- .*?: (.*)$", all_of)]
    for file, of, all_of in re.findall(r"(?m)^impl (\S+) (\w+)\n((?:- .*\n?)+)", ORDER)
}


# The crates of the two programs, which aren't compared: they use twice as many forms and names of
# the kit as the others. What the first eraser makes of them is run instead, beside the kit's build
# of the same sources (`.ci/programs.sh`). They are modules behind a feature.
LEFT_OUT, FEATURE = {
    "cli",
    "ent_script",
    "spawnrun",
    "spawnrun_lib",
    "tracecheck",
}, '#[cfg(feature = "programs")]'

# The paths of the kit, and what stands for them.
PATHS = {f"std::{it}": f"crate::kit::{it}" for it in "alloc collections sync thread".split()}
PATHS |= {f"std::{it}": f"core::{it}" for it in "cmp error fmt hash marker mem num slice".split()}
PATHS |= {"std::vec": "alloc::vec"}
PATHS |= {it: f"crate::kit::{it}" for it in "atomic_table either itoa smallvec".split()} | {
    "thiserror": ""
}
# The right to allocate, as a type or a value, and a type that a ghost trait bounds are written so
# until they go, each by its class.
RIGHT, GHOST = "@right", "@ghost"
CLASSES = {RIGHT: "allocator", GHOST: "ghost type"}
# What each difference of a class needs as an import.
NEEDS = {
    "collect_in": "crate::kit::vec::CollectIn",
    "list call": "crate::kit::vec::FallibleVec",
    "padded": "crate::kit::padded",
}
# What goes of what is imported from there, and what stays, or may be called.
MODEL, GLOBAL, ERROR, BRAND = (
    "std::marker::Model",
    "std::alloc::Global",
    "thiserror::Error",
    "std::marker::Brand",
)
IMPORTS = named(
    "std: fmt mem slice; std::alloc: AllocError AllocFailed; std::cmp: Ordering; std::collections: BTreeMap LinkedList; std::error: Error;"
    "std::hash: Hash Hasher; std::marker: PhantomData; std::num: NonZeroU32 NonZeroU64; std::sync: Arc; std::thread: Threads join_mut; std::vec: IntoIter;"
    "atomic_table: Badge Join Play Seat Split Table TableRule; either: Either Left Right; itoa: Buffer Integer; smallvec: SmallVec"
)
ASSOCIATED = named(
    "Arc: new try_clone try_unwrap; BTreeMap: new; Badge: blank; Buffer: new; NonZeroU32: new; NonZeroU64: MIN new; Table: of_words;"
    "SmallVec: new with_capacity; Vec: new with_capacity; fmt: Debug Display Formatter Result; i64: from; mem: replace; slice: Iter;"
    "u16: from_le_bytes; u32: MAX from from_le_bytes; u64: MAX from from_le_bytes; usize: from try_from"
)
PRELUDE = set(
    "Some None Ok Err Option Result Vec Self self Iterator DoubleEndedIterator ExactSizeIterator From Into Default Copy Clone Send Sync Fn "
    "FnMut FnOnce Ord PartialOrd PartialEq Eq Sized bool str u8 u16 u32 u64 u128 usize i64".split()
)
METHODS = set(
    "all as_bytes as_chunks as_mut_slice as_slice binary_search binary_search_by_key capacity cast_signed cast_unsigned checked_add "
    "checked_mul checked_sub clear close_with cmp collect contains copied copy_from_slice count enumerate extend_from_slice "
    "extend_with_clones fetch_add fetch_sub filter format free get get_mut insert into into_badge into_iter into_seat is_ascii_digit is_empty is_err "
    "is_none is_none_or is_ok is_some iter iter_mut join_seat len load_new_seat map map_err max min next next_back ok ok_or "
    "overflowing_add pop position push push_reserved remove reserve reserve_exact resize retain reverse saturating_add saturating_mul "
    "saturating_sub shrink_to_fit size_hint sort_by_cached_key sort_by_key sort_unstable split_at split_at_mut split_first "
    "split_first_chunk split_last split_seat swap_remove take then "
    "to_le_bytes truncate unsigned_abs unwrap unwrap_or word write_str write_u64".split()
)
# Methods of a trait of these crates that another type or trait has too. Each call can mean no other
# method: `run` is that of `System`, which `Worker` isn't, and `take` is called on a parameter `S:
# Sink`, which `Machine`, `Checker` and iterators aren't.
SHARED_NAMES = {"run", "take"}
# Functions that may be called in a constant, by their files.
CONSTANT = named(
    "ent_alloc/entities: new with_limits; ent_alloc/limits: default_limits generations keeping_placeholder new slots; ent_alloc/slots: new;"
    "ent_alloc/requests: none; ent_handle/handle: from_bits from_parts generation index new to_bits; ent_replay/trace/log: new;"
    "ent_storage/handle_map: limit new with_limit; ent_storage/limit: of slots"
)
# Files whose `pub(crate)` stays, since the package's own `several` lends several values of a map at
# once. No contract can say what the map is after that.
OPENED = {
    f"ent_storage/{it}"
    for it in "handle_map handle_map/generation handle_map/slot sparse_map".split()
}
# What `prove_eq!` may call, and whose stand-in is an enum alone (the empty path: what is imported
# from these crates).
READS, WITHOUT_METHODS = {"beyond", "cursor"}, {"", "either::Either"}
# Types with a layout of their own, the one of which the results derive the equality, and those of
# data, which derives more in the results.
LAYOUTS = dict.fromkeys(
    named("ent_blocks: BlockReserver; ent_replay: Log; ent_total: Reserver"),
    "#[repr(align(128))]",
)
LAYOUTS |= {"ent_handle::Handle": "#[repr(transparent)]"}
WORD_TYPE, DATA = "ent_handle::Handle", named(
    "ent_replay: Call CheckError Difference FlushReply Log Reservation ReserveReply"
)
# Traits whose last two parameters have defaults in the results, how those parameters end, and
# the default after so many of these words.
DEFAULTED, LAST_TWO = (
    named("ent_runner: LogSystem System"),
    ["S", ":", "Source", ",", "E", ">"],
)
DEFAULTS = {
    3: f"= crate::{MODULES['ent_shared']}::Shared",
    5: f"= crate::{MODULES['ent_handle']}::Memory",
}
# Reports, which derive a little more in the results.
REPORTS = named("ent_world: SyncReport")
EQUALITY = {
    "PartialEq": "#[inline]fneq(&self,other:&Self)->bool{self.bits==other.bits}}",
    "Eq": "}",
}
# The file whose texts keep a width, and functions with another name.
PADDED, RENAMED = "ent_handle/text", {"Entities::new": "with_exact_limits"}
RENAMED |= {f"Vec::{it}": it + "_fallibly" for it in ("from_slice", "with_capacity")}
# Calls of the kit's list that Rust's has otherwise, with the receivers that are no lists. A wrong
# one doesn't compile.
LISTS = dict.fromkeys(
    "extend_from_slice extend_with_clones push_reserved reserve_exact resize shrink_to_fit".split(),
    "",
)
LISTS |= dict.fromkeys("sort_by_cached_key sort_by_key".split(), "")
LIST_CALLS = {
    "capacity": "sized_capacity",
    "extend_with_clones": "extend_from_slice_fallibly",
    "push_reserved": "push_reserved",
}
LISTS |= {
    "capacity": "living rows source",
    "push": "living log rows storage",
    "reserve": "] blocks index living rows self shared storage",
}
LISTS |= {
    "insert": "blocked calls commands entry items last latest living map queue seen self spent vacant values"
}
KEYWORDS = set(
    "as async await break const continue crate dyn else enum extern false fn for if impl in let loop match mod move mut pub ref return "
    "static struct super trait true type unsafe use where while ghost requires ensures".split()
)
OPERATORS = "... ..= <<= -> => :: .. << >= <= == != && || += -= *= /= %= ^= |= &=".split() + list(
    "+-*/%^!&|=<>@.,;:#$?~()[]{}"
)
LEXEME = re.compile(
    r"""(?P<gap>(?:\s+|//[^\n]*)+) | (?P<str>b?"(?:\\.|[^"\\])*") | (?P<char>b?'(?:\\(?:x[0-9a-fA-F]{2}|u\{[0-9a-fA-F_]+\}|.)|[^'\\\n])')
    | (?P<life>'[A-Za-z_]\w*) | (?P<num>(?<=\.)\d\w*|\d\w*(?:\.\d\w*)?) | (?P<id>[A-Za-z_]\w*) | (?P<op>%s)"""
    % "|".join(re.escape(it) for it in OPERATORS),
    re.VERBOSE | re.DOTALL | re.ASCII,
)
# Conditions that each caller meets: that a closure may be called, as any of Rust's may, and that
# commands are ready. Only proved code makes commands. It lends those that are ready, and each call
# leaves them so.
MET = re.compile(
    r"requires\s+(?:\w+\s+)?\{\s*(?:[A-Z]\w*\.IsAlwaysCallable\s+\w+|(IsReady)\s+S\.serves\s+self\.old)\s*\}"
)
IN_A_CLAUSE = re.compile(r'--.*|"(?:\\.|[^"\\])*"?|\{-|//|[{}]')
BINARY = set("+ - * / % ^ & | && || << == != < > <= >= = += -= *= /= %= ^= |= &= <<=".split())
Token = collections.namedtuple("Token", "kind text start end line")


class Refused(Exception):
    """A form or name that the second eraser doesn't know, with its place."""


class Text:
    """A file. Its tokens are read on demand, since the clauses between them have other words."""

    def __init__(self, text, name):
        self.text, self.name, self.known = text, name, {}

    def fail(self, why, at):
        raise Refused(f"{self.name}:{self.text.count(chr(10), 0, at) + 1}: {why}")

    def token(self, at):
        """The first token from there on."""
        if at not in self.known:
            found = LEXEME.match(self.text, at)
            begin = found.end() if found and found.lastgroup == "gap" else at
            found = LEXEME.match(self.text, begin)
            if found is None and begin < len(self.text):
                self.fail(f"no token begins with {self.text[begin : begin + 9]!r}", begin)
            kind, word = (found.lastgroup, found[0]) if found else ("end", "")
            self.known[at] = Token(
                kind, word, begin, begin + len(word), self.text.count("\n", 0, begin) + 1
            )
        return self.known[at]

    def tokens(self):
        found = [self.token(0)]
        while found[-1].kind != "end":
            found.append(self.token(found[-1].end))
        return found[:-1]

    def after_clause(self, at):
        """Where the braces end that begin at `at`. Their words are antt's: its comments are `--`
        and `{- -}`, its texts stand in `"`."""
        depth = 0
        for part in IN_A_CLAUSE.finditer(self.text, at):
            if part[0] in ("{-", "//"):
                self.fail("a comment of several lines or of Rust in a clause", part.start())
            if part[0].startswith("--") and self.text[part.start() - 1] not in " \n({[)}]":
                self.fail("a comment or a name", part.start())
            depth += {"{": 1, "}": -1}.get(part[0], 0)
            if depth == 0:
                return part.end()
        self.fail("a clause without an end", at)


class Unit:
    """What is erased together: the crates, and what each of their files has to know of all
    others."""

    def __init__(self, crates, packages):
        self.crates, self.packages, self.conditions, self.facts = crates, packages, set(), set()

    def learn(self, notes):
        self.facts |= {(name, of) for kind, name, of in notes if kind == "fact"}
        self.facts |= {
            (GHOST, of[1])
            for name, of in self.facts
            if name == "phantom" and ("ghost", of[0]) in self.facts
        }
        twice = {of for name, of in self.facts if name in CLASSES} & {
            of for name, of in self.facts if name == "field"
        }
        if twice:
            raise Refused(
                f"a field `{min(twice)}` that goes, since its type does, and one that stays"
            )


def check(notes):
    """Each name that was used has to be known, and to mean one thing."""
    functions = collections.defaultdict(set)
    for _, name, of in (it for it in notes if it[0] == "function"):
        functions[name].add(of)
    own = functions.keys() | {name for kind, name, _ in notes if kind == "other"}
    reads = {it for it in READS if {receiver for _, receiver in functions[it]} == {"&self"}}
    lists = {
        "import": IMPORTS,
        "path": ASSOCIATED,
        "own path": own,
        "method": METHODS | functions.keys(),
        "read": reads,
    }
    for (kind, name), place in ((name, place) for what, name, place in notes if what == "use"):
        if (name.split("::")[-1] if kind == "own path" else name) not in lists.get(kind, ()):
            raise Refused(
                f"{place}: {name if kind == 'refused' else f'the {kind} `{name}` is in no list'}"
            )
    for name, all_of in functions.items():
        owners = {owner for owner, _ in all_of if owner}
        for trait in (it for it in owners if it.startswith("trait ")):
            if name not in SHARED_NAMES and (owners - {trait, f"impl {trait}"} or name in METHODS):
                raise Refused(
                    f"`{name}` of {trait} is also a method of another trait or type: which is meant depends on the language"
                )
        if name == "collect" and owners:
            raise Refused("a method `collect`: `collect_in` would take its place")


class Reader:
    """Goes down the grammar in one file, and writes the tokens of plain Rust. What else a form says
    stands in `log`."""

    def __init__(self, text, result, unit, first=None):
        self.text, self.unit, self.result, self.crate = (
            text,
            unit,
            result.removesuffix(".rs"),
            result.split("/")[0],
        )
        self.at, self.far, self.out, self.log, self.imports_at, self.bounds = 0, 0, [], [], None, {}
        vars(self).update(
            dict.fromkeys("arms declared error of owner target trait variant".split(), "")
        )
        self.errs, self.fields, self.no_struct, self.requires = False, [], False, False
        self.names, self.imports = ([first.names[0]], first.imports) if first else ([{}], {})

    def file(self):
        """The whole file. What it adds to the imports stands before them, and an import that isn't
        used any more goes."""
        if not self.match(RULES["file"]):
            self.text.fail(
                f"{self.text.token(self.far).text!r} in a form that is in no rule",
                self.text.token(self.far).start,
            )
        head = len(self.out)
        for name in sorted({name for kind, name, _ in self.log if kind == "add"}):
            self.add(f"use {name};", "import")
        self.out[self.imports_at or 0 : 0] = self.cut(head)
        if self.texts(0).count("PhantomData") == 1 and ("count", CLASSES[GHOST], None) in self.log:
            at = self.texts(0).index("PhantomData")
            self.out[at - 5 : at + 2] = []
            self.log.remove(("count", "core path", None))
        self.rename()
        return self

    def rename(self):
        """Gives what the table has its name in the package: where it is declared, imported, or
        named by a path or as what was imported."""
        words = [it.text for it in self.out]
        crates = {module: crate for crate, module in MODULES.items()} | {"kit": "kit"}
        means = {
            name: (self.crate, name)
            for kind, name in zip(words, words[1:])
            if kind in ("struct", "enum", "trait", "type")
        }
        to, goes, path, at = {}, set(), [], 0
        # Where an import or a path begins, and of which crate it is. A list has the path that
        # stands before it.
        while at < len(words):
            end = at
            if words[at] == "use":
                end = words.index(";", at)
            elif words[at : at + 2] == ["crate", "::"]:
                while words[end + 1] == "::" and self.out[end + 2].kind == "id":
                    end += 2
            path = words[at + (words[at] == "use") : end]
            crate = (
                crates.get(path[2])
                if path[:2] == ["crate", "::"]
                else None
                if path[:1] and path[0] in ("core", "alloc")
                else self.crate
            )
            for place in range(at, end + 1) if end > at else ():
                name, after = words[place], "".join(words[place + 1 : place + 2])
                if words[at] == "use" and after in (",", "}", ";"):
                    means[name] = (crate, words[place - 2] if words[place - 1] == "as" else name)
                if words[place - 1] == "as":
                    to[place] = NAMED.get((self.crate, name))
                    goes |= (
                        {place - 1, place}
                        if to[place] and to[place] == to.get(place - 2, words[place - 2])
                        else set()
                    )
                elif (crate, name) in NAMED:
                    to[place] = NAMED[crate, name]
            at = end + 1
        depth, enum, opened = 0, 0, None
        for at, word in enumerate(words):
            depth += {"{": 1, "(": 1, "}": -1, ")": -1}.get(word, 0)
            opened = depth if word == "enum" else opened
            if word == "}" and depth == opened:
                opened = None
            is_variant = (
                opened is not None and depth == opened + 1 and words[at - 1] in ("{", ",", "]")
            )
            is_member = words[at - 1] == "type" and depth > 0
            crate, name = means.get(word, ("", ""))
            whole = NAMED.get((crate, word)) if name == word else NAMED.get((self.crate, word))
            if (
                at not in to
                and whole
                and words[at - 1] != "::"
                and not is_variant
                and not is_member
            ):
                to[at] = whole
            if words[at - 1] == "::" and at not in to and words[at - 2] in ("super", "self"):
                to[at] = NAMED.get((self.crate, word))
        for at in (it for it in to if to[it]):
            self.out[at] = self.out[at]._replace(text=to[at])
        self.out = [it for at, it in enumerate(self.out) if at not in goes]
        self.log += [("count", "name", None)] * sum(bool(it) for it in to.values())

    # The signs of the grammar.

    def match(self, part):
        kind, of = part
        if kind in ("token", "word", "rule", "commas", "pluses"):
            return getattr(self, kind)(of)
        mark = (self.at, len(self.out), len(self.log))
        if kind == "or":
            return any(all(self.match(it) for it in parts) or self.reset(mark) for parts in of)
        found = self.match(of)
        if kind == "-":
            self.cut(mark[1])
        elif kind in "!&":
            self.reset(mark)
            return bool(found) == (kind == "&")
        elif kind in "*+":
            while found and self.match(of):
                pass
        return found or kind in "*?"

    def commas(self, of, sign=","):
        """Parts with signs between them. A part of which nothing is left takes a sign with it."""
        while True:
            begin = len(self.out)
            if not self.match(of):
                return True
            is_gone = len(self.out) == begin
            if not self.sees(sign):
                self.out.pop() if is_gone and self.out[-1].text == sign else None
                return True
            self.drop() if is_gone else self.take()

    def pluses(self, of):
        return self.commas(of, "+")

    def rule(self, name):
        """Reads a rule in the state and the scope that it has. What a scope binds is known in it
        alone."""
        state = STATES.get(name, {})
        before = {it: getattr(self, it) for it in state}
        vars(self).update(state)
        self.names += [{}] * (name in SCOPES)
        mark = (self.at, len(self.out), len(self.log))
        found = self.match(RULES[name])
        if found and hasattr(self, "after_" + name):
            getattr(self, "after_" + name)(*mark[1:])
        del self.names[len(self.names) - (name in SCOPES) :]
        vars(self).update(before)
        return found and (name not in NOTES or self.note(*NOTES[name]))

    def token(self, text):
        return self.seen(self.sees(text) and self.take())

    def word(self, name):
        return self.seen(
            WORDS[name](self) if name in WORDS else getattr(self, "is_" + name.lower())()
        )

    def seen(self, found):
        self.far = self.far if found else max(self.far, self.look().start)
        return found

    def reset(self, mark):
        self.at, self.out[mark[1] :], self.log[mark[2] :] = mark[0], [], []

    # Tokens and notes.

    def look(self, ahead=0):
        token = self.text.token(self.at)
        for _ in range(ahead):
            token = self.text.token(token.end)
        return token

    def sees(self, *texts):
        return self.look().text in texts and self.look().kind in ("id", "op")

    def drop(self):
        token = self.look()
        self.at = token.end
        return token

    def take(self):
        self.out.append(self.drop())
        return self.out[-1]

    def add(self, words, kind=None):
        """Writes what only the results have."""
        self.note("count", kind) if kind else None
        self.note("add", NEEDS[kind]) if kind in NEEDS else None
        self.out += [it._replace(line=self.look().line) for it in Text(words, "").tokens()]
        return True

    def instead(self, words, kind):
        """Writes this and not the next token."""
        return self.drop() and self.add(words, kind)

    def cut(self, mark):
        """Takes back what was written since."""
        found, self.out[mark:] = self.out[mark:], []
        return found

    def insert(self, mark, words, kind=None):
        rest = self.cut(mark)
        self.add(words, kind)
        self.out += rest

    def set(self, name, value):
        setattr(self, name, value)
        return True

    def note(self, kind, name, of=None):
        self.log.append((kind, name, of))
        return True

    def use(self, kind, name):
        return self.note("use", (kind, name), f"{self.text.name}:{self.look().line}")

    def texts(self, mark):
        return [it.text for it in self.out[mark:]]

    def first(self, mark, *words):
        """Where the first of these words was written since."""
        return next(at for at in range(mark, len(self.out)) if self.out[at].text in words)

    # What is for the prover alone, or for the kit's allocator.

    def knows(self, name, of):
        return (name, of) in self.unit.facts

    def gone(self, mark, kind):
        """What was written since isn't in the results."""
        self.note("count", CLASSES.get(kind, kind))
        self.cut(mark)

    def after_parameter(self, mark, _):
        name, *of = self.texts(mark)
        if of == [":", RIGHT]:
            self.names[-1][name] = RIGHT
            self.gone(mark, RIGHT)

    def after_passed(self, mark, _):
        """An argument, or what a literal gives a field."""
        words = self.texts(mark)
        if words == [RIGHT] or len(words) == 3 and words[1] == "." and self.knows(RIGHT, words[2]):
            self.gone(mark, RIGHT)

    def after_fielded(self, mark, _):
        words = [it for it in self.texts(mark) if it != ","]
        at = words.index(":")
        name, of = words[at - 1], words[at + 1 :]
        fact = RIGHT if of == [RIGHT] else "phantom" if of[0] == "PhantomData" else "field"
        self.note(
            "fact", fact, (self.bounds.get("".join(of[2:3])), name) if fact == "phantom" else name
        )
        if of in ([RIGHT], ["PhantomData"]):
            self.gone(mark, RIGHT if of == [RIGHT] else GHOST)

    def after_part(self, mark, _):
        """A field in a literal or a pattern. What a literal gives it may be gone already."""
        name, *of = self.texts(mark)
        kind = name if name == RIGHT else next((it for it in CLASSES if self.knows(it, name)), None)
        if kind and of in ([], [":", "_"], [":", "PhantomData"]):
            self.names[-1] |= {} if of else {name: kind}
            self.gone(mark, kind)
        self.cut(mark) if of == [":"] else None

    def after_generic(self, mark, _):
        name, *bound = self.texts(mark)
        self.bounds[name] = "".join(bound[1:])
        if self.knows("ghost", self.bounds[name].removesuffix("+Send+Sync")):
            self.names[-1][name] = GHOST
            self.gone(mark, GHOST)

    def after_argument(self, mark, _):
        self.gone(mark, self.texts(mark)[0]) if self.texts(mark) in ([RIGHT], [GHOST]) else None

    def after_generics(self, mark, _):
        self.cut(mark) if self.texts(mark) in (["<", ">"], ["::"]) else None

    after_closed, after_arguments, after_turbofish, after_named_part = (
        after_parameter,
        after_generics,
        after_generics,
        after_part,
    )

    def after_trait(self, mark, notes):
        has_ghosts = any(it[1] == "(ghost members and imports)" for it in self.log[notes:])
        if has_ghosts and self.texts(mark)[-2:] == ["{", "}"]:
            self.note("fact", "ghost", self.declared)
            self.gone(mark, "ghost trait")

        if f"{self.crate}::{self.declared}" in DEFAULTED:
            words = self.texts(mark)
            first = words.index("{") - len(LAST_TWO)
            if words[first : first + len(LAST_TWO)] != LAST_TWO:
                self.use(
                    "refused", "a trait whose last parameters aren't the source and the error"
                )
                return
            for at in sorted(DEFAULTS, reverse=True):
                self.insert(mark + first + at, DEFAULTS[at], "default")

    def after_module(self, mark, _):
        inside = self.result.removesuffix("/mod") + "/" + self.declared
        self.gone(mark, "ghost trait") if self.knows("empty", inside) else None

    def is_step(self):
        """A name after a `::`, or of a member. A few functions have another name."""
        before, name = self.out[-1 - (self.out[-1].text == "::")].text, self.look().text
        to = RENAMED.get(f"{self.target if before in ('Self', 'fn') else before}::{name}")
        return self.instead(to, "list call" if before == "Vec" else to) if to else self.word("NAME")

    # Names.

    def is_provers(self, name):
        """Whether the name is the prover's and not one of the crate's own."""
        return name not in self.names[0].keys() | self.imports.keys()

    def is_declared(self):
        """The name of an item, which may not be one that the results give another meaning."""
        self.declared = self.look().text
        if self.declared in self.unit.packages | PRELUDE | {"kit", "collect_in", "prove_eq"}:
            self.use("refused", f"an item named `{self.declared}`")
        self.names[-2][self.declared] = None
        return self.note("other", self.declared) and self.word("NAME")

    def words(self):
        """The names of the path that begins here, up to its arguments, and what stands after it."""
        found, at = [self.look().text], 1
        while self.look(at).text == "::" and self.look(at + 1).kind == "id":
            found.append(self.look(at + 1).text)
            at += 2
        return found, self.look(at).text

    def is_head(self):
        """The beginning of a path as the package has it. Its first name has to be known."""
        if self.look().kind != "id" or self.look().text in KEYWORDS - {"crate", "super"}:
            return False
        words, _ = self.words()
        first, whole, is_alone = words[0], "::".join(words), len(words) == 1
        kit = next((it for it in PATHS if whole.startswith(it + "::")), None)
        bound = [it[first] for it in self.names if first in it]
        known = bound or first in PRELUDE | {"crate", "super"} | self.imports.keys()
        self.note("add", "alloc::vec::Vec") if first == "Vec" else None
        if not known and kit is None and (is_alone or first not in self.unit.crates):
            self.use("name", first)
        elif not is_alone:
            self.use(
                "path"
                if first in PRELUDE - {"Self"} or self.imports.get(first) or kit
                else "own path",
                whole,
            )
        if is_alone and bound and bound[-1] in CLASSES:
            return self.out.append(self.drop()._replace(text=bound[-1])) or True
        return self.head(words, kit)

    def head(self, words, kit):
        if kit is not None:
            self.set("at", self.look(2 * kit.count("::")).end)
            return self.add(PATHS[kit], "stand-in path" if "kit" in PATHS[kit] else "core path")
        if words[0] in self.unit.crates and len(words) > 1:
            return self.instead(f"crate::{MODULES[words[0]]}", "sister path")
        elif len(words) > 1 and words[0] in self.unit.packages:
            self.use("path", "::".join(words))
        return self.take() and (
            words[0] != "crate" or self.add(f"::{MODULES[self.crate]}", "crate path")
        )

    def is_prefix(self):
        """What stands before the names that are imported."""
        words, after = self.words()
        self.prefix, self.left, self.taken = words if after == "::" else words[:-1], [], []
        kit = next((it for it in PATHS if "::".join([*words, ""]).startswith(it + "::")), None)
        if kit == "::".join(words) and after != "::":
            self.set("at", self.look(2 * len(self.prefix) - 1).end)
            return self.add(PATHS[kit].removesuffix(words[-1]), "core path")
        if self.prefix:
            self.head(self.prefix + [""], kit)
        while self.sees("::") or self.look(1).text == "::":
            self.take()
        return True

    def after_leaf(self, mark, _):
        """A name that is imported. Those that only the prover reads go."""
        old, new = self.out[mark].text, self.out[-1].text
        whole = "::".join([*self.prefix, old])
        foreign = (self.prefix or [""])[0] in self.unit.packages - self.unit.crates
        self.taken.append(old)
        if new in self.unit.packages | PRELUDE:
            self.use("refused", f"an import named `{new}`")
        self.imports[new] = whole if foreign else ""
        self.names[0] |= (
            {new: {GLOBAL: RIGHT, BRAND: GHOST}[whole]}
            if foreign and whole in (GLOBAL, BRAND)
            else {}
        )
        is_ghost = not foreign and self.knows("ghost", old)
        self.note("count", "ghost trait") if is_ghost else None
        self.left.append(not (foreign and whole in (MODEL, GLOBAL, ERROR, BRAND) or is_ghost))
        self.cut(mark) if not self.left[-1] else foreign and self.use("import", whole)

    def after_use(self, mark, notes):
        if not any(self.left):
            self.out[mark:], self.log[notes:] = [], [
                it for it in self.log[notes:] if it[1] == "ghost trait"
            ]
            return
        if sum(self.left) == 1 < len(self.left):
            self.out += [it for it in self.cut(mark) if it.text not in ("{", ",", "}")]
        self.imports_at = mark if self.imports_at is None else self.imports_at
        found = [self.has_condition(it) for it in self.taken]
        if any(found) and self.out[mark].text == "pub":
            self.narrow(mark) if all(found) else self.use(
                "refused", "a `pub use` of which a part has a condition"
            )

    def has_condition(self, name):
        """Whether an imported name is that of a function with a condition: in the file that the
        path leads to, or else in the crate."""
        first, *rest = self.prefix or [""]
        crate = self.crate if first == "crate" else first if first in self.unit.crates else None
        path = "/".join(
            [crate, *rest] if crate else [self.result.removesuffix("/mod"), *self.prefix]
        )
        return any(
            it == name and (file == path or file.startswith(path + "/"))
            for file, it in self.unit.conditions
        )

    def narrow(self, mark, kind="condition"):
        """`pub` becomes `pub(crate)`, where nothing else says more."""
        at = self.first(mark, "pub", "fn")
        if self.out[at].text == "pub" and self.out[at + 1].text != "(":
            self.insert(at + 1, "(crate)", kind)

    def is_method(self):
        name = self.look().text
        if self.look(1).text not in ("(", "::") or self.look().kind != "id":
            return False
        self.use("method", name)
        if name in LISTS and self.out[-2].text not in LISTS[name].split():
            return self.instead(LIST_CALLS.get(name, name + "_fallibly"), "list call")
        return self.instead("collect_in", "collect_in") if name == "collect" else self.word("NAME")

    def after_attribute(self, mark, _):
        self.cut(mark) if self.texts(mark)[-4:] == ["derive", "(", ")", "]"] else None

    def after_bounds(self, mark, _):
        self.cut(mark) if self.texts(mark) == [":"] else None

    def after_predicate(self, mark, _):
        self.cut(mark) if ":" not in self.texts(mark) else None

    def after_variant_of(self, mark, _):
        if "[" in self.texts(mark):
            self.use(
                "refused",
                "elements of an array in a variant, which are dropped in another order where a later part doesn't match",
            )

    def pattern(self):
        """A pattern of the fields that the message has."""
        used = re.findall(r"\{(\w+)", self.error)
        rest = [".."] * (not set(self.fields) <= set(used))
        return {"}": "{" + ", ".join(used + rest) + "}", ")": "(..)"}.get(self.out[-1].text, "")

    def after_variant(self, *_):
        self.arms += f"{self.declared}::{self.variant}{self.pattern()} => write!(f, {self.error}), "

    def after_data(self, mark, _):
        """What only the results say of a type: its layout, more derives, and what the derive
        `Error` stands for."""
        whole = f"{self.crate}::{self.declared}"
        at = self.first(mark, "pub", "struct", "enum")
        self.insert(at, LAYOUTS[whole], "layout") if whole in LAYOUTS else None
        self.insert(at - 2, ", PartialEq, Eq") if whole == WORD_TYPE else None
        self.insert(at - 2, ", Clone, PartialEq, Eq, Hash", "data") if whole in DATA else None
        self.insert(at - 2, ", Clone, PartialEq, Eq", "data") if whole in REPORTS else None
        bound = f"let {self.declared}{self.pattern()} = self;" if "{" in self.error else ""
        body = f"match self {{ {self.arms} }}" if self.arms else f"{bound} write!(f, {self.error})"
        head = f"impl core::fmt::Display for {self.declared} {{ fn fmt(&self, f: &mut core::fmt::Formatter<'_>) -> core::fmt::Result"
        tail = f"{{ {body} }} }} impl core::error::Error for {self.declared} {{ }}"
        self.add(head + tail, "messages") if self.errs else None

    def after_impl(self, mark, notes):
        own, kind = (
            self.names[0].keys()
            | {it for it, whole in self.imports.items() if whole in WITHOUT_METHODS},
            None,
        )
        if (
            self.of
            and self.of.split("::")[0] in own - PRELUDE
            and self.target not in own - self.names[-1].keys()
        ):
            self.use(
                "refused",
                f"an impl of `{self.of}` for a type of the kit: a method of Rust's may have its name",
            )
        if (
            self.of == MODEL
            and self.out[-2].text != "{"
            or self.of == "Drop"
            and self.is_provers("Drop")
        ):
            self.use("refused", "a model with code, or a destructor")
        elif self.out[-2].text == "{":
            kind = (
                "(models)"
                if self.of == MODEL
                else "ghost trait"
                if self.knows("ghost", self.of)
                else None
            )
        if f"{self.crate}::{self.target}" == WORD_TYPE and "".join(self.texts(mark)).split("{", 1)[
            1
        ] == EQUALITY.get(self.of):
            kind = "equality"
        if kind:
            self.out[mark:], self.log[notes:] = [], [("count", kind, None)]

    def after_receiver(self, mark, notes):
        receiver = "".join(
            it.text for it in self.out[mark:] if it.kind != "life" and it.text != ","
        )
        at = max(at for at in range(notes) if self.log[at][0] == "function")
        self.log[at] = ("function", self.log[at][1], (self.owner, receiver))

    def after_function(self, mark, notes):
        name = next(name for kind, name, _ in self.log[notes:] if kind == "function")
        if self.requires:
            self.unit.conditions |= set() if self.owner else {(self.result, name)}
            self.narrow(mark)
        elif self.owner and f"{self.crate}::{self.target}::{name}" in INSIDE:
            self.narrow(mark, "inside")
        at = self.first(mark, "pub", "const", "fn")
        if self.out[-1].text == "}" and not {"inline", "cold"} & {
            it.text for it in self.out[mark:at]
        }:
            self.insert(at, "#[inline]", "inline")

    after_cloner = after_function


# The grammar: `-` reads and writes nothing, `&` and `!` look ahead, `%` and `~` are lists with `,`
# and `+`, a word in capitals is in WORDS or an `is_..`. After a rule its `after_..` is called. A
# range without an end is an index alone: elsewhere the kit ends it where Rust doesn't.
GRAMMAR = r"""
file      = -('#' '!' '[' 'tactic' group ']')* item* END
group     = '(' (group | !')' ANY)* ')'
item      = ghost | use | module | constant | function | data | impl | trait
ghost     = -('pub'? 'ghost' ('use' UNTIL_SEMICOLON | NAME (':' CLAUSE)? ('=' CLAUSE)? ('by' CLAUSE)?) (';' | ','))
use       = visible? 'use' PREFIX ('{' leaf% '}' | leaf) ';'
leaf      = NAME ('as' NAME)?
module    = visible? 'mod' DECLARED ';'
constant  = visible? ('const' CONSTANT ':' type ('=' expression)? | 'type' CONSTANT generics bounds ('=' type)?) ';'
attribute = -('#' '[' (('tactic' | 'cycle') group | 'error' '(' ERROR ')') ']') | '#' '[' kept ']'
kept      = 'derive' '(' derived% ')' | 'inline' ('(' ('always' | 'never') ')')? | 'cold' | 'must_use' ('=' STR)? | 'non_exhaustive'
derived   = 'Clone' | 'Copy' | 'Debug' | 'Default' | 'Eq' | 'Hash' | 'PartialEq' | -NO_DERIVE
visible   = 'pub' ('(' SCOPE ')')?
data      = attribute* visible? ('struct' DECLARED generics ('{' named '}' | ('(' unnamed% ')')? ';') | enum)
enum      = 'enum' DECLARED generics '{' variant% '}'
variant   = attribute* VARIANT ('{' named '}' | '(' unnamed% ')')? ('=' NUM)?
named     = (ghost | fielded)*
fielded   = attribute* visible? FIELD ':' type (',' | &'}')
unnamed   = attribute* visible? type
impl      = attribute* 'impl' generics (TRAIT type 'for' OF)? TARGET type where OWNER '{' member* '}'
trait     = attribute* visible? 'trait' DECLARED generics bounds where TRAIT_OWNER '{' member* '}'
member    = ghost | constant | cloner | function
cloner    = 'fn' &'clone' FUNCTION '(' &('&' 'self' ')') receiver ')' '->' -('Result' '<') 'Self' cloned
cloned    = -(',' 'std' '::' 'alloc' '::' 'AllocError' '>') '{' -('Ok' '(') 'self' '.' &'again' METHOD '(' ')' -')' '}'
function  = attribute* visible? CONST? 'fn' FUNCTION (writer | generics) '(' receiver? parameter% ')' arrow? where clause* (block | ';')
writer    = -('<' 'W' ':' 'fmt' '::' 'Write' '>')
receiver  = '&'? LIFE? 'mut'? 'self' (',' | &')')
parameter = pattern ':' type
arrow     = '->' type
where     = ('where' predicate*)?
predicate = !(CLAUSE_WORD | '{' | ';') type bounds (',' | &'{' | &CLAUSE_WORD)
clause    = -(MET | CLAUSE_WORD '*'? NAME? CLAUSE)
generics  = ('<' generic% '>')?
generic   = 'const' BIND ':' type | (LIFE | BIND) bounds ('=' type)?
bounds    = (':' bound~)?
bound     = DROP | LIFE | ('Fn' | 'FnMut' | 'FnOnce') '(' type% ')' arrow? | type_path
type      = ('&' | '&&') LIFE? 'mut'? type | '(' type% ')' | '[' type (';' expression)? ']' | '_' | 'impl' bound | formatter | type_path
formatter = 'fmt' '::' 'Formatter' '<' -'W' FORMATTER '>'
type_path = HEAD arguments? ('::' NAME arguments?)*
arguments = '<' argument% '>'
argument  = LIFE | NUM | NAME '=' type | type
pattern   = one ('|' one)*
one       = ('&' | '&&') 'mut'? one | '_' | '..' | '(' pattern% ')' | '[' pattern% ']' | literal ('..=' literal)? | tagged | bind
bind      = 'mut'? BIND ('@' one)?
tagged    = TAG path variant_of?
variant_of = '(' pattern% ')' | '{' named_part% '}'
named_part = '..' | NAME ':' pattern | 'mut'? BIND
literal   = '-'? NUM | STR | CHAR | 'true' | 'false'
block     = '{' statement* '}'
statement = ';' | attribute* local | &('fn' | 'const') item | compound ';'? | expression (';' | &'}')
local     = 'let' pattern (':' type)? ('=' expression ('else' block)?)? ';'
compound  = (if | loop | 'match' condition '{' arm* '}' | block) (&('.' | '?') rest+)?
if        = 'if' condition block ('else' (if | block))?
loop      = 'while' condition block | 'for' pattern 'in' condition block | 'loop' block
arm       = pattern ('if' expression)? '=>' (block !('.' | '?') ','? | expression (',' | &'}'))
condition = expression
expression = (range | operand) rest*
range     = ('..=' | '..') operand
operand   = ('-' | '!' | '*' | ('&' | '&&') 'mut'?)* primary
rest      = rest_of_let | 'as' type | range | BINARY operand
method    = METHOD turbofish? '(' passed% ')'
turbofish = '::' arguments
passed    = inner
inner     = expression
primary   = literal | '(' inner% ')' | '[' (inner ';' inner | inner%) ']' | compound | closure | let | leave | macro | struct_of | path
let       = 'let' pattern '=' operand rest_of_let*
rest_of_let = '?' | '.' (NUM | method | NAME) | '(' passed% ')' | '[' ('..' &']' | inner ('..' &']')?) ']'
leave     = ('return' | 'break') expression? | 'continue'
closure   = 'move'? ('||' | '|' closed% '|') (arrow clause* block | clause clause* block | expression)
closed    = one (':' type)?
struct_of = STRUCT path '{' part% '}'
part      = '..' NAME &'}' | (NAME | NUM) ':' passed | path
path      = HEAD ('::' STEP)* turbofish?
macro     = 'matches' '!' '(' inner ',' pattern ')' | 'unreachable' '!' '(' ')' | WRITE '!' '(' 'f' ',' STR ')' | proves
proves    = 'prove_eq' '!' '(' read ',' read ')'
read      = NUM | path ('.' (READER '(' ')' | NAME))*
"""
# The words of the grammar that need no more than a line.
WORDS = {
    it.upper(): lambda r, it=it: r.look().kind == it and r.take()
    for it in ("num", "str", "char", "life")
} | {
    "END": lambda r: r.look().kind == "end",
    "ANY": lambda r: r.look().kind != "end" and r.drop(),
    "NAME": lambda r: r.look().kind == "id" and r.look().text not in KEYWORDS and r.take(),
    "UNTIL_SEMICOLON": lambda r: r.set("at", r.text.text.index(";", r.at)),
    "CLAUSE": lambda r: r.sees("{") and r.set("at", r.text.after_clause(r.look().start)),
    "CLAUSE_WORD": lambda r: r.sees("requires", "ensures")
    and r.set("requires", r.requires or r.sees("requires"))
    and r.take(),
    "MET": lambda r: (it := MET.match(r.text.text, r.look().start))
    and (not it[1] or r.crate == "ent_queue")
    and r.set("at", it.end()),
    "SCOPE": lambda r: r.sees("crate", "super")
    and (
        r.result in OPENED
        and r.sees("crate")
        and r.take()
        or r.add("super", "visibility" if r.drop().text == "crate" else None)
    ),
    "FORMATTER": lambda r: r.imports.get("fmt") == "std::fmt" and r.add("'_"),
    "BIND": lambda r: r.word("NAME") and (r.names[-1].update({r.out[-1].text: None}) or True),
    "FIELD": lambda r: r.word("NAME") and r.set("fields", [*r.fields, r.out[-1].text]),
    "CONSTANT": lambda r: r.note("other", r.look().text) and r.word("BIND"),
    "VARIANT": lambda r: r.note("other", r.look().text)
    and r.set("variant", r.look().text)
    and r.word("NAME"),
    "FUNCTION": lambda r: r.note("function", r.look().text, (r.owner, ""))
    and (r.is_step() if r.owner else r.is_declared()),
    "READER": lambda r: r.look(1).text == "(" and r.use("read", r.look().text) and r.word("NAME"),
    "ERROR": lambda r: r.set("error", r.look().text) and r.word("STR"),
    "TRAIT": lambda r: r.set("trait", "::".join(r.imports.get(it) or it for it in r.words()[0])),
    "OF": lambda r: r.set("of", r.trait),
    "CONST": lambda r: r.sees("const")
    and r.take()
    or f"{r.result}::{r.look(1).text}" in CONSTANT
    and r.add("const", "const"),
    "WRITE": lambda r: r.sees("write")
    and (r.take() if r.result != PADDED else r.instead("padded", "padded")),
    "TARGET": lambda r: r.set("target", r.look().text),
    "OWNER": lambda r: r.set("owner", f"impl trait {r.of.split('::')[-1]}" if r.of else "impl"),
    "TRAIT_OWNER": lambda r: r.set("owner", f"trait {r.declared}"),
    "BINARY": lambda r: r.sees(*BINARY)
    and (r.take().text != ">" or not r.sees(">", ">=") or r.take()),
    "STRUCT": lambda r: not r.no_struct and r.words()[1] == "{" and r.words()[0][-1][:1].isupper(),
    "TAG": lambda r: r.look().kind == "id"
    and (r.look(1).text in ("::", "(", "{") or r.look().text[0].isupper()),
    "ERRS": lambda r: r.sees("Error") and r.imports.get("Error") == ERROR and r.set("errs", True),
    "NO_DERIVE": lambda r: (r.sees("Drop") or r.word("ERRS"))
    and r.note("count", f"derive({r.look().text})")
    and r.drop(),
    "DROP": lambda r: r.sees("Drop")
    and r.is_provers("Drop")
    and r.drop()
    and r.note("count", "bound Drop"),
}
# The rules whose names are their own, those that are read in another state, and what is noted of a
# form.
SCOPES = set("module data impl trait function closure arm block".split())
STATES = {
    "condition": {"no_struct": True},
    "inner": {"no_struct": False},
    "block": {"no_struct": False, "owner": ""},
}
STATES |= {
    "impl": {"owner": "", "of": "", "target": ""},
    "trait": {"owner": ""},
    "variant": {"error": "", "fields": []},
}
STATES |= {
    "data": {"arms": "", "error": "", "errs": False, "fields": []},
    "function": {"requires": False},
    "closure": {"requires": False},
}
NOTES = {
    "cloner": ("count", "clone"),
    "writer": ("count", "formatter"),
    "ghost": ("count", "(ghost members and imports)"),
}
NOTES |= {"clause": ("count", "(clauses)"), "proves": ("add", "crate::kit::prove_eq")}


def parsed(words):
    """A rule's right side, up to its end or a closing parenthesis, as what `Reader.match` reads."""
    choices = [[]]
    while words and words[0] != ")":
        choices.append(words.pop(0) and []) if words[0] == "|" else choices[-1].append(step(words))
    return ("or", choices)


def step(words):
    word = words.pop(0)
    if word in "-!&":
        return (word, step(words))
    if word == "(":
        part = parsed(words)
        words.pop(0)
    else:
        part = (
            ("token", word[1:-1])
            if word[0] == "'"
            else ("word" if word.isupper() else "rule", word)
        )
    while words and words[0] in "*+?%~":
        part = ({"%": "commas", "~": "pluses"}.get(words[0], words[0]), part)
        words.pop(0)
    return part


RULES = {
    line.split()[0]: parsed(re.findall(r"'[^']+'|\w+|\S", line.partition(" = ")[2]))
    for line in GRAMMAR.strip().splitlines()
}


# The order of a result.


def parts(tokens, begin):
    """The items or members from there on, up to the `}` that closes them: what each has in braces,
    or its `;`, is its end."""
    at, depth = begin, 0
    while at < len(tokens) and (depth or tokens[at].text != "}"):
        depth += {"{": 1, "}": -1, "(": 1, ")": -1, "[": 1, "]": -1}.get(tokens[at].text, 0)
        if not depth and tokens[at].text in ("}", ";"):
            yield tokens[begin : at + 1]
            begin = at + 1
        at += 1


def arranged(result, tokens):
    """A result in the order of the table: its modules, if it has a crate's, or the functions of a
    type by topic."""
    crate, file = result.split("/", 1)
    items = list(parts(tokens, 0))
    if file == "mod.rs":
        place = {name: at for at, name in enumerate(FIRST.get(crate, []))}
        is_module = [[token.text for token in it[-3:-2]] == ["mod"] for it in items]
        modules = iter(
            sorted(
                (it for it, module in zip(items, is_module) if module),
                key=lambda it: place.get(it[-2].text, len(place)),
            )
        )
        return [
            token
            for it, module in zip(items, is_module)
            for token in (next(modules) if module else it)
        ]
    for of in (of for name, of in TOPICS if name == result):
        blocks = collections.defaultdict(list)
        for item in items:
            words = [it.text for it in item]
            head = words[: words.index("{")] if "impl" in words[:1] else []
            if of in head and "for" not in head:
                blocks[tuple(head)].append(item)
        for head, same in blocks.items():
            members = []
            for item in same:
                for it in parts(item, len(head) + 1):
                    # The value of a constant may have braces, and ends by a part of its own.
                    members[-1:] = (
                        [[*members[-1], *it]] if it[0].text == ";" else [*members[-1:], it]
                    )
            named = {
                next(
                    it[at + 1].text
                    for at, token in enumerate(it)
                    if token.text == "fn" or token.text == "const" and it[at + 1].text != "fn"
                ): it
                for it in members
            }
            listed = [
                [named.pop(name) for name in names if name in named] for names in TOPICS[result, of]
            ]
            first = same[0]
            new = [
                [*first[: len(head) + 1], *(token for it in group for token in it), first[-1]]
                for group in [*listed, list(named.values())]
                if group
            ]
            at = next(at for at, item in enumerate(items) if item is first)
            items = [
                *items[:at],
                *new,
                *(item for item in items[at:] if all(item is not it for it in same)),
            ]
    return [token for item in items for token in item]


# A whole repository.


def erase(top, crates):
    """Each file of these crates as plain Rust: its tokens, by the path of its result; and what
    there was in all."""
    if f'edition = "{EDITION}"' not in (top / PACKAGE).read_text():
        raise Refused(
            f"{PACKAGE}: no edition {EDITION}: an earlier one drops the values of a condition later than the kit does"
        )
    lines = [
        it.partition("#")[0].replace(":", " ").split()
        for it in (top / "crates.txt").read_text().splitlines()
    ]
    unit = Unit(
        set(crates),
        {it for line in lines for it in line}
        | {it.split("::")[0] for it in PATHS}
        | {"core", "alloc"},
    )
    files = []
    for folder in (top / SOURCES / it / "src" for it in crates):
        for path in sorted(folder.rglob("*.rt")):
            inside = str(path.relative_to(folder)).removesuffix(".rt")
            if inside == "main":
                raise Refused(f"{path}: a program")
            result = f"{folder.parent.name}/{'mod' if inside == 'lib' else inside}.rs"
            files.append((Text(path.read_text(), str(path.relative_to(top))), result))
    firsts = [Reader(text, result, unit).file() for text, result in files]
    empty = [
        it for it in firsts if not it.out and any(note[:2] == ("fact", "ghost") for note in it.log)
    ]
    unit.learn(
        [note for it in firsts for note in it.log] + [("fact", "empty", it.result) for it in empty]
    )
    readers = [
        Reader(text, result, unit, first).file() for (text, result), first in zip(files, firsts)
    ]
    notes = [note for it in readers for note in it.log]
    check(notes)
    made = {
        result: (text.name, arranged(result, it.out))
        for (text, result), it in zip(files, readers)
        if not it.knows("empty", it.result)
    }
    others = {it for it in LEFT_OUT if (top / RESULTS / it).is_dir()}
    there = [it for it in MODULES if it in {*crates, *others}]
    modules = "".join(
        f'{FEATURE * (it in others)} {LINTS} #[path = "{it}/mod.rs"] mod {MODULES[it]};'
        for it in there
    )
    counts = collections.Counter(name for kind, name, _ in notes if kind == "count")
    return made | {LIST: ("crates.txt", Text(modules, "").tokens())}, counts


def difference(made, result, text):
    """Where a result isn't what was made of its source, or none."""
    name, mine = made.get(result, ("no source", []))
    try:
        theirs = text.tokens()
    except Refused as refused:
        return str(refused)
    at = next(
        (at for at, (m, t) in enumerate(zip(mine, theirs)) if m.text != t.text),
        min(len(mine), len(theirs)),
    )
    if at == len(mine) == len(theirs):
        return None
    own, other = (
        f"{it}:{tokens[min(at, len(tokens) - 1)].line if tokens else 0}"
        for it, tokens in ((name, mine), (text.name, theirs))
    )
    own_words, words = (
        " ".join(it.text for it in tokens[max(at - 8, 0) : at + 12]) for tokens in (mine, theirs)
    )
    return f"{other}: not what {own} says\n  the second eraser: {own_words}\n  the first eraser:  {words}"


def compare(top):
    """All differences of a repository, and what there was to compare."""
    results = {
        str(it.relative_to(top / RESULTS)): Text(it.read_text(), str(it.relative_to(top)))
        for it in (top / RESULTS).rglob("*.rs")
    }
    results = {it: text for it, text in results.items() if it.split("/")[0] not in LEFT_OUT}
    made, counts = erase(top, sorted({it.split("/")[0] for it in results if "/" in it}))
    found = [f"{it}: no result" for it in sorted(made.keys() - results.keys())]
    found += [
        it
        for it in (difference(made, result, text) for result, text in sorted(results.items()))
        if it
    ]
    return found, made, results, counts


def mutated(text, tokens, random):
    """A result with one token changed: dropped, doubled, or replaced by another one of its kind in
    the file."""
    token = random.choice(tokens)
    others = sorted({it.text for it in tokens if it.kind == token.kind} - {token.text})
    new = random.choice(["", f"{token.text} {token.text}"] + [random.choice(others or [""])] * 4)
    return token, new, Text(f"{text.text[: token.start]} {new} {text.text[token.end :]}", text.name)


def mutate(made, results, count, seed):
    """How many changed tokens the comparison finds, of `count` that change the tokens of a
    result."""
    source, names, tokens = (
        random.Random(seed),
        sorted(results),
        {it: text.tokens() for it, text in results.items()},
    )
    weights, done = [len(tokens[it]) for it in names], 0
    while done < count:
        name = source.choices(names, weights)[0]
        token, new, changed = mutated(results[name], tokens[name], source)
        if difference(made, name, changed):
            done += 1
        elif [it.text for it in changed.tokens()] != [it.text for it in tokens[name]]:
            sys.exit(
                f"{results[name].name}:{token.line}: {token.text!r} became {new!r}, which wasn't found (seed {seed})"
            )
    print(f"{count} changed tokens of the results, with seed {seed}: all were found")


def report(made, counts, reasons):
    """What differs: how often each class occurs, and the reason why it keeps the meaning."""
    ghost = ", ".join(f"{counts[it]} {it[1:-1]}" for it in sorted(counts) if it[0] == "(")
    tokens = sum(len(it) for _, it in made.values())
    lines = [f"{counts[it]:5} {it}: {why}\n" for it, why in reasons.items() if counts[it]]
    return f"two erasers agree on {len(made)} files, {tokens} tokens, without {ghost}; what differs:\n{''.join(lines)}"


def main():
    parser = argparse.ArgumentParser(
        description=__doc__, formatter_class=argparse.RawDescriptionHelpFormatter
    )
    for option, usual in (("--mutate", 0), ("--seed", 1)):
        parser.add_argument(option, type=int, default=usual)
    parser.add_argument("--fit", action="store_true")
    given, top = parser.parse_args(), TOP
    try:
        found, made, results, counts = compare(top)
    except Refused as refused:
        sys.exit(f"the second eraser refuses {refused}")
    block = (top / PAGE).read_text()
    reasons = dict(re.findall(r"^ *\d+ (.+?): (.+)$", block, re.MULTILINE))
    found += [
        f"{PAGE}: no reason for the class {it}"
        for it in counts.keys() - reasons.keys()
        if it[0] != "("
    ]
    if found:
        sys.exit("\n".join(found))
    now = report(made, counts, reasons)
    (top / PAGE).write_text(now) if given.fit else None
    if now != block and not given.fit:
        sys.exit(f"{PAGE} has other counts or classes than\n{now}")
    print(now, end="")
    mutate(made, results, given.mutate, given.seed) if given.mutate else None


sys.setrecursionlimit(20_000)
if __name__ == "__main__":
    main()
