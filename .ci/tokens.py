#!/usr/bin/env python3
"""Compares the reader of JSON of the programs that cargo builds with Python's, on random and spoilt
texts.

    tokens.py [--texts N] [--seed N]

The tokens of each text have to be those that a scanner here finds with Python's `json` for strings,
numbers and words; and each value has to be the one that `json` reads, or both refuse it: nested at
most 127 deep, with numbers that a float holds, with no surrogate alone. A text that is cut at any
place has to be refused as one that ends too early, or to be a value. It runs at the top of the
repository.
"""

import argparse
import json
import math
import os
import pathlib
import random
import re
import struct
import subprocess
import sys
import tempfile

PACKAGE = pathlib.Path("rust/offline")
TESTS = "kit::programs::%s"
DEPTH = 127
BLANKS = " \t\n\r"
NUMBER = re.compile(r"-?(?:0|[1-9][0-9]*)(?:\.[0-9]+)?(?:[eE][-+]?[0-9]+)?")
WORDS = {"true": "true", "false": "false", "null": "null"}
LONE = re.compile("[\ud800-\udfff]")
# What spoils a text.
SPOILERS = '"\\{}[]:,0123456789-+.eEtrufalsn \n\tx\x01\x7fé€😀ud8DcC/b\u00a0\ufeff'


class Texts:
    """Random texts: values, and what becomes of them when they are spoilt."""

    def __init__(self, seed):
        self.random = random.Random(seed)

    def string(self):
        parts = [
            "a",
            "é",
            "€",
            "😀",
            "\u2028",
            "\x7f",
            "\\n",
            '\\"',
            "\\\\",
            "\\/",
            "\\u0041",
            "\\u00e9",
            "\\uD83D\\uDE00",
            "\\ud800\\udc00",
            "plain text",
            "\\u0000",
        ]
        rare = ["\\ud800", "\\udc00", "\\ud800\\u0041", "\\x", "\x01", "\\u12", "\\u12g4"]
        count = self.random.choice([0, 1, 1, 2, 3, 9])
        return (
            '"'
            + "".join(
                self.random.choice(rare if self.random.random() < 0.01 else parts)
                for _ in range(count)
            )
            + '"'
        )

    def number(self):
        pick = self.random
        edges = [
            "0",
            "-0",
            "-0.0",
            "0.0",
            "1e5",
            "1E+3",
            "2.5e-7",
            "18446744073709551615",
            "18446744073709551616",
            "-9223372036854775808",
        ]
        edges += [
            "-9223372036854775809",
            "9223372036854775807",
            "9223372036854775808",
            "1e308",
            "1e309",
            "-1e309",
            "5e-324",
            "1e-400",
            "1e22",
            "1e23",
        ]
        edges += [
            "1.7976931348623157e308",
            "1.7976931348623159e308",
            "2.2250738585072011e-308",
            "9007199254740993",
            "9007199254740993.0",
            "0." + "0" * 30 + "1",
        ]
        digits = lambda most: "".join(
            pick.choice("0123456789") for _ in range(pick.randrange(1, most))
        )
        made = pick.choice(["", "-"]) + pick.choice(["0", str(pick.randrange(1, 10)) + digits(20)])
        made += pick.choice(["", "." + digits(20)]) + pick.choice(
            ["", "", pick.choice("eE") + pick.choice(["", "+", "-"]) + digits(4)]
        )
        bits = struct.unpack("<d", pick.randbytes(8))[0]
        return pick.choice(
            [
                pick.choice(edges),
                made,
                repr(bits) if math.isfinite(bits) else "1",
                str(pick.randrange(-100, 100)),
            ]
        )

    def blanks(self):
        return self.random.choice([""] * 8 + [" ", "\n", "\t ", "\r\n"])

    def list_of(self, ends, items):
        between = [self.blanks() + "," + self.blanks() for _ in items]
        inner = (
            "".join(part for pair in zip(items, between) for part in pair)
            .rstrip(BLANKS)
            .removesuffix(",")
            if items
            else ""
        )
        return ends[0] + self.blanks() + inner + self.blanks() + ends[1]

    def value(self, depth):
        kind = self.random.randrange(7 if depth else 4)
        if kind < 2:
            return self.number() if kind else self.string()
        if kind < 4:
            return self.random.choice(["true", "false", "null", self.number()])
        count = self.random.randrange(4)
        if kind < 6:
            return self.list_of("[]", [self.value(depth - 1) for _ in range(count)])
        keys = [
            self.random.choice(['"a"', '"b"', '"\\u0061"', self.string()]) for _ in range(count)
        ]
        return self.list_of(
            "{}",
            [key + self.blanks() + ":" + self.blanks() + self.value(depth - 1) for key in keys],
        )

    def deep(self):
        depth = self.random.choice([1, 2, 126, 127, 128, 129, 400])
        kinds = [self.random.choice(["[", '{"a":']) for _ in range(depth)]
        ends = "".join("]" if kind == "[" else "}" for kind in reversed(kinds))
        inner = self.value(0) if kinds[-1] != "[" or self.random.random() < 0.5 else ""
        return (
            "".join(kinds)
            + inner
            + ends[: self.random.choice([depth, depth, self.random.randrange(depth + 1)])]
        )

    def spoilt(self, text):
        for _ in range(self.random.choice([1, 1, 1, 2, 3])):
            kind, at = self.random.randrange(6), self.random.randrange(len(text) + 1)
            spoiler = self.random.choice(SPOILERS)
            if kind < 2:
                text = text[:at]
            elif kind < 4:
                text = text[:at] + spoiler + text[at + kind - 2 :]
            elif kind < 5:
                text = text[:at] + text[at + 1 :]
            else:
                text = text[:at] + text[self.random.randrange(len(text) + 1) :]
        return text

    def text(self):
        text = (
            self.deep()
            if self.random.random() < 0.03
            else self.blanks() + self.value(3) + self.blanks()
        )
        return text if self.random.random() < 0.2 else self.spoilt(text)

    def spoilt_bytes(self, text):
        """The text, or in one of ten cases one that may be no UTF-8."""
        made = text.encode()
        if self.random.random() < 0.1:
            at = self.random.randrange(len(made) + 1)
            made = (
                made[:at]
                + self.random.choice(
                    [b"\x80", b"\xc3", b"\xed\xa0\x80", b"\xff", b"\xf0\x9f", b"\xc0\x80"]
                )
                + made[at:]
            )
        return made


def string_at(text, at):
    """The string whose quotation mark is there, and its end, or None."""
    try:
        found, end = json.decoder.py_scanstring(text, at + 1, True)
    except ValueError:
        return None
    # `json` takes a surrogate alone, and four letters with a sign or `_` among them.
    for unit in re.finditer(r"\\(?:u(.{4})|.)", text[at + 1 : end - 1], re.DOTALL):
        if unit[1] is not None and not re.fullmatch("[0-9a-fA-F]{4}", unit[1]):
            return None
    return None if LONE.search(found) else (found, end)


def tokens(text):
    """The tokens of a text, each as a pair, and at the first fault `bad`."""
    found, at, place = [], 0, "fresh"
    while True:
        while at < len(text) and text[at] in BLANKS:
            at += 1
        if at == len(text):
            return found + ([] if place in ("fresh", "after value") else ["bad"])
        letter, token = text[at], None
        if letter == ",":
            if place != "after value":
                return found + ["bad"]
            at, place = at + 1, "after comma"
            continue
        if letter in "]}":
            token, end, allowed = letter, at + 1, place in ("fresh", "after value")
        else:
            allowed = place in ("fresh", "after comma")
            if letter in "[{":
                token, end = letter, at + 1
            elif letter == '"':
                string = string_at(text, at)
                if string is not None:
                    token, end = ("string", string[0]), string[1]
            else:
                number = NUMBER.match(text, at)
                word = next((it for it in WORDS if text.startswith(it, at)), number and number[0])
                if word:
                    token, end = word, at + len(word)
                    if end < len(text) and text[end] not in BLANKS + "{}[]:,":
                        token = None
        if token is None or not allowed:
            return found + ["bad"]
        at = end
        if isinstance(token, tuple):
            rest = text[at:].lstrip(BLANKS)
            if rest.startswith(":"):
                at = len(text) - len(rest) + 1
                found.append(("key", token[1]))
                place = "fresh"
                continue
        found.append(token)
        place = "fresh" if token in ("[", "{") else "after value"


def told(token):
    """A token as the test of the package writes it."""
    if isinstance(token, tuple):
        return ("k" if token[0] == "key" else "s") + token[1].encode().hex()
    return token


class Refused(Exception):
    """A text that is no value."""


def value_of(made):
    """What the bytes read as."""
    try:
        text = made.decode()
        if text.startswith("\ufeff"):
            raise Refused("mark")
        value = json.loads(
            text,
            parse_int=number_of,
            parse_float=number_of,
            parse_constant=lambda it: refuse(it),
            strict=True,
        )
    except (ValueError, RecursionError) as fault:
        raise Refused(str(fault)) from fault
    if "bad" in tokens(text):
        raise Refused("a token")
    if depth_of(text) > DEPTH:
        raise Refused("depth")
    return value


def refuse(what):
    raise Refused(what)


def number_of(text):
    """A whole number that has its type stays one, and any other is a float."""
    if re.fullmatch("-?[0-9]+", text):
        number = int(text)
        if text != "-0" and -(2**63) <= number < 2**64:
            return number
    number = float(text)
    return number if math.isfinite(number) else refuse(text)


def depth_of(text):
    depth = deepest = 0
    for token in tokens(text):
        depth += {"[": 1, "{": 1, "]": -1, "}": -1}.get(token, 0) if isinstance(token, str) else 0
        deepest = max(deepest, depth)
    return deepest


def is_same(value, other):
    """Whether both are the same value, also of which kind a number is, and in the sign of 0."""
    if isinstance(value, dict) and isinstance(other, dict):
        return (
            value.keys() == other.keys()
            and list(other) == sorted(other, key=str.encode)
            and all(is_same(value[it], other[it]) for it in value)
        )
    if isinstance(value, list) and isinstance(other, list):
        return len(value) == len(other) and all(map(is_same, value, other))
    if isinstance(value, float) and isinstance(other, float):
        return struct.pack("<d", value) == struct.pack("<d", other)
    return type(value) is type(other) and value == other


def is_shortest(text):
    """Whether no number of a written value has more digits than it needs, by Python's shortest
    ones."""
    digits = lambda it: len(re.sub(r"[-+.]|[eE].*", "", it).strip("0"))
    floats = [
        it
        for it in tokens(text)
        if isinstance(it, str) and re.search("[.e]", it) and NUMBER.fullmatch(it)
    ]
    return all(digits(it) == digits(repr(float(it))) for it in floats)


def run_test(test, folder, texts):
    """What a test of the package says of each text."""
    (folder / "texts").write_bytes(b"\0".join(texts))
    command = [
        "cargo",
        "test",
        "--offline",
        "--quiet",
        "--features",
        "programs",
        "--lib",
        "--",
        "--ignored",
        "--exact",
        TESTS % test,
    ]
    names = {"TEXTS": str(folder / "texts"), "SAID": str(folder / "said")}
    ran = subprocess.run(
        command, cwd=PACKAGE, env={**os.environ, **names}, capture_output=True, text=True
    )
    if ran.returncode or "1 passed" not in ran.stdout:
        sys.exit(f"{test}: {ran.stdout}{ran.stderr}")
    return (folder / "said").read_bytes().split(b"\0")[:-1]


def compare_tokens(texts, said):
    for text, found in zip(texts, said, strict=True):
        wanted = " ".join(map(told, tokens(text)))
        if found.decode() != wanted:
            sys.exit(f"{text!r} has the tokens\n{found.decode()}\nand not\n{wanted}")


def compare_values(made, said):
    """How many are values."""
    values = 0
    for text, found in zip(made, said, strict=True):
        found = found.decode()
        is_fault = re.fullmatch(
            "(EOF while parsing|invalid JSON|number out of range) at line [0-9]+ column [0-9]+",
            found,
        )
        try:
            value = value_of(text)
        except Refused as why:
            if not is_fault:
                sys.exit(f"{text!r} is read as {found}, and Python refuses it: {why}")
            continue
        values += 1
        if is_fault or not is_same(value, value_of(found.encode())) or not is_shortest(found):
            sys.exit(f"{text!r} is read as {found}, and not as {value}")
    return values


def compare_cuts(wholes, folder):
    """Each beginning of a value is a value, or ends too early, or has a number out of range."""
    cuts = [whole[:end] for whole in wholes for end in range(len(whole))]
    for text, found in zip(
        cuts, run_test("serde_json::tests::values_of_a_file", folder, cuts), strict=True
    ):
        if found.startswith(b"invalid JSON"):
            sys.exit(f"{text!r}, the beginning of a value, is said to be {found.decode()}")
    return len(cuts)


def main():
    parser = argparse.ArgumentParser(description=__doc__.splitlines()[0])
    parser.add_argument("--texts", type=int, default=5000)
    parser.add_argument("--seed", type=int, default=1)
    given = parser.parse_args()
    source = Texts(given.seed)
    texts = [source.text().replace("\0", "") for _ in range(given.texts)]
    made = [source.spoilt_bytes(text) for text in texts]
    with tempfile.TemporaryDirectory() as name:
        folder = pathlib.Path(name)
        compare_tokens(
            texts, run_test("json::tests::tokens_of_a_file", folder, [it.encode() for it in texts])
        )
        said = run_test("serde_json::tests::values_of_a_file", folder, made)
        values = compare_values(made, said)
        wholes = [
            text
            for text, found in zip(made, said)
            if found[:1] in b'[{"-0123456789tfn' and b"at line" not in found
        ]
        cuts = compare_cuts(wholes[: given.texts // 20], folder)
    print(
        f"tokens: of {given.texts} texts of seed {given.seed} {values} are values; tokens and values are Python's; {cuts} beginnings end too early"
    )


if __name__ == "__main__":
    main()
