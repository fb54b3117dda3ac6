"""Integer expressions, each with the least and the greatest value that it can have."""

import random

# The integer types that the sources compute with.
BITS = {"u8": 8, "u16": 16, "u32": 32, "u64": 64, "usize": 64, "i64": 64}


def least(type_of):
    return 0 if type_of[0] == "u" else -(1 << (BITS[type_of] - 1))


def largest(type_of):
    return (1 << BITS[type_of]) - 1 if type_of[0] == "u" else (1 << (BITS[type_of] - 1)) - 1


class Value:
    """An integer expression: its text, its type, and the range that its value is in."""

    def __init__(self, text, type_of, low, high):
        self.text, self.type, self.low, self.high = text, type_of, low, high

    def fits(self, type_of):
        return least(type_of) <= self.low and self.high <= largest(type_of)


class Expressions:
    """Draws integer expressions, and keeps what is known of the variables of the program that it
    writes."""

    def __init__(self, number, seed):
        self.number, self.random = number, random.Random(f"{seed}/{number}")
        self.items, self.lines, self.depth, self.names = [], [], 1, 0
        self.scopes, self.may_trace = [[]], True

    # Names and lines.

    def pick(self, *of):
        return self.random.choice(of)

    def chance(self, percent):
        return self.random.randrange(100) < percent

    def name(self, stem="v"):
        self.names += 1
        return f"{stem}{self.names}"

    def say(self, line):
        self.lines.append("    " * self.depth + line)

    def block(self, head, body, tail="}"):
        """A block in a scope of its own."""
        self.say(head)
        self.depth += 1
        self.scopes.append([])
        body()
        self.scopes.pop()
        self.depth -= 1
        self.say(tail)

    def keep(self, name, type_of, low, high, is_mutable=False):
        self.scopes[-1].append((name, type_of, low, high, is_mutable))

    def kept(self, is_mutable=None, type_of=None):
        """The variables that can be read: of each name the last one."""
        found = {name: (name, *rest) for scope in self.scopes for name, *rest in scope}
        return [
            it
            for it in found.values()
            if (is_mutable is None or it[4] == is_mutable) and type_of in (None, it[1])
        ]

    def new_or_hidden(self):
        """A new name, or that of a variable that the new one hides."""
        names = [it[0] for it in self.kept(False) if it[0][0] in "vko"]
        return self.pick(*names) if names and self.chance(30) else self.name()

    # Integer expressions.

    def literal(self, type_of, low=None, high=None):
        low, high = (
            least(type_of) if low is None else low,
            largest(type_of) if high is None else high,
        )
        edge = [
            it
            for it in (0, 1, 2, 3, 7, 10, 127, 128, 255, low, high, high - 1)
            if low <= it <= high
        ]
        value = self.pick(*edge) if self.chance(60) else self.random.randint(low, high)
        if value == least(type_of) and value < 0:
            return Value(f"(-{-(value + 1)}{type_of} - 1)", type_of, value, value)
        return Value(
            f"(-{-value}{type_of})" if value < 0 else f"{value}{type_of}", type_of, value, value
        )

    def value(self, type_of=None, depth=3):
        type_of = type_of or self.pick(*BITS)
        variables = self.kept(type_of=type_of)
        if depth == 0 or self.chance(12):
            if variables and self.chance(75):
                name, _, low, high, _ = self.pick(*variables)
                return Value(name, type_of, low, high)
            return self.literal(type_of)
        kinds = [
            self.sum,
            self.sum,
            self.product,
            self.quotient,
            self.bits,
            self.shift,
            self.negated,
            self.cast,
            self.cast,
            self.method,
        ]
        kinds += [
            self.choice,
            self.matched,
            self.nested,
            self.noted,
            self.tuple_field,
            self.fallback,
        ]
        found = self.pick(*kinds)(type_of, depth - 1)
        return found if found and found.fits(type_of) else self.literal(type_of)

    def small(self, type_of, high, depth=1):
        """A value from 0 up to `high`."""
        value = self.value(type_of, depth)
        if 0 <= value.low and value.high <= high:
            return value
        if value.low >= 0:
            if (high + 1) & high == 0 and self.chance(40):
                return Value(f"({value.text} & {high}{type_of})", type_of, 0, high)
            return Value(f"({value.text} % {high + 1}{type_of})", type_of, 0, high)
        return Value(f"{value.text}.max(0{type_of}).min({high}{type_of})", type_of, 0, high)

    def sum(self, type_of, depth):
        a, b = self.value(type_of, depth), self.value(type_of, depth)
        sign = self.pick("+", "-")
        low, high = (
            (a.low + b.low, a.high + b.high) if sign == "+" else (a.low - b.high, a.high - b.low)
        )
        if least(type_of) <= low and high <= largest(type_of):
            return Value(f"({a.text} {sign} {b.text})", type_of, low, high)
        word = "add" if sign == "+" else "sub"
        low, high = (min(max(it, least(type_of)), largest(type_of)) for it in (low, high))
        if self.chance(60):
            return Value(f"{a.text}.saturating_{word}({b.text})", type_of, low, high)
        c = self.literal(type_of)
        return Value(
            f"{a.text}.checked_{word}({b.text}).unwrap_or({c.text})",
            type_of,
            min(low, c.low),
            max(high, c.high),
        )

    def product(self, type_of, depth):
        a = self.value(type_of, depth)
        b = self.value(type_of, depth) if self.chance(50) else self.literal(type_of, 0, 9)
        ends = [x * y for x in (a.low, a.high) for y in (b.low, b.high)]
        if least(type_of) <= min(ends) and max(ends) <= largest(type_of):
            return Value(f"({a.text} * {b.text})", type_of, min(ends), max(ends))
        low, high = (
            min(max(it, least(type_of)), largest(type_of)) for it in (min(ends), max(ends))
        )
        return Value(f"{a.text}.saturating_mul({b.text})", type_of, low, high)

    def quotient(self, type_of, depth):
        a, by = self.value(type_of, depth), self.literal(type_of, 1, min(largest(type_of), 50))
        if type_of[0] == "i" and self.chance(40):
            by = self.literal(type_of, -30, -2)
        elif self.chance(30):
            b = self.small(type_of, 20, depth)
            by = Value(f"({b.text} + 1{type_of})", type_of, 1, 21)
        if self.chance(50):
            size = max(abs(by.low), abs(by.high)) - 1
            return Value(
                f"({a.text} % {by.text})",
                type_of,
                max(a.low, -size) if a.low < 0 else 0,
                min(a.high, size) if a.high > 0 else 0,
            )
        size = max(abs(a.low), abs(a.high))
        return Value(
            f"({a.text} / {by.text})",
            type_of,
            max(-size, least(type_of)) if type_of[0] == "i" else 0,
            min(size, largest(type_of)),
        )

    def bits(self, type_of, depth):
        a, b, sign = (
            self.value(type_of, depth),
            self.value(type_of, depth),
            self.pick("&", "|", "^"),
        )
        size = max(abs(it) for it in (a.low, a.high, b.low, b.high, 1)).bit_length()
        low = 0 if min(a.low, b.low) >= 0 else max(-(1 << size), least(type_of))
        return Value(
            f"({a.text} {sign} {b.text})", type_of, low, min((1 << size) - 1, largest(type_of))
        )

    def shift(self, type_of, depth):
        a = self.value(type_of, depth)
        by = (
            self.small("u32", BITS[type_of] - 1, depth)
            if self.chance(40)
            else self.literal("u32", 0, BITS[type_of] - 1)
        )
        if self.chance(50):
            ends = [it >> places for it in (a.low, a.high) for places in (by.low, by.high)]
            return Value(f"({a.text} >> {by.text})", type_of, min(ends), max(ends))
        return Value(f"({a.text} << {by.text})", type_of, least(type_of), largest(type_of))

    def negated(self, type_of, depth):
        a = self.value(type_of, depth)
        if type_of[0] == "i" and a.low > least(type_of) and self.chance(60):
            return Value(f"(-{a.text})", type_of, -a.high, -a.low)
        top = -1 if type_of[0] == "i" else largest(type_of)
        return Value(f"(!{a.text})", type_of, top - a.high, top - a.low)

    def cast(self, type_of, depth):
        a = self.value(None, depth)
        if a.type != type_of and a.fits(type_of):
            wider = (
                BITS[a.type] < BITS[type_of]
                and (a.type[0] == type_of[0] or a.type[0] == "u")
                and "size" not in a.type + type_of
            )
            if wider and self.chance(40):
                return Value(f"{type_of}::from({a.text})", type_of, a.low, a.high)
            return Value(f"({a.text} as {type_of})", type_of, a.low, a.high)
        if a.type != type_of and a.low >= 0:
            high = min(largest(type_of), largest(a.type))
            return Value(f"(({a.text} & {high}{a.type}) as {type_of})", type_of, 0, high)
        return None

    def method(self, type_of, depth):
        a, b = self.value(type_of, depth), self.value(type_of, depth)
        if self.chance(50):
            return Value(f"{a.text}.min({b.text})", type_of, min(a.low, b.low), min(a.high, b.high))
        return Value(f"{a.text}.max({b.text})", type_of, max(a.low, b.low), max(a.high, b.high))

    def choice(self, type_of, depth):
        condition, a, b = (
            self.condition(depth),
            self.value(type_of, depth),
            self.value(type_of, depth),
        )
        return Value(
            f"(if {condition} {{ {a.text} }} else {{ {b.text} }})",
            type_of,
            min(a.low, b.low),
            max(a.high, b.high),
        )

    def matched(self, type_of, depth):
        """A match on a number, each arm of which some number reaches."""
        of, arms, results = self.value(None, depth), [], []
        at = max(least(of.type), -60)
        for _ in range(self.random.randint(1, 3)):
            at += self.random.randint(1, 20)
            end = at + self.random.randint(0, 12)
            if end >= largest(of.type):
                break
            low, high = (f"-{-it}" if it < 0 else f"{it}" for it in (at, end))
            bound = self.name("n")
            patterns = (
                [f"{low}..={high}", f"{low} | {high}", f"{bound} @ {low}..={high}"]
                if end > at
                else [low] * 3
            )
            pattern = self.pick(*patterns)
            self.scopes.append([])
            if "@" in pattern:
                self.keep(bound, of.type, at, end)
            guard = f" if {self.condition(depth)}" if self.chance(25) else ""
            results.append(self.value(type_of, depth))
            self.scopes.pop()
            arms.append(f"{pattern}{guard} => {results[-1].text}, ")
            at = end
        results.append(self.value(type_of, depth))
        text = f"(match {of.text} {{ {''.join(arms)}_ => {results[-1].text} }})"
        return Value(text, type_of, min(it.low for it in results), max(it.high for it in results))

    def nested(self, type_of, depth):
        """A block with a variable that may hide another one."""
        inner = self.value(None, depth)
        name = self.new_or_hidden()
        self.scopes.append([])
        self.keep(name, inner.type, inner.low, inner.high)
        result = self.value(type_of, depth)
        self.scopes.pop()
        return Value(
            f"({{ let {name} = {inner.text}; {result.text} }})", type_of, result.low, result.high
        )

    def noted(self, type_of, depth):
        """A number that is noted when it is evaluated. Its parts note nothing, since the trace is
        lent to one of them at a time."""
        if not self.may_trace:
            return None
        self.may_trace = False
        a = self.value(type_of, depth)
        self.may_trace = True
        if type_of[0] == "u":
            text = f"trace.note({a.text} as u64)" if type_of != "u64" else f"trace.note({a.text})"
            return Value(
                f"({text} as {type_of})" if type_of != "u64" else text, type_of, a.low, a.high
            )
        text = (
            f"trace.note_signed(i64::from({a.text}))"
            if type_of != "i64"
            else f"trace.note_signed({a.text})"
        )
        return Value(f"({text} as {type_of})" if type_of != "i64" else text, type_of, a.low, a.high)

    def tuple_field(self, type_of, depth):
        a, b = self.value(None, depth), self.value(type_of, depth)
        text = f"({a.text}, {b.text}).1" if self.chance(50) else f"({b.text}, {a.text}).0"
        return Value(text, type_of, b.low, b.high)

    def fallback(self, type_of, depth):
        """An option that is mapped, filtered and unwrapped."""
        a, b = self.value(type_of, depth), self.value(type_of, depth)
        bound = self.name("o")
        before, self.may_trace = self.may_trace, False
        self.scopes.append([])
        self.keep(bound, type_of, a.low, a.high)
        mapped = self.value(type_of, depth)
        self.scopes.pop()
        self.may_trace = before
        word = self.pick(
            f"map(|{bound}| {mapped.text})", f"and_then(|{bound}| Some({mapped.text}))"
        )
        text = f"Some({a.text}).{word}.unwrap_or({b.text})"
        return Value(text, type_of, min(mapped.low, b.low), max(mapped.high, b.high))

    def condition(self, depth=2):
        if depth > 0 and self.chance(35):
            sign = self.pick("&&", "||", "==", "!=")
            return f"({self.condition(depth - 1)} {sign} {self.condition(depth - 1)})"
        if self.chance(10):
            return f"(!{self.condition(max(depth - 1, 0))})"
        type_of = self.pick(*BITS)
        a, b = self.value(type_of, min(depth, 1)), self.value(type_of, min(depth, 1))
        return f"({a.text} {self.pick('<', '<=', '>', '>=', '==', '!=')} {b.text})"
