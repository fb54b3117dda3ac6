"""Statements: variables, assignments, branches, loops, and arrays."""

from expressions import BITS, Expressions, Value, largest, least


class Statements(Expressions):
    """Draws statements, and writes them."""

    def note(self, value):
        """Notes a value. The trace is lent to one of them at a time, so a value that notes
        something itself is evaluated first."""
        if "trace" in value.text:
            self.say(f"let noted = {value.text};")
            value = Value("noted", value.type, value.low, value.high)
        kind = "note_signed" if value.type[0] == "i" else "note"
        wide = value.text if value.type in ("u64", "i64") else f"{value.text} as {value.type[0]}64"
        self.say(f"trace.{kind}({wide});")

    def note_text(self, text, type_of="u64"):
        self.note(Value(f"({text})", type_of, 0, 0))

    def quiet(self, *of):
        """A value whose evaluation notes nothing."""
        before, self.may_trace = self.may_trace, False
        value = self.value(*of)
        self.may_trace = before
        return value

    def quiet_condition(self):
        before, self.may_trace = self.may_trace, False
        text = self.condition()
        self.may_trace = before
        return text

    def statements(self, count):
        for _ in range(count):
            kinds = [
                self.let,
                self.let,
                self.variable,
                self.assigned,
                self.assigned,
                self.assigned,
                self.noting,
            ]
            if self.depth < 4:
                kinds += [self.branch, self.counted, self.counted, self.repeated, self.array]
            self.pick(*kinds)()
        variables = self.kept()
        if variables:
            self.note(Value(*self.pick(*variables)[:4]))

    def let(self):
        value = self.value()
        name = self.new_or_hidden()
        self.say(f"let {name} = {value.text};")
        self.keep(name, value.type, value.low, value.high)

    def variable(self):
        """A variable that is assigned: it may have any value of its type."""
        value, name = self.value(), self.name("m")
        self.say(f"let mut {name} = {value.text};")
        self.keep(name, value.type, least(value.type), largest(value.type), True)

    def assigned(self):
        variables = self.kept(True)
        if not variables:
            return self.variable()
        name, type_of, *_ = self.pick(*variables)
        kind = self.random.randrange(7)
        if kind == 0:
            self.say(f"{name} = {self.value(type_of).text};")
        elif kind == 1:
            self.say(f"{name} {self.pick('^=', '|=', '&=')} {self.value(type_of).text};")
        elif kind == 2:
            self.say(f"{name} {self.pick('/=', '%=')} {self.literal(type_of, 2, 60).text};")
        elif kind == 3:
            self.say(
                f"{name} {self.pick('<<=', '>>=')} {self.small('u32', BITS[type_of] - 1).text};"
            )
        elif kind == 4:
            self.say(f"{name} %= 90{type_of};")
            self.say(f"{name} += {self.small(type_of, 30).text};")
        elif kind == 5:
            self.say(f"{name} /= 8{type_of};")
            self.say(f"{name} *= {self.literal(type_of, 2, 7).text};")
        else:
            self.say(
                f"{name} = {name}.saturating_{self.pick('add', 'sub')}({self.value(type_of).text});"
            )

    def noting(self):
        self.note(self.quiet())

    def branch(self):
        condition, other = self.condition(), self.chance(50)
        self.block(f"if {condition} {{", lambda: self.statements(2))
        if other:
            del self.lines[-1]
            self.block("} else {", lambda: self.statements(1))

    def counted(self):
        """A loop over a range of numbers, some of which it leaves out."""
        type_of, name = self.pick(*BITS), self.name("k")
        low = self.random.randint(max(least(type_of), -5), 9)
        high = low + self.random.randint(0, 5)
        first, last = self.literal(type_of, low, low).text, self.literal(type_of, high, high).text
        numbers = self.pick(
            f"{first}..{last}",
            f"{first}..={last}",
            f"({first}..{last}).rev()",
            f"({first}..={last}).rev()",
        )
        numbers = self.pick(
            numbers,
            numbers,
            f"({numbers}).take(3)",
            f"({numbers}).filter(|{name}| *{name} % 2 == 0)",
        )
        label = f"'{name}: " if self.chance(30) else ""

        def body():
            self.keep(name, type_of, low, high)
            self.note(Value(name, type_of, low, high))
            if self.chance(40):
                go_on = self.pick("continue", "break") + (f" '{name}" if label else "")
                self.say(f"if {self.quiet_condition()} {{ {go_on}; }}")
            self.statements(self.random.randint(1, 2))

        self.block(f"{label}for {name} in {numbers} {{", body)

    def repeated(self):
        """A loop that counts down, by `while` or with a value."""
        name, step = self.name("c"), self.random.randint(1, 3)
        self.say(f"let mut {name} = {self.random.randint(2, 8)}u8;")
        if self.chance(50):

            def body():
                self.say(f"{name} = {name}.saturating_sub({step});")
                self.note(Value(name, "u8", 0, 9))
                self.statements(1)

            return self.block(f"while {name} > 0 {{", body)
        given, type_of = self.name(), self.pick(*BITS)

        def body():
            self.say(f"if {name} < {step + 1} {{ break {self.quiet(type_of).text}; }}")
            self.say(f"{name} -= {step};")
            self.statements(1)

        self.block(f"let {given} = loop {{", body, "};")
        self.keep(given, type_of, least(type_of), largest(type_of))

    def array(self):
        """An array: its elements by index, the order in which a compound assignment reads, and
        parts of it."""
        type_of, name, size = self.pick(*BITS), self.name("a"), self.random.randint(3, 5)
        elements = ", ".join(self.value(type_of, 1).text for _ in range(size))
        self.say(f"let mut {name} = [{elements}];")
        index = f"(({self.value('u64', 1).text}) % {size}) as usize"
        self.say(f"{name}[{index}] {self.pick('^=', '|=', '=')} {self.value(type_of, 2).text};")
        kind = self.random.randrange(6)
        at, end = sorted(self.random.sample(range(size + 1), 2))
        if kind == 0:
            self.say(f"let [{name}x, .., {name}y] = {name};")
            self.note(Value(f"({name}x ^ {name}y)", type_of, 0, 0))
        elif kind == 1:
            part = self.pick(f"[{at}..{end}]", f"[{at}..]", f"[..{end}]", "[..]")
            self.block(
                f"for each in {name}{part}.iter() {{",
                lambda: self.note(Value("(*each)", type_of, 0, 0)),
            )
        elif kind == 2:
            said = f"at as u64 + u64::from(*each > {self.literal(type_of).text})"
            self.block(
                f"for (at, each) in {name}.iter().enumerate() {{", lambda: self.note_text(said)
            )
        elif kind == 3:
            self.say(f"let ({name}x, {name}y) = {name}.split_at({at});")
            self.note_text(f"({name}x.len() * 10 + {name}y.len()) as u64")
            said = (
                f"trace.note(tail.len() as u64 + u64::from(*head == {self.literal(type_of).text}));"
            )
            self.say(f"if let Some((head, tail)) = {name}y.split_first() {{ {said} }}")
        elif kind == 4:
            wanted = self.literal(type_of).text
            self.note_text(
                f"{name}.iter().position(|each| *each >= {wanted}).unwrap_or({size}) as u64"
            )
            self.note_text(
                f"u64::from({name}.iter().all(|each| *each < {wanted}) || {name}.iter().any(|each| *each == {wanted}))"
            )
            self.note_text(f"{name}.iter().filter(|each| **each != {wanted}).count() as u64")
        else:
            self.say(
                f"{name}[{at % size}] = {name}[{end % size}].max({name}[{self.random.randrange(size)}]);"
            )
            said = f"*each {self.pick('^=', '|=', '&=')} {self.quiet(type_of, 1).text};"
            self.block(f"for each in {name}.iter_mut() {{", lambda: self.say(said))
            self.block(f"for each in {name} {{", lambda: self.note(Value("each", type_of, 0, 0)))
