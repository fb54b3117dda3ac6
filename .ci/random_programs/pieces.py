"""Programs: statements, and pieces that have items of their own."""

from expressions import BITS, Value, largest, least
from statements import Statements

TRACE = """//! Random programs.

use std::alloc::{AllocError, Global};
use std::mem;
use std::sync::Arc;

/// What the programs note, each a sign and a size.
#[derive(Drop)]
pub struct Trace {
    notes: Vec<(bool, u64)>,
}

impl Trace {
    pub fn new(alloc: Global) -> Result<Trace, AllocError> {
        let notes = Vec::with_capacity(alloc, 60_000)?;
        Ok(Trace { notes })
    }

    pub fn notes(&self) -> &[(bool, u64)] {
        self.notes.as_slice()
    }

    pub fn begin(&mut self, program: u64) {
        self.notes.push_reserved((true, 1_000_000_000_000_000_000 + program));
    }

    fn note(&mut self, number: u64) -> u64 {
        if self.notes.len() < 60_000 {
            self.notes.push_reserved((false, number));
        }
        number
    }

    fn note_signed(&mut self, number: i64) -> i64 {
        if self.notes.len() < 60_000 {
            let is_negative = number < 0;
            let size = if is_negative { (-(number + 1)) as u64 } else { number as u64 };
            self.notes.push_reserved((is_negative, size));
        }
        number
    }
}
"""


class Program(Statements):
    """Draws one program. Its items have its number in their names."""

    def item(self, *lines):
        self.items.append("\n".join(lines))

    def function(self, head, body, given=""):
        """A function that knows nothing else of the program."""
        saved = self.lines, self.depth, self.scopes
        self.lines, self.depth, self.scopes = [head + " {"], 1, [[]]
        body()
        self.lines += ([f"    {given}"] if given else []) + ["}"]
        self.item(*self.lines)
        self.lines, self.depth, self.scopes = saved

    def an_enum(self):
        """An enum with all kinds of variants, and matches on it."""
        name, a, b, c = (
            f"Shape{self.number}x{self.names}",
            self.pick(*BITS),
            self.pick(*BITS),
            self.pick(*BITS),
        )
        self.names += 1
        self.item(
            "#[derive(Clone, Copy, Debug, PartialEq, Eq)]",
            f"enum {name} {{",
            "    Dot,",
            f"    Line({a}),",
            f"    Pair({b}, {c}),",
            f"    Fall {{ at: {a}, by: {c} }},",
            "}",
        )
        given, look = self.pick(*BITS), f"look{self.number}x{self.names}"

        def body():
            self.keep("all_of", "u8", 0, 255)
            self.say("match shape {")
            some = self.pick("3", "0", "7 | 9", "1..=6")
            for pattern, bound, guarded in (
                ("Dot", {}, False),
                ("Line(x)", {"x": a}, True),
                (f"Line({some})", {}, False),
                (f"Line(x) | {name}::Fall {{ at: x, .. }}", {"x": a}, False),
                ("Pair(y, _)", {"y": b}, False),
            ):
                self.scopes.append(
                    [(it, of, least(of), largest(of), False) for it, of in bound.items()]
                )
                guard = f" if {self.condition(1)}" if guarded else ""
                self.say(f"    {name}::{pattern}{guard} => {self.value(given, 2).text},")
                self.scopes.pop()
            self.say("}")

        self.function(f"fn {look}(shape: {name}, all_of: u8, trace: &mut Trace) -> {given}", body)
        made = [
            f"{name}::Dot",
            f"{name}::Line({self.quiet(a, 1).text})",
            f"{name}::Pair({self.quiet(b, 1).text}, {self.quiet(c, 1).text})",
        ]
        made += [
            f"{name}::Fall {{ by: {self.quiet(c, 1).text}, at: {self.quiet(a, 1).text} }}",
            f"{name}::Line(3)",
        ]
        for shape in self.random.sample(made, 4):
            found = self.name()
            self.say(f"let {found} = {look}({shape}, {self.quiet('u8', 1).text}, trace);")
            self.note(Value(found, given, 0, 0))
            self.keep(found, given, least(given), largest(given))
        is_one = f"matches!({self.pick(*made)}, {name}::Fall {{ .. }} | {name}::Line(3))"
        self.note_text(f"u64::from({is_one} || {self.pick(*made)} == {self.pick(*made)})")

    def a_trait(self):
        """A trait with a constant and a default, two types that implement it, and a function that
        takes any of them."""
        trait, given = f"Weigh{self.number}x{self.names}", self.pick(*BITS)
        one, two, by = (
            f"One{self.number}x{self.names}",
            f"Two{self.number}x{self.names}",
            f"weigh{self.number}x{self.names}",
        )
        self.names += 1
        method, default = f"weight{self.number}x{self.names}", f"double{self.number}x{self.names}"
        self.item(
            f"trait {trait} {{",
            f"    const K: {given};",
            "",
            f"    fn {method}(&self) -> {given};",
            "",
            f"    fn {default}(&self) -> {given} {{",
            f"        (self.{method}() ^ Self::K).saturating_add(Self::K)",
            "    }",
            "}",
        )
        inner = self.pick(*BITS)
        self.item(
            "#[derive(Clone, Copy, Debug, PartialEq, Eq)]",
            f"struct {one}({inner});",
        )
        self.item(
            "#[derive(Clone, Copy, Debug, PartialEq, Eq)]",
            f"struct {two}<T> {{",
            "    first: T,",
            f"    second: {inner},",
            "}",
        )
        saved, scopes = self.may_trace, self.scopes
        self.may_trace, self.scopes = False, [
            [("self.0", inner, least(inner), largest(inner), False)]
        ]
        self.item(
            f"impl {trait} for {one} {{",
            f"    const K: {given} = {self.literal(given).text};",
            "",
            f"    fn {method}(&self) -> {given} {{",
            f"        {self.value(given).text}",
            "    }",
            "}",
        )
        self.scopes = [
            [
                (it, of, least(of), largest(of), False)
                for it, of in (("self.second", inner), ("inner", given))
            ]
        ]
        own = ""
        if self.chance(50):
            own = f"\n    fn {default}(&self) -> {given} {{\n        let inner = self.first.{default}();\n        {self.value(given).text}\n    }}\n"
        self.item(
            f"impl<T: {trait}> {trait} for {two}<T> {{",
            f"    const K: {given} = {self.literal(given).text};",
            "",
            f"    fn {method}(&self) -> {given} {{",
            f"        let inner = self.first.{method}() | T::K;",
            f"        {self.value(given).text}",
            "    }",
            f"{own}}}",
        )
        self.may_trace, self.scopes = saved, scopes
        kind = "note_signed" if given[0] == "i" else "note"
        self.item(
            f"fn {by}<T: {trait}>(one: &T, trace: &mut Trace) -> {given} {{",
            f"    trace.{kind}(one.{method}() as {given[0]}64);",
            f"    one.{default}() ^ T::K",
            "}",
        )
        value = self.name("t")
        self.say(f"let {value} = {one}({self.value(inner, 2).text});")
        self.say(f"let {value}x = {two} {{ second: {self.value(inner, 2).text}, first: {value} }};")
        self.say(f"let {value}y = {two} {{ first: {value}x, second: {value}x.second }};")
        for it in ("", "x", "y"):
            self.say(f"let {value}{it}w = {by}(&{value}{it}, trace);")
            self.note(Value(f"{value}{it}w", given, 0, 0))

    def an_early_return(self):
        """A function that ends early, by `?`, `return` or `let .. else`."""
        type_of, name, is_result = (
            self.pick(*BITS),
            f"early{self.number}x{self.names}",
            self.chance(50),
        )
        self.names += 1
        wrap, none = ("Ok", "Err(all_of)") if is_result else ("Some", "None")

        def body():
            self.keep("all_of", "u8", 0, 255)
            self.say("let first = given?;")
            self.keep("first", type_of, least(type_of), largest(type_of))
            self.statements(1)
            self.say(f"if {self.quiet_condition()} {{ return {none}; }}")
            self.say(
                f"let Some(second) = first.checked_{self.pick('add', 'sub')}({self.quiet(type_of, 1).text}) else {{"
            )
            self.say(f"    trace.note({self.random.randrange(100)});")
            self.say(f"    return {wrap}(first);")
            self.say("};")
            self.keep("second", type_of, least(type_of), largest(type_of))
            self.statements(1)

        of = f"Result<{type_of}, u8>" if is_result else f"Option<{type_of}>"
        self.function(
            f"fn {name}(given: {of}, all_of: u8, trace: &mut Trace) -> {of}",
            body,
            f"{wrap}(second)",
        )
        for _ in range(3):
            given = self.pick(
                f"{wrap}({self.quiet(type_of, 2).text})",
                f"{wrap}({self.quiet(type_of, 1).text})",
                none.replace("all_of", "7u8"),
            )
            self.say(f"match {name}({given}, {self.quiet('u8', 1).text}, trace) {{")
            kind = "note_signed(last as i64)" if type_of[0] == "i" else "note(last as u64)"
            self.say(f"    {wrap}(last) => {{ trace.{kind}; }}")
            self.say(
                "    Err(why) => { trace.note(u64::from(why)); }"
                if is_result
                else "    None => { trace.note(1000); }"
            )
            self.say("}")

    def a_closure(self):
        """Closures that read, and one that counts."""
        a, given, name = self.pick(*BITS), self.pick(*BITS), self.name("g")
        self.scopes.append([])
        self.keep("x", a, least(a), largest(a))
        body = self.quiet(given, 2)
        self.scopes.pop()
        move = self.pick("", "", "move ")
        self.say(f"let {name} = {move}|x: {a}| {body.text};")
        self.say(
            f"let {name}x = {name}({self.value(a, 2).text}) ^ {name}({self.value(a, 1).text});"
        )
        self.note(Value(f"{name}x", given, 0, 0))
        self.say(f"let mut {name}n = {self.literal('u8').text};")
        self.say(
            f"let mut {name}c = |by: u8| {{ {name}n = {name}n.saturating_{self.pick('add', 'sub')}(by); {name}n ^ by }};"
        )
        self.say(f"let {name}y = {name}c({self.quiet('u8', 1).text});")
        self.say(f"let {name}z = {name}c({name}y);")
        self.note_text(f"u64::from({name}y) * 1000 + u64::from({name}z) + u64::from({name}n)")
        applied = f"apply{self.number}x{self.names}"
        self.names += 1
        self.item(
            f"fn {applied}<F: Fn({a}) -> {given}>(f: &F, x: {a}) -> {given} {{",
            f"    f(x) ^ f({self.literal(a).text})",
            "}",
        )
        self.say(f"let {name}w = {applied}(&{name}, {self.value(a, 1).text});")
        self.note(Value(f"{name}w", given, 0, 0))

    def a_list(self):
        """A list that grows and shrinks."""
        type_of, name = self.pick(*BITS), self.name("l")
        self.say(f"let mut {name} = Vec::new(alloc);")
        for _ in range(self.random.randint(3, 5)):
            self.say(f"if {name}.push({self.value(type_of, 1).text}).is_err() {{ return; }}")
        for kind in self.random.sample(range(6), 3):
            if kind == 0:
                self.say(f"if let Some(last) = {name}.pop() {{")
                self.depth += 1
                self.note(Value("last", type_of, 0, 0))
                self.depth -= 1
                self.say("}")
            elif kind == 1:
                self.say(
                    f"{name}.retain(|each| *each {self.pick('<', '>=', '!=')} {self.literal(type_of).text});"
                )
            elif kind == 2:
                self.say(
                    f"if {name}.insert({name}.len() / 2, {self.quiet(type_of, 1).text}).is_err() {{ return; }}"
                )
            elif kind == 3:
                self.say(
                    f"if {name}.len() > 1 {{ {name}.{self.pick('remove(1)', 'swap_remove(0)', 'truncate(1)')}; }}"
                )
            elif kind == 4:
                self.say(f"{name}.sort_unstable();")
            else:
                stop = f"if last {self.pick('<', '>')} {self.literal(type_of).text} {{ break; }}"
                self.block(
                    f"while let Some(last) = {name}.pop() {{",
                    lambda: (self.note(Value("last", type_of, 0, 0)), self.say(stop)),
                )
        self.note_text(f"{name}.len() as u64")
        self.block(f"for each in {name} {{", lambda: self.note(Value("each", type_of, 0, 0)))

    def a_shared_value(self):
        """Values with several owners. Whether an owner is the last one shows which others were
        dropped before."""
        name, looks = self.name("s"), f"looks{self.number}x{self.names}"
        self.names += 1
        self.item(
            f"fn {looks}(one: &Arc<u8, Global>, at: u8) -> Option<u8> {{",
            "    if **one > at { Some(**one - at) } else { None }",
            "}",
        )
        self.say(
            f"let Ok({name}) = Arc::new(alloc, {self.quiet('u8', 1).text}) else {{ return; }};"
        )
        self.say(f"let Ok({name}y) = Arc::try_clone(&{name}) else {{ return; }};")
        kind, at = self.random.randrange(6), self.literal("u8", 0, 100).text
        if kind == 0:
            self.block("{", lambda: self.say(f"let _kept = {name}y;"))
        elif kind == 1:
            self.say(f"let _ = &{name}y;")
        elif kind == 2:
            self.say(f"let {name}z = ({name}y, {self.quiet('u16', 1).text});")
            self.say(f"let (_, {name}n) = {name}z;")
            self.note(Value(f"{name}n", "u16", 0, 0))
        elif kind == 3:
            self.say(f"let {name}y = {looks}(&{name}y, {at});")
            self.note_text(f"u64::from({name}y.is_some())")
        elif kind == 4:
            self.say(f"let {name}v = Some({name}y);")
            first = f"Some(_) if {self.quiet_condition()} => {{ trace.note(1); }}"
            self.say(
                f"match {name}v {{ {first} Some(_inner) => {{ trace.note(2); }} None => {{ trace.note(3); }} }}"
            )
        else:
            self.say(f"let mut {name}v = Some({name}y);")
            self.say(f"let {name}o = mem::replace(&mut {name}v, None);")
            self.note_text(f"u64::from({name}o.is_some()) + u64::from({name}v.is_some()) * 2")
        form = self.random.randrange(3)
        if form == 0:
            self.say(
                f"if let Ok({name}c) = Arc::try_clone(&{name}) {{ trace.note(u64::from(*{name}c)); }}"
            )
        elif form == 1:
            self.say(
                f"let {name}k = {{ let Ok(inner) = Arc::try_clone(&{name}) else {{ return; }}; {looks}(&inner, {at}) }};"
            )
            self.note_text(f"u64::from({name}k.unwrap_or(9))")
        self.note_text(f"u64::from(Arc::try_unwrap({name}).is_ok())")

    def numbers(self):
        """An iterator of its own, and chains over it."""
        type_of, name = (
            self.pick("u8", "u16", "u32", "u64", "usize"),
            f"Steps{self.number}x{self.names}",
        )
        self.names += 1
        self.item(
            "#[derive(Drop)]",
            f"struct {name} {{",
            f"    left: {type_of},",
            f"    by: {type_of},",
            "}",
        )
        self.item(
            f"impl Iterator for {name} {{",
            f"    type Item = {type_of};",
            "",
            f"    fn next(&mut self) -> Option<{type_of}> {{",
            "        let next = self.left.checked_sub(self.by)?;",
            "        self.left = next;",
            "        Some(next)",
            "    }",
            "}",
        )
        made = (
            lambda: f"({name} {{ left: {self.small(type_of, 40).text}, by: {self.random.randint(3, 9)} }})"
        )
        chains = [
            f".take({self.random.randint(1, 4)})",
            f".filter(|each| *each % {self.random.randint(2, 4)} != 1)",
        ]
        chains += [f".map(|each| each / 2 + {self.random.randint(0, 9)})"]
        chain = "".join(self.random.sample(chains, self.random.randint(1, 3)))
        self.block(
            f"for each in {made()}{chain} {{", lambda: self.note(Value("each", type_of, 0, 0))
        )
        self.note_text(f"{made()}{self.pick(*chains)}.count() as u64")
        said = "at as u64 * 10_000 + left as u64 * 100 + right as u64"
        self.block(
            f"for (at, (left, right)) in {made()}.zip({made()}).enumerate() {{",
            lambda: self.note_text(said),
        )

    def a_record(self):
        """A struct that a function changes, and comparisons."""
        name, change, a, b = (
            f"Row{self.number}x{self.names}",
            f"change{self.number}x{self.names}",
            self.pick(*BITS),
            self.pick(*BITS),
        )
        self.names += 1
        self.item(
            "#[derive(Clone, Copy, Debug, PartialEq, Eq)]",
            f"struct {name} {{",
            f"    a: {a},",
            f"    b: ({b}, {a}),",
            "}",
        )

        def body():
            self.keep("row.a", a, least(a), largest(a), True)
            self.keep("row.b.0", b, least(b), largest(b), True)
            self.keep("row.b.1", a, least(a), largest(a), True)
            self.statements(3)

        self.function(f"fn {change}(row: &mut {name}, trace: &mut Trace)", body)
        row = self.name("r")
        self.say(
            f"let mut {row} = {name} {{ b: ({self.value(b, 1).text}, {self.value(a, 1).text}), a: {self.value(a, 1).text} }};"
        )
        self.say(f"{change}(&mut {row}, trace);")
        self.say(f"let {row}o = {row};")
        self.say(f"{change}(&mut {row}, trace);")
        self.say(f"let {row}u = {name} {{ a: {self.quiet(a, 1).text}, ..{row}o }};")
        self.say(f"let {name} {{ a: {row}a, b: ({row}b, _) }} = {row};")
        self.note(Value(f"{row}a", a, 0, 0))
        self.note(Value(f"{row}b", b, 0, 0))
        self.note(Value(f"{row}u.b.1", a, 0, 0))
        self.note_text(
            f"u64::from({row}.a.cmp(&{row}o.a) == {row}o.a.cmp(&{row}u.a)) + if {row} == {row}o {{ 10 }} else {{ 20 }}"
        )

    def text(self):
        self.statements(2)
        pieces = [self.an_enum, self.a_trait, self.an_early_return, self.a_closure]
        pieces += [self.a_list, self.a_shared_value, self.numbers, self.a_record]
        for piece in self.random.sample(pieces, 2):
            piece()
            self.statements(1)
        head = f"pub fn program_{self.number}(alloc: Global, trace: &mut Trace) {{"
        return "\n\n".join([*self.items, "\n".join([head, *self.lines, "}"])])
