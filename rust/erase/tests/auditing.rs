//! Results that are not their source. The audit finds each.

mod common;
use common::{audited, erased};
use erase::lex::{tokens, Kind};

/// A source with most forms.
const SOURCE: &str = "\
//! Of a file.
ghost use A.b.{◌≡◌};

use crate::c::D;
use ent_other::E;
use std::alloc::Global;
use std::fmt;
use std::marker::{Model, PhantomData};
use std::sync::Arc;
use thiserror::Error;

/// Of F.
#[derive(Drop, Debug, Error)]
pub(crate) enum F {
    /// Of G.
    #[error(\"{h} of f\")]
    G { h: u8 },
    #[error(\"no i\")]
    I,
}

/// Of its model.
impl Model for F {
    ghost view = { λ f. f };
}

impl<T: Drop + Copy> From<T> for F {
    ghost from_gives = { j };

    /// Of k.
    fn from(k: T, alloc: Global) -> Self
        // Of l.
        requires l { k ≡ m }

        ensures { result ≡ n
            k }
    {
        // Of o.
        let p: Vec<u8> = k.iter().collect(alloc);
        p.push(2)?;
        k.push(p, 2);
        let y = Vec::with_capacity(alloc, 2);
        F::I
    }
}

/// Of q.
pub fn q(k: u8) -> u8
    // Of r.
    ensures r { k }
{
    k
}

impl F {
    /// Of s.
    pub fn s(&self) -> u8
        ensures s { k ≡ l
            t }
    {
        q(2)
    }

    /// Of t.
    pub fn t(&self)
        requires t { k }
        ensures { l }
    {
        self.s();
    }
}

struct Q {
    alloc: Global,
    r: Arc<u8, Global>,
}

impl Q {
    fn s(self, t: u8, alloc: Global) -> Q {
        let Q { alloc: _, r } = self;
        u(t, alloc, |_: Global, v: u8| w(v));
        let Self { r, alloc } = s(self.alloc, t);
        Q { alloc, r }
    }
}

/// Of x.
pub trait X {
    ghost y: { A };
}

/// Of z.
struct Z<J: X> {
    of: PhantomData<J>,
    r: u8,
}

impl<J: X> Z<J> {
    fn of_z<K: X>(self, t: Z<K>, v: &Z<K>) -> Vec<Z<J>> {
        let Z { of: _, r } = self;
        d::<J>(Z { r, of: PhantomData })
    }
}

impl fmt::Display for E {
    fn fmt<W: fmt::Write>(&self, f: &mut fmt::Formatter<W>) -> fmt::Result {
        write!(f, \"e\")
    }
}
";

fn result() -> String {
    erased(SOURCE).expect("known forms")
}

#[test]
fn the_result_of_the_eraser_is_its_source() {
    assert_eq!(audited(SOURCE, &result()), Ok(()));
}

/// The result with each of its tokens changed by `change`, which says what stands in its place.
fn each_token(change: impl Fn(&str) -> String) -> Vec<(String, String)> {
    let result = result();
    let head = result.find('\n').expect("a first line");
    let tokens = tokens(&result).expect("tokens");
    let real = tokens
        .iter()
        .filter(|token| token.kind != Kind::Blank && token.from > head);
    real.map(|token| {
        let old = &result[token.from..token.to];
        let new = format!(
            "{}{}{}",
            &result[..token.from],
            change(old),
            &result[token.to..]
        );
        (old.to_owned(), new)
    })
    .collect()
}

#[test]
fn no_token_may_be_missing() {
    for (token, other) in each_token(|_| String::new()) {
        // An empty line in place of a comma is all the same to Rust.
        assert!(
            audited(SOURCE, &other).is_err(),
            "without `{token}`:\n{other}"
        );
    }
}

#[test]
fn no_token_may_stand_twice() {
    for (token, other) in each_token(|token| format!("{token}\n{token}")) {
        assert!(
            audited(SOURCE, &other).is_err(),
            "`{token}` twice:\n{other}"
        );
    }
}

#[test]
fn no_token_may_be_another_one() {
    for (token, other) in each_token(|token| match token.strip_prefix("//") {
        Some(rest) => format!("// x {rest}"),
        None => "x".to_owned(),
    }) {
        assert!(
            audited(SOURCE, &other).is_err(),
            "another one than `{token}`:\n{other}"
        );
    }
}

#[test]
fn no_code_may_go_into_a_comment() {
    for (token, other) in each_token(|token| format!("// {token}\n")) {
        let is_same = token.starts_with("//");
        assert!(
            is_same || audited(SOURCE, &other).is_err(),
            "`{token}` in a comment:\n{other}"
        );
    }
}

/// What is no list keeps its call, and a list doesn't.
#[test]
fn a_list_s_calls_may_not_stay() {
    let known = result();
    assert!(known.contains("p.push_fallibly(2)") && known.contains("k.push(p, 2)"));
    assert!(known.contains("Vec::with_capacity_fallibly(2)"));
    let other = known.replace("p.push_fallibly(2)", "p.push(2)");
    assert!(audited(SOURCE, &other).is_err());
}

#[test]
fn messages_may_not_be_exchanged() {
    let other = result().replace("write!(f, \"no i\")", "write!(f, \"{h} of f\")");
    assert!(audited(SOURCE, &other).is_err());
}

#[test]
fn clauses_may_not_be_lost() {
    let lines = result();
    for line in lines
        .lines()
        .filter(|line| line.trim_start().starts_with("//"))
        .skip(1)
    {
        let other = lines.replace(&format!("{line}\n"), "");
        assert!(audited(SOURCE, &other).is_err(), "without {line}");
    }
}

#[test]
fn docs_may_not_show_another_contract() {
    let shown = "/// ensures r { k }\n";
    let hidden = "    // ensures { l }\n";
    let (result, q) = (result(), "pub fn q(k: u8) -> u8 {");
    assert!(result.contains(shown) && result.contains(hidden) && result.contains(q));
    let moved = result
        .replace(shown, "")
        .replace(q, "pub fn q(k: u8) -> u8\n    // ensures r { k }\n{");
    assert!(
        audited(SOURCE, &moved).is_err(),
        "a clause that is no longer in the docs:\n{moved}"
    );
    let at = result.find("/// Of s.").expect("docs of s");
    let block = result.find("///\n/// <details>").expect("docs of q");
    let end = block
        + result[block..]
            .find("#[inline]")
            .expect("the end of the docs of q");
    let other = format!(
        "{}{}{}{}",
        &result[..block],
        &result[end..at],
        &result[block..end],
        &result[at..]
    );
    assert!(
        audited(SOURCE, &other).is_err(),
        "a contract in the docs of another function:\n{other}"
    );
}

#[test]
fn links_of_a_contract_may_not_change_its_words() {
    let source = "ghost use Rattle.ent_here.specs.Here.{P};\n\n/// Of a.\npub fn a()\n    ensures { P \"`<\" }\n{\n}\n";
    let result = erased(source).expect("known forms");
    for (shown, other) in [
        ("[P](", "[Q]("),
        ("[P](", "P [P]("),
        ("\\`", ""),
        ("\\<", ""),
    ] {
        assert!(result.contains(shown), "{result}");
        let other = result.replace(shown, other);
        assert!(audited(source, &other).is_err(), "{other}");
    }
}

#[test]
fn only_the_package_may_call_a_function_with_a_condition() {
    let (source, narrow) = ("pub fn a()\n    requires { b }\n{}\n", "pub(crate) fn a()");
    let result = erased(source).expect("known forms");
    assert!(result.contains(narrow));
    let wide = result.replace(narrow, "pub fn a()");
    assert!(
        audited(source, &wide).is_err(),
        "a condition that nobody tests:\n{wide}"
    );
    let other = "pub fn a()\n    ensures { b }\n{}\n";
    let result = erased(other)
        .expect("known forms")
        .replace("pub fn a()", narrow);
    assert!(audited(other, &result).is_err(), "too narrow:\n{result}");
}
