//! Which names are like a word that somebody has mistyped.

use crate::kit::alloc::AllocError;
use crate::kit::vec::FallibleVec;
use ::alloc::vec::Vec;

/// How like a word has to be, from 0 to 1.
const LEAST: f64 = 0.7;

/// The names that are like the word, the most like last, and of two as like the later one.
pub(super) fn similar<'n>(
    word: &str,
    names: impl Iterator<Item = &'n str>,
) -> Result<Vec<&'n str>, AllocError> {
    let mut found: Vec<&str> = Vec::new();
    for name in names {
        let likeness = jaro(word, name)?;
        if likeness <= LEAST {
            continue;
        }
        let mut at = found.len();
        while at > 0 && jaro(word, found[at - 1])? > likeness {
            at -= 1;
        }
        found.insert_fallibly(at, name)?;
    }
    Ok(found)
}

/// The likeness of two texts after Jaro, from 0 to 1: how many letters they share, in places that
/// are not far from one another, and how many of those are in the same order.
fn jaro(one: &str, other: &str) -> Result<f64, AllocError> {
    let (one_len, other_len) = (one.chars().count(), other.chars().count());
    if one_len == 0 || other_len == 0 {
        return Ok(f64::from(one_len == other_len));
    }
    let reach = (one_len.max(other_len) / 2).saturating_sub(1);
    // The letters that are shared, in the order of the first text, and which letters of the second
    // one they are.
    let mut shared: Vec<char> = Vec::with_capacity_fallibly(one_len)?;
    let mut is_shared: Vec<bool> = Vec::new();
    is_shared.resize_fallibly(other_len, false)?;
    for (at, letter) in one.chars().enumerate() {
        let near = at.saturating_sub(reach)..(at + reach + 1).min(other_len);
        let mut others = other.chars().enumerate();
        let found = others.find(|(to, it)| near.contains(to) && !is_shared[*to] && *it == letter);
        if let Some((to, _)) = found {
            is_shared[to] = true;
            shared.push_fallibly(letter)?;
        }
    }
    if shared.is_empty() {
        return Ok(0.0);
    }
    let others = other.chars().zip(is_shared.iter()).filter(|it| *it.1);
    let others = others.map(|it| it.0);
    let moved = shared.iter().zip(others).filter(|it| *it.0 != it.1).count() / 2;
    let count = shared.len() as f64;
    let in_order = (count - moved as f64) / count;
    Ok((count / one_len as f64 + count / other_len as f64 + in_order) / 3.0)
}

#[cfg(test)]
mod tests {
    use super::{jaro, similar};

    #[test]
    fn likeness_after_jaro() {
        let like = |one, other| jaro(one, other).expect("memory");
        assert_eq!(
            (like("", ""), like("", "a"), like("ab", "cd")),
            (1.0, 0.0, 0.0)
        );
        assert_eq!((like("a", "a"), like("é", "é")), (1.0, 1.0));
        // The examples of the books.
        assert!((like("MARTHA", "MARHTA") - 0.944).abs() < 0.001);
        assert!((like("DIXON", "DICKSONX") - 0.767).abs() < 0.001);
        assert!((like("JELLYFISH", "SMELLYFISH") - 0.896).abs() < 0.001);
    }

    #[test]
    fn the_most_like_is_last() {
        let names = ["births", "handles", "birth"];
        let like = |word| similar(word, names.into_iter()).expect("memory");
        assert_eq!(&like("birhts")[..], ["birth", "births"]);
        assert_eq!(&like("birth")[..], ["births", "birth"]);
        assert!(like("").is_empty());
        assert!(like("zzz").is_empty());
    }
}
