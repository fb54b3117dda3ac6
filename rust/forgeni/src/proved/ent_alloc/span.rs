// Made of crates/ent_alloc/src/span.rt by rust/erase. It isn't edited by hand.

/// The positions that one request passed: from `low` up to, not including, `high`.
///
/// A position of 0 or more is one of the pending list. Those below 0 stand for fresh slots.
#[derive(Clone, Copy, Debug, PartialEq, Eq, Hash)]
pub struct Span {
    /// The cursor before the request.
    pub high: i64,
    /// The cursor after it.
    pub low: i64,
}

impl Span {
    /// The span of a request for `n` handles that finds the cursor at `high`, which is from -2^60
    /// to 2^60.
    #[inline]
    pub(crate) fn new(high: i64, n: u32) -> Self
        // requires least { neg_ℤ (pos (2 ^ 60)) ≤ℤ high }
        // requires greatest { high ≤ℤ pos (2 ^ 60) }
        // ensures value { result ≡ record { high = high; low = high -ℤ pos n } }

        // `reply` of an allocator takes it if `high` is at most its top.
        // ensures valid { (s : Allocator) → high ≤ℤ pos (top s) → IsSpanOf s result }
    {
        Span {
            high,
            low: high - i64::from(n),
        }
    }
}
