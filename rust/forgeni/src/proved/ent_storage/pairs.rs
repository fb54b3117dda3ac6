// Made of crates/ent_storage/src/pairs.rt by rust/erase. It isn't edited by hand.

/// The position of the key among pairs whose keys strictly rise.
///
/// Takes no memory, and a time that grows with the logarithm of their count.
///
/// # Errors
///
/// The position where the key would go, if no pair has it.
#[inline]
pub(crate) fn search<K: Ord + Copy, V>(pairs: &[(K, V)], key: K) -> Result<usize, usize>
    // requires { T (is_sorted K.cmp pairs.now) }
    // ensures found { IfOk result (IsAt K.cmp pairs.now key) }
    // ensures absent { IfErr result (IsGapFor K.cmp pairs.now key) }
{
    pairs.binary_search_by_key(&key, |pair| pair.0)
}
