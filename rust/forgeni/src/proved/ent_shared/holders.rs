// Made of crates/ent_shared/src/holders.rt by rust/erase. It isn't edited by hand.

//! How records move from holder to holder of one atomic word. No step here changes the word.

pub use crate::reserving::plays::HeldRecords;
use crate::reserving::plays::{Merge, NewHolder, SplitFirst};
use crate::kit::atomic_table::{Badge, Seat, Table, TableRule};

/// One atomic word under the rule `P`, opened with a `K`, whose holders know records of type `R`.
pub type RecordsWord<R, K, P> = Table<(), HeldRecords<R>, K, P>;

/// Holds records of such a word, and can make steps.
pub type RecordsHolder<R> = Seat<(), HeldRecords<R>>;

/// A holder as a token, which is kept between steps and makes none itself.
pub type RecordsToken<R> = Badge<HeldRecords<R>>;

/// Takes the first record out of a holder, into a holder of its own.
#[inline]
pub(crate) fn split_first<R, K, P: TableRule<(), HeldRecords<R>, K>>(
    word: &RecordsWord<R, K, P>,
    all: &mut RecordsHolder<R>,
) -> RecordsToken<R>
    // requires rule { GoesByRecords (P.holds word.now.shared.key) }
    // requires word { (word.now.shared.table_id.words ≡ 1)
    //     × (all.old.table_id ≡ word.now.shared.table_id) × (all.old.me.1 ≡ []) }
    // ensures kept { (all.new.table_id ≡ all.old.table_id)
    //     × (all.new.me ≡ (drop 1 all.old.me.0, [])) }
    // ensures first { (result.table_id ≡ all.old.table_id)
    //     × (result.views ≡ take 1 all.old.me.0 ∷ []) }
{
    word.shared.split_seat::<SplitFirst>(all).into_badge()
}

/// A holder without records.
#[inline]
pub(crate) fn new_holder<R, K, P: TableRule<(), HeldRecords<R>, K>>(
    word: &RecordsWord<R, K, P>,
) -> RecordsHolder<R>
    // requires rule { GoesByRecords (P.holds word.now.shared.key) }
    // requires word { word.now.shared.table_id.words ≡ 1 }
    // ensures { (result.table_id ≡ word.now.shared.table_id) × (result.me ≡ ([], [])) }
{
    word.shared.load_new_seat::<NewHolder>(0).1
}

/// Moves all records of one holder to the end of another's.
#[inline]
pub(crate) fn merge<R, K, P: TableRule<(), HeldRecords<R>, K>>(
    word: &RecordsWord<R, K, P>,
    all: &mut RecordsHolder<R>,
    token: RecordsToken<R>,
)
    // requires rule { GoesByRecords (P.holds word.now.shared.key) }
    // requires word { (word.now.shared.table_id.words ≡ 1)
    //     × (all.old.table_id ≡ word.now.shared.table_id)
    //     × (token.table_id ≡ word.now.shared.table_id)
    //     × (all.old.me.1 ≡ []) }
    // requires one { (records : List R) × (token.views ≡ records ∷ []) }
    // ensures kept { all.new.table_id ≡ all.old.table_id }
    // ensures merges { (all.new.me.1 ≡ []) × ((records : List R) → token.views ≡ records ∷ []
    //     → all.new.me.0 ≡ all.old.me.0 ++ records) }
{
    word.shared.join_seat::<Merge>(all, token.into_seat());
}
