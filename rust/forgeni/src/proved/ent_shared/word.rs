// Made of crates/ent_shared/src/word.rt by rust/erase. It isn't edited by hand.

//! The cursor as one atomic word: what each kind of step does to the word and to the records.

use crate::reserving::holders::{RecordsHolder, RecordsToken, RecordsWord};
use crate::reserving::record::Record;
use crate::reserving::rule::{Cursor, Meet, Opening, Reserve, SplitSecond};
use crate::kit::atomic_table::{Badge, Table};
use crate::kit::alloc::AllocError;
use core::mem;

/// What is added to the cursor, so that the word is never negative.
const OFFSET: i64 = 1 << 62;

pub(super) type Word = RecordsWord<Record, Opening, Cursor>;

pub(super) type CursorHolder = RecordsHolder<Record>;

/// A word that begins at the cursor of the allocator, and a holder that has all records.
#[inline]
pub(super) fn open(opening: &Opening) -> Result<(Word, CursorHolder), AllocError>
    // requires start { IsStart opening.now.entities.allocator }
    // requires count { opening.now.count ≤ 1024 }
    // ensures word { IfOk result (λ made.
    //     IsPhase opening.now.entities opening.now.count made.0.shared.key made.0.shared.table_id) }
    // ensures seat { let start = opening.now.entities.allocator in
    //     IfOk result (λ made. (made.1.table_id ≡ made.0.shared.table_id)
    //     × (made.1.me ≡ (opened_records start 0 opening.now.count, []))) }
{
    let cursor = opening.entities.cursor();
    Table::of_words(&[(cursor + OFFSET) as u64], opening)
}

/// The reservation step: subtracts `n` from the word. Returns the cursor that it found.
#[inline]
pub(super) fn reserve(word: &Word, token: &mut RecordsToken<Record>, n: u32) -> i64
    // requires word { (word.now.shared.table_id.words ≡ 1)
    //     × (token.old.table_id ≡ word.now.shared.table_id) }
    // requires alone { token.old.views ≡ (own_of token.old.views ∷ []) ∷ [] }
    // requires some { 0 < n }
    // requires quota { n ≤ (own_of token.old.views).left }
    // ensures same { token.new.table_id ≡ token.old.table_id }
    // ensures gains { token.new.views
    //     ≡ (after_reservation (own_of token.old.views) result n ∷ []) ∷ [] }
    // ensures mark { result ≤ℤ (own_of token.old.views).mark }
    // ensures least { (pos 0 -ℤ pos (2 ^ 50)) ≤ℤ result }
    // ensures greatest { result ≤ℤ cursor (own_of token.old.views).start }
{
    let mut seat = mem::replace(token, Badge::blank()).into_seat();
    let found = word.shared.fetch_sub::<Reserve>(&mut seat, 0, n.into());
    *token = seat.into_badge();
    found as i64 - OFFSET
}

/// The meeting step: the first reserver's record lists what the second one has made and learned of.
#[inline]
pub(super) fn meet(word: &Word, a: &mut RecordsToken<Record>, b: &mut RecordsToken<Record>)
    // requires word { (word.now.shared.table_id.words ≡ 1)
    //     × (a.old.table_id ≡ word.now.shared.table_id)
    //     × (b.old.table_id ≡ word.now.shared.table_id) }
    // requires first { a.old.views ≡ (own_of a.old.views ∷ []) ∷ [] }
    // requires second { b.old.views ≡ (own_of b.old.views ∷ []) ∷ [] }
    // ensures same { (a.new.table_id ≡ a.old.table_id) × (b.new.table_id ≡ b.old.table_id) }
    // ensures meets { a.new.views
    //     ≡ (after_meeting (own_of a.old.views) (own_of b.old.views) ∷ []) ∷ [] }
    // ensures met { b.new.views ≡ b.old.views }
{
    let mut seat = mem::replace(a, Badge::blank()).into_seat();
    let other = mem::replace(b, Badge::blank()).into_seat();
    word.shared.join_seat::<Meet>(&mut seat, other);
    *b = word
        .shared
        .split_seat::<SplitSecond>(&mut seat)
        .into_badge();
    *a = seat.into_badge();
}

/// The cursor at the end of the phase, of which a holder knows these records.
#[inline]
pub(super) fn close(word: Word, all: CursorHolder) -> i64
    // requires word { (word.shared.table_id.words ≡ 1) × (word.shared.table_id.slots ≡ 0)
    //     × (all.table_id ≡ word.shared.table_id) }
    // ensures { IsClosed word.shared.key.entities.allocator word.shared.key.count all.me.0 result }
{
    let closed = word.close_with(all);
    let last = closed.word(0);
    closed.free();
    last as i64 - OFFSET
}
