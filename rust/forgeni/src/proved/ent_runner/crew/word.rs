// Made of crates/ent_runner/src/crew/word.rt by rust/erase. It isn't edited by hand.

//! The claim word: what each kind of step does to the word and to the records.

use crate::running::crew::record::ClaimRecord;
use crate::running::crew::rule::{Claim, Numbers, Opening};
use crate::kit::atomic_table::{Badge, Table};
use crate::reserving::holders::{RecordsHolder, RecordsToken, RecordsWord};
use crate::kit::alloc::AllocError;
use core::mem;

pub(super) type Word = RecordsWord<ClaimRecord, Opening, Numbers>;

pub(super) type WordHolder = RecordsHolder<ClaimRecord>;

/// A word that begins at 0, and a holder that has all records.
#[inline]
pub(super) fn open(opening: &Opening) -> Result<(Word, WordHolder), AllocError>
    // requires numbers { opening.now.numbers ≤ 2 ^ 16 }
    // requires some { 0 < opening.now.workers }
    // requires few { opening.now.workers ≤ 64 }
    // ensures word { IfOk result (λ made. IsOpen opening.now.numbers opening.now.workers
    //     made.0.shared.key made.0.shared.table_id) }
    // ensures seat { IfOk result (λ made. (made.1.table_id ≡ made.0.shared.table_id)
    //     × (made.1.me ≡ (replicate opening.now.workers (nothing_claimed opening.now.numbers), []))) }
{
    Table::of_words(&[0], opening)
}

/// The claiming step: adds 1 to the word. Returns the number that it found.
#[inline]
pub(super) fn claim(word: &Word, token: &mut RecordsToken<ClaimRecord>) -> u64
    // requires word { (word.now.shared.table_id.words ≡ 1)
    //     × (token.old.table_id ≡ word.now.shared.table_id) }
    // requires alone { token.old.views ≡ (claims_of token.old.views ∷ []) ∷ [] }
    // requires goes_on { (claims_of token.old.views).ended ≡ false }
    // ensures same { token.new.table_id ≡ token.old.table_id }
    // ensures claims { token.new.views
    //     ≡ (after_claim (claims_of token.old.views) result ∷ []) ∷ [] }
    // ensures above { All (λ n. n < result) (claims_of token.old.views).claims }
{
    let mut seat = mem::replace(token, Badge::blank()).into_seat();
    let found = word.shared.fetch_add::<Claim>(&mut seat, 0, 1);
    *token = seat.into_badge();
    found
}

/// Ends the claiming, of which a holder knows these records.
#[inline]
pub(super) fn close(word: Word, all: WordHolder)
    // requires word { (word.shared.table_id.words ≡ 1) × (word.shared.table_id.slots ≡ 0)
    //     × (all.table_id ≡ word.shared.table_id) }
    // ensures { AreClaimsClosed word.shared.key.numbers word.shared.key.workers all.me.0 }
{
    word.close_with(all).free();
}
