// Made of crates/ent_runner/src/crew/claimer.rt by rust/erase. It isn't edited by hand.

use crate::running::crew::record::ClaimRecord;
use crate::reserving::holders::RecordsToken;

/// The right of one worker to claim numbers.
///
/// [`Claims::open`](crate::running::Claims::open) makes them, and [`Claims::close`](crate::running::Claims::close)
/// takes them back. A worker that claims in a thread of its own takes one along.
pub struct Claimer {
    pub(super) token: RecordsToken<ClaimRecord>,
    pub(super) ended: bool,
}

impl Claimer {
    #[inline]
    pub(super) fn new(token: RecordsToken<ClaimRecord>) -> Self
        // requires { IsClaimerHolding token.views false }
        // ensures { result ≡ record { word = token.table_id; own = claims_of token.views } }
    {
        Claimer {
            token,
            ended: false,
        }
    }
}
