// Made of crates/ent_alloc/src/requests.rt by rust/erase. It isn't edited by hand.

/// The requests since the last flush.
#[derive(Clone, Copy)]
pub(super) struct Requests {
    /// How many handles were requested, served or not.
    pub(super) asked: u64,
    /// How many are reserved. They are the first ones that there were to give.
    pub(super) served: u32,
}

impl Requests {
    #[inline]
    pub(super) const fn none() -> Self
        // ensures { result ≡ record { asked = 0; served = 0 } }
    {
        Requests {
            asked: 0,
            served: 0,
        }
    }

    /// These and one more, if there were `available` handles to give at the last flush.
    #[inline]
    pub(super) fn and(self, n: u32, available: u64) -> Self
        // requires few { self.asked + n ≤ 2 ^ 50 }
        // requires fits { available < 2 ^ 32 }
        // ensures served { self.asked + n ≤ available
        //     → result ≡ record { asked = self.asked + n; served = self.asked + n } }
        // ensures refused { available < self.asked + n
        //     → result ≡ record { asked = self.asked + n; served = self.served } }
    {
        let asked = self.asked + u64::from(n);
        let served = if asked <= available {
            asked as u32
        } else {
            self.served
        };
        Requests { asked, served }
    }

    /// These and one more, which is served as all before it.
    #[inline]
    pub(super) fn and_one(self) -> Self
        // requires { self.asked + 1 < 2 ^ 32 }
        // ensures { result ≡ record { asked = self.asked + 1; served = self.asked + 1 } }
    {
        let asked = self.asked + 1;
        Requests {
            asked,
            served: asked as u32,
        }
    }

    /// How many of the slots that wait are not reserved.
    #[inline]
    pub(super) fn kept(self, waiting: u32) -> usize
        // ensures { result ≡ waiting - self.served }
    {
        waiting.saturating_sub(self.served) as usize
    }

    /// How many fresh slots are reserved.
    #[inline]
    pub(super) fn fresh(self, waiting: u32) -> u32
        // ensures { result ≡ self.served - waiting }
    {
        self.served.saturating_sub(waiting)
    }
}
