// Made of crates/ent_script/src/share.rt by rust/erase. It isn't edited by hand.

//! Which systems of a script a worker reads. Systems come round to the workers in turn, and from
//! frame to frame the next worker begins, so that each gets about as many of every kind.

/// The turns of some of the workers that read a script.
#[derive(Clone, Copy)]
pub(super) struct Share {
    first: usize,
    count: usize,
    workers: usize,
}

impl Share {
    /// The turns of all workers, if there are so many.
    #[inline]
    pub(super) fn all(workers: usize) -> Self
        // requires some { 0 < workers }
        // requires few { workers ≤ 64 }
        // ensures { result ≡ record { first = 0; count = workers; workers = workers } }
    {
        Share {
            first: 0,
            count: workers,
            workers,
        }
    }

    /// How many workers these are.
    #[inline]
    pub(super) fn count(self) -> usize
        // ensures { result ≡ self.count }
    {
        self.count
    }

    /// The first half of the workers, and the others.
    #[inline]
    pub(super) fn halves(self) -> (Share, Share)
        // ensures low { result.0 ≡ record self { count = self.count / 2 } }
        // ensures high { result.1 ≡ record self {
        //   first = self.first + self.count / 2;
        //   count = self.count - self.count / 2;
        // } }
    {
        let half = self.count / 2;
        let low = Share {
            count: half,
            ..self
        };
        let high = Share {
            first: self.first + half,
            count: self.count - half,
            ..self
        };
        (low, high)
    }

    /// Whether one of these workers reads the system.
    #[inline]
    pub(super) fn has(self, frame: usize, system: usize) -> bool
        // ensures { result ≡ has self frame system }
    {
        let turn = (frame % self.workers + system % self.workers) % self.workers;
        self.first <= turn && turn < self.first + self.count
    }
}
