//! A list of births and deaths, beside all that ever happened, and mirrors of the living that
//! replay it now and then. `FORGENI_SEEDS` sets how many seeds are run, `FORGENI_SEED` one alone.

use crate::common::{handle, seeds, small, Numbers};
use forgeni::{Change, Entities, Follows, Handle, HandleMap, History};
use std::collections::BTreeSet;

/// All that happened since the last restart, and what the list may have dropped of it.
struct Model {
    all: Vec<(u64, Change)>,
    limit: usize,
    /// The changes before this tick may be gone.
    from: u64,
}

impl Model {
    /// What the list says of the changes since a tick.
    fn since(&self, tick: u64) -> Option<Vec<Change>> {
        let wanted = self.all.iter().filter(|(at, _)| *at >= tick);
        let wanted: Vec<Change> = wanted.map(|(_, change)| *change).collect();
        (tick >= self.from && wanted.len() <= self.limit).then_some(wanted)
    }
}

/// What is alive, as one sees it who hears of changes alone.
#[derive(Default)]
struct Mirror {
    living: BTreeSet<Handle>,
    unseen: u64,
}

impl Mirror {
    fn update(&mut self, history: &History, entities: &Entities, place: &str) {
        match history.since(self.unseen) {
            None => self.living = entities.iter().collect(),
            Some(changes) => changes.for_each(|change| {
                let is_new = match change {
                    Change::Born(one) => self.living.insert(one),
                    Change::Died(one) => self.living.remove(&one),
                };
                assert!(is_new, "{place}: {change:?}");
            }),
        }
        self.unseen = history.tick() + 1;
        assert!(self.living.iter().copied().eq(entities), "{place}");
    }
}

#[test]
fn mirrors_of_random_births_and_deaths() {
    seeds(2_000, |seed| {
        let mut numbers = Numbers::of(seed);
        let limit = [0, 1, 3, 20, usize::MAX][numbers.below(5) as usize];
        let mut history = History::with_limit(limit);
        let mut model = Model {
            all: vec![],
            limit,
            from: 0,
        };
        let (mut entities, mut marks) = (small(6, 9), HandleMap::new());
        let mut saved = entities.clone();
        let mut mirrors = [Mirror::default(), Mirror::default(), Mirror::default()];
        for tick in 0..30 {
            let place = format!("seed {seed}, tick {tick}");
            history.begin(tick);
            history.begin(tick / 2);
            assert_eq!(history.tick(), tick, "{place}");
            for _ in 0..numbers.below(4) {
                let first = entities.iter().next().unwrap_or(handle(0, 9));
                let mut born = vec![];
                match numbers.below(5) {
                    0 => born.extend(entities.alloc()),
                    1 => born.extend(entities.alloc_many(2).unwrap_or_default()),
                    2 => {
                        // Too many are refused, and then the flush brings nothing to life.
                        let _refused = entities.request_many(numbers.below(9) as u32);
                        entities.flush(&mut born).expect("memory");
                    }
                    3 => {
                        let ended = (&mut marks, &mut history).despawn(&mut entities, first);
                        let died = ended.ok().map(|_| (tick, Change::Died(first)));
                        model.all.extend(died);
                    }
                    _ => {
                        if entities.free(first).is_ok() {
                            history.died(first);
                            model.all.push((tick, Change::Died(first)));
                        }
                    }
                }
                history.born(&born);
                let births = born.iter().map(|one| (tick, Change::Born(*one)));
                model.all.extend(births);
                born.iter().for_each(|one| {
                    marks.insert(*one, ()).expect("memory");
                });
            }
            match numbers.below(12) {
                0 => {
                    let before = numbers.below(tick + 2);
                    history.forget_before(before);
                    model.from = model.from.max(before);
                }
                1 => saved.clone_from(&entities),
                2 => {
                    entities.clone_from(&saved);
                    marks.clear();
                    history.restart(tick);
                    model.all.clear();
                    model.from = tick + 1;
                }
                _ => {}
            }
            for since in 0..tick + 3 {
                let told = history.since(since).map(|it| it.collect::<Vec<_>>());
                assert_eq!(told, model.since(since), "{place}, since {since}");
            }
            let kept = model.all.iter().filter(|(at, _)| *at >= model.from);
            let kept = kept.count().min(limit);
            let told = (history.len(), history.is_empty());
            assert_eq!(told, (kept, kept == 0), "{place}");
            for mirror in &mut mirrors {
                if numbers.below(3) == 0 {
                    mirror.update(&history, &entities, &place);
                }
            }
        }
    });
}

#[test]
fn the_greatest_tick() {
    let (one, mut history) = (handle(0, 1), History::with_limit(1));
    history.begin(u64::MAX);
    history.born(&[one]);
    assert!(history.since(u64::MAX).unwrap().eq([Change::Born(one)]));
    history.died(one);
    assert!(history.since(u64::MAX).is_none());
    let mut other = History::default();
    other.forget_before(u64::MAX);
    assert!(other.since(u64::MAX).is_some() && other.since(u64::MAX - 1).is_none());
    other.restart(u64::MAX);
    assert!(other.since(u64::MAX).is_none());
}
