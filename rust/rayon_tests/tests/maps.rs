//! Walks over maps on rayon's threads, beside the walks of one thread.

use forgeni::{Handle, HandleMap, JoinMaps, ParJoinMaps, SparseMap};
use rayon::iter::{IntoParallelRefIterator, IntoParallelRefMutIterator, ParallelIterator};

fn handle(index: u32) -> Handle {
    Handle::new(index, 1 + index % 3).expect("a handle")
}

/// Maps of so many slots, of which all, some or none have a value.
fn maps() -> impl Iterator<Item = HandleMap<u64>> {
    let sizes = [0, 1, 2, 3, 7, 100, 4_097];
    sizes.into_iter().flat_map(|size| {
        [1, 2, 5, size.max(1)].map(|step| {
            let slots = (0..size).step_by(step as usize);
            slots
                .map(|index| (handle(index), u64::from(index)))
                .collect()
        })
    })
}

#[test]
fn each_value_is_seen_once() {
    for mut map in maps() {
        let mut seen: Vec<(Handle, u64)> = map.par_iter().map(|(one, it)| (one, *it)).collect();
        seen.sort_unstable();
        assert!(map.iter().map(|(one, it)| (one, *it)).eq(seen));
        map.par_iter_mut()
            .for_each(|(one, it)| *it = 2 * *it + u64::from(one.index()));
        assert!(map
            .iter()
            .all(|(one, it)| *it == 3 * u64::from(one.index())));
        let (low, high) = map.split_at_mut(50);
        rayon::join(
            || low.for_each(|(_, it)| *it = 1),
            || high.for_each(|(_, it)| *it = 2),
        );
        let is_right = |(one, it): (Handle, &u64)| *it == if one.index() < 50 { 1 } else { 2 };
        assert!(map.iter().all(is_right));
    }
}

#[test]
fn joined_walks() {
    let others: HandleMap<u64> = (0..3_000).step_by(2).map(|it| (handle(it), 5)).collect();
    let rare = SparseMap::from([(handle(900), 'a'), (handle(6), 'b'), (handle(7), 'c')]);
    for mut map in maps() {
        let wanted: Vec<_> = (&map, &others, &rare)
            .join()
            .map(|(one, a, b, c)| (one, *a, *b, *c))
            .collect();
        let walk = (&map, &others, &rare).par_join();
        let mut told: Vec<_> = walk.map(|(one, a, b, c)| (one, *a, *b, *c)).collect();
        told.sort_unstable();
        let mut sorted = wanted.clone();
        sorted.sort_unstable();
        assert_eq!(told, sorted);

        let before = map.clone();
        (&mut map, &others).par_join().for_each(|(_, a, b)| *a += b);
        for (one, it) in &before {
            assert_eq!(map[one], it + others.get(one).copied().unwrap_or(0));
        }
    }
}
