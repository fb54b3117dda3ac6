//! Random calls by one caller, compared with a model in plain Rust. `FORGENI_SEEDS` sets how many
//! seeds are run, `FORGENI_SEED` runs one alone.

use crate::common::{flushed, handle, seeds, small, Model, Numbers};
use forgeni::{AllocError, Handle, Refused, ReserveError, State};

fn run(seed: u64) {
    let mut numbers = Numbers::of(seed);
    let slots = 1 + numbers.below(8) as u32;
    let generations = 1 + numbers.below(4) as u32;
    let mut model = Model::new(slots, generations);
    let mut entities = small(slots, generations);
    for step in 0..60 {
        let any = handle(numbers.below(9) as u32, 1 + numbers.below(5) as u32);
        let place = format!("seed {seed}, step {step}");
        match numbers.below(10) {
            0..=3 => assert_eq!(entities.alloc(), model.alloc(), "{place}: alloc"),
            4 | 5 => assert_eq!(entities.free(any), model.free(any), "{place}: free {any}"),
            6 if !model.live.is_empty() => {
                let one = model.live[numbers.below(model.live.len() as u64) as usize];
                assert_eq!(entities.free(one), model.free(one), "{place}: free {one}");
            }
            6 | 7 => assert_eq!(entities.request(), request(&mut model), "{place}: request"),
            _ => assert_eq!(flushed(&mut entities), model.flush(), "{place}: flush"),
        }
        assert_eq!(
            entities.state(any),
            model.state(any),
            "{place}: state of {any}"
        );
        model.expect(&entities, &place);
    }
}

fn request(model: &mut Model) -> Result<Handle, Refused> {
    match model.reserve(1) {
        Ok(given) => Ok(given[0]),
        Err(ReserveError::Space { wanted, left }) => Err(Refused::Space { wanted, left }),
        Err(other) => panic!("{other}"),
    }
}

#[test]
fn random_calls() {
    seeds(20_000, run);
}

/// Many handles at once, and each way to flush. The list of a flush is used again.
fn run_bulks(seed: u64) {
    let mut numbers = Numbers::of(seed);
    let slots = 1 + numbers.below(12) as u32;
    let mut model = Model::new(slots, 3);
    let mut entities = small(slots, 3);
    let mut list = vec![];
    for step in 0..40 {
        let place = format!("seed {seed}, step {step}");
        let n = numbers.below(5) as u32;
        match numbers.below(12) {
            0 | 1 => match entities.alloc_many(n) {
                Ok(given) => {
                    let wanted: Result<Vec<_>, _> = (0..n).map(|_| model.alloc()).collect();
                    assert_eq!(Ok(given), wanted, "{place}: alloc_many");
                }
                Err(error) => {
                    let wanted = if model.asked > 0 {
                        AllocError::NeedsFlush
                    } else {
                        assert!((model.pool().len() as u32) < n, "{place}: alloc_many");
                        AllocError::Space
                    };
                    assert_eq!(error, wanted, "{place}: alloc_many");
                }
            },
            2..=4 => {
                assert_eq!(
                    entities.left() as usize,
                    model.pool().len(),
                    "{place}: left"
                );
                let wanted = model.reserve(n);
                assert_eq!(entities.request_many(n), wanted, "{place}: request_many");
            }
            5 => assert_eq!(entities.request(), request(&mut model), "{place}: request"),
            10 | 11 => {
                let before = list.clone();
                let told = entities.request_into(&mut list, n);
                let wanted = model.reserve(n);
                assert_eq!(list[..before.len()], before, "{place}: request_into");
                let listed = list[before.len()..].to_vec();
                assert_eq!(told.map(|()| listed), wanted, "{place}: request_into");
            }
            6 => {
                let before = list.len();
                entities.flush(&mut list).expect("memory");
                assert_eq!(list[before..], model.flush(), "{place}: flush_into");
            }
            7 => {
                list.clear();
                entities.flush_with(|one| list.push(one)).expect("memory");
                assert_eq!(list, model.flush(), "{place}: flush_with");
            }
            _ if !model.live.is_empty() => {
                let one = model.live[numbers.below(model.live.len() as u64) as usize];
                assert_eq!(entities.free(one), model.free(one), "{place}: free {one}");
            }
            _ => {}
        }
        let any = handle(numbers.below(13) as u32, 1 + numbers.below(4) as u32);
        let state = model.state(any);
        assert_eq!(entities.is_alive(any), state == State::Alive);
        assert_eq!(entities.contains(any), state != State::Gone);
        model.expect(&entities, &place);
    }
}

#[test]
fn random_bulks() {
    seeds(10_000, run_bulks);
}
