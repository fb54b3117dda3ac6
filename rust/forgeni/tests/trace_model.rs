//! Random traces, which a plain model has written, and the same with one reply changed. What the
//! checker says of each is what a search over all orders finds, which knows nothing of positions
//! and keys. `FORGENI_SEEDS` sets how many seeds are run, `FORGENI_SEED` runs one alone.

use crate::common::{handle, seeds, Model, Numbers};
use forgeni::trace::{AllocReply, Call, CheckError, Checker, FlushReply, FreeReply};
use forgeni::trace::{Reservation, ReserveReply};
use forgeni::{AllocError, FreeError, Freed, Handle, Limits, ReserveError, State};
use std::sync::atomic::{AtomicU32, Ordering::Relaxed};

// ---- what the model answers

fn alloc_reply(model: &mut Model) -> AllocReply {
    match model.alloc() {
        Ok(given) => AllocReply::Handle(given),
        Err(AllocError::Space) => AllocReply::Space,
        Err(AllocError::NeedsFlush) => AllocReply::NeedsFlush,
        Err(AllocError::Memory) => unreachable!(),
    }
}

fn free_reply(model: &mut Model, given: Handle) -> FreeReply {
    match model.free(given) {
        Ok(Freed { next: Some(next) }) => FreeReply::Next(next),
        Ok(Freed { next: None }) => FreeReply::Retired,
        Err(FreeError::NotAlive) => FreeReply::NotAlive,
        Err(FreeError::NeedsFlush) => FreeReply::NeedsFlush,
        Err(FreeError::Memory) => unreachable!(),
    }
}

fn reserve_reply(model: &mut Model, requested: u32) -> ReserveReply {
    match model.reserve(requested) {
        Ok(handles) => handles.into(),
        Err(ReserveError::Space { left, .. }) => ReserveReply::SpaceLeft(left),
        Err(other) => unreachable!("{other}"),
    }
}

// ---- the search

/// Whether the model answers so, after which it is as after the call.
fn fits(model: &mut Model, call: &Call) -> bool {
    match call {
        Call::Alloc(told) => {
            let given = alloc_reply(model);
            told.is_none_or(|told| told == given)
        }
        Call::Free(one, told) => match (told, free_reply(model, *one)) {
            (None, _) => true,
            (Some(FreeReply::Freed), given) => {
                matches!(given, FreeReply::Next(_) | FreeReply::Retired)
            }
            (Some(told), given) => *told == given,
        },
        Call::Flush(told) => {
            let born = model.flush();
            match told {
                Some(FlushReply::Born(told)) => told[..] == born[..],
                Some(FlushReply::Count(told)) => *told as usize == born.len(),
                None => true,
            }
        }
        Call::Reserve(it) => match (&it.reply, reserve_reply(model, it.requested)) {
            (ReserveReply::Space, ReserveReply::SpaceLeft(_)) => true,
            (told, given) => *told == given,
        },
        Call::State(one, told) => told.is_none_or(|told| told == model.state(*one)),
        Call::Len(told) => told.is_none_or(|told| told == model.live.len() as u32),
    }
}

fn caller(call: &Call) -> Option<u32> {
    match call {
        Call::Reserve(it) => Some(it.caller),
        _ => None,
    }
}

/// Puts the calls of a run into each order that keeps every caller's own, and adds the states after
/// those in which the model answers so.
fn after_each_order(model: &Model, run: &[&Call], after: &mut Vec<Model>) {
    if run.is_empty() && !after.contains(model) {
        after.push(model.clone());
    }
    for (next, call) in run.iter().enumerate() {
        if run[..next].iter().any(|it| caller(it) == caller(call)) {
            continue;
        }
        let mut model = model.clone();
        if fits(&mut model, call) {
            let mut left = run.to_vec();
            left.remove(next);
            after_each_order(&model, &left, after);
        }
    }
}

/// Whether the calls can be put into an order in which the model answers so.
fn some_order_agrees(model: Model, calls: &[Call]) -> bool {
    let mut models = vec![model];
    let mut at = 0;
    while at < calls.len() {
        let run = calls[at..].iter().take_while(|call| caller(call).is_some());
        let run: Vec<&Call> = run.collect();
        if run.is_empty() {
            models.retain_mut(|model| fits(model, &calls[at]));
        } else {
            let mut after = vec![];
            for model in &models {
                after_each_order(model, &run, &mut after);
            }
            models = after;
        }
        at += run.len().max(1);
    }
    !models.is_empty()
}

// ---- traces

struct Trace {
    slots: u32,
    generations: u32,
    calls: Vec<Call>,
}

impl Trace {
    fn agrees(&self) -> bool {
        some_order_agrees(Model::new(self.slots, self.generations), &self.calls)
    }

    fn checked(&self) -> Result<(), CheckError> {
        let limits = Limits::new(self.slots, self.generations).expect("limits");
        let mut checker = Checker::new(limits);
        for call in &self.calls {
            checker.call(call.clone())?;
        }
        checker.finish()
    }

    fn text(&self) -> String {
        let lines = self.calls.iter().map(|call| format!("{call}\n"));
        let Self {
            slots, generations, ..
        } = self;
        format!("{slots} slots, {generations} generations\n") + &lines.collect::<String>()
    }
}

fn some_handle(numbers: &mut Numbers) -> Handle {
    handle(numbers.below(7) as u32, 1 + numbers.below(3) as u32)
}

/// One that lived at some time, or any.
fn known_handle(numbers: &mut Numbers, model: &Model) -> Handle {
    let count = model.live.len() as u64;
    if count == 0 || numbers.below(4) == 0 {
        return some_handle(numbers);
    }
    model.live[numbers.below(count) as usize]
}

/// Adds reservations of at most so many callers, each in its own order, and the callers' in any.
fn add_run(
    numbers: &mut Numbers,
    model: &mut Model,
    calls: &mut Vec<Call>,
    callers: u64,
    most: u64,
) {
    let mut logs: Vec<Vec<Call>> = vec![vec![]; callers as usize];
    for _ in 0..=numbers.below(most) {
        let caller = numbers.below(callers);
        let requested = numbers.below(4) as u32;
        let reply = match reserve_reply(model, requested) {
            ReserveReply::SpaceLeft(_) if numbers.below(2) == 0 => ReserveReply::Space,
            reply => reply,
        };
        let one = Reservation::new(caller as u32, requested, reply);
        logs[caller as usize].push(Call::Reserve(one));
    }
    let is_one_by_one = numbers.below(2) == 0;
    while logs.iter().any(|log| !log.is_empty()) {
        let log = &mut logs[numbers.below(callers) as usize];
        let count = if is_one_by_one { 1 } else { log.len() };
        calls.extend(log.drain(..count.min(log.len())));
    }
}

/// Adds a call that nothing overlaps.
fn add_call(numbers: &mut Numbers, model: &mut Model, calls: &mut Vec<Call>) {
    calls.push(match numbers.below(12) {
        0..=2 => match alloc_reply(model) {
            _ if numbers.below(8) == 0 => Call::Alloc(None),
            reply => Call::Alloc(Some(reply)),
        },
        3..=6 => {
            let one = known_handle(numbers, model);
            match (free_reply(model, one), numbers.below(8)) {
                (_, 0) => Call::Free(one, None),
                (FreeReply::Next(_) | FreeReply::Retired, 1..=3) => {
                    Call::Free(one, Some(FreeReply::Freed))
                }
                (reply, _) => Call::Free(one, Some(reply)),
            }
        }
        7..=9 => {
            let born = model.flush();
            Call::Flush(match numbers.below(6) {
                0 => None,
                1 => Some(FlushReply::Count(born.len() as u32)),
                _ => Some(born.into()),
            })
        }
        10 => {
            let one = known_handle(numbers, model);
            Call::State(one, Some(model.state(one)))
        }
        _ => Call::Len(Some(model.live.len() as u32)),
    });
}

/// A trace of the model. Its runs have at most so many callers and calls.
fn written(numbers: &mut Numbers, callers: u64, most: u64) -> Trace {
    let slots = 1 + numbers.below(6) as u32;
    let generations = 1 + numbers.below(3) as u32;
    let mut model = Model::new(slots, generations);
    let mut calls = vec![];
    for _ in 0..numbers.below(12) {
        if numbers.below(3) == 0 {
            add_run(numbers, &mut model, &mut calls, callers, most);
        }
        add_call(numbers, &mut model, &mut calls);
    }
    add_run(numbers, &mut model, &mut calls, callers, most);
    if numbers.below(2) == 0 {
        add_call(numbers, &mut model, &mut calls);
    }
    Trace {
        slots,
        generations,
        calls,
    }
}

// ---- one reply changed

/// Another list: with one handle less, one more, one changed, or two in each other's place.
fn other_list(numbers: &mut Numbers, list: &[Handle]) -> Vec<Handle> {
    let mut other = list.to_vec();
    let at = numbers.below(list.len() as u64 + 1) as usize;
    match numbers.below(4) {
        0 if at < list.len() => drop(other.remove(at)),
        1 if at < list.len() => other[at] = some_handle(numbers),
        2 if list.len() > 1 => other.swap(0, list.len() - 1),
        _ => other.insert(at, some_handle(numbers)),
    }
    other
}

fn changed(numbers: &mut Numbers, call: &Call) -> Call {
    let any = some_handle(numbers);
    let count = numbers.below(4) as u32;
    match call {
        Call::Alloc(_) => Call::Alloc(Some(match numbers.below(4) {
            0 => AllocReply::Space,
            1 => AllocReply::NeedsFlush,
            _ => AllocReply::Handle(any),
        })),
        Call::Free(one, _) => {
            let reply = match numbers.below(5) {
                0 => FreeReply::Freed,
                1 => FreeReply::Retired,
                2 => FreeReply::NotAlive,
                3 => FreeReply::NeedsFlush,
                _ => FreeReply::Next(any),
            };
            Call::Free(*one, Some(reply))
        }
        Call::Flush(Some(FlushReply::Born(born))) => {
            Call::Flush(Some(other_list(numbers, born).into()))
        }
        Call::Flush(_) => Call::Flush(Some(FlushReply::Count(count))),
        Call::Reserve(it) => {
            let reply = match (&it.reply, numbers.below(4)) {
                (_, 0) => ReserveReply::Space,
                (_, 1) => ReserveReply::SpaceLeft(count),
                (ReserveReply::Handles(list), _) => other_list(numbers, list).into(),
                _ => (0..it.requested)
                    .map(|_| some_handle(numbers))
                    .collect::<Vec<Handle>>()
                    .into(),
            };
            Call::Reserve(Reservation::new(it.caller, it.requested, reply))
        }
        Call::State(one, _) => {
            let states = [State::Alive, State::Reserved, State::Gone];
            Call::State(*one, Some(states[numbers.below(3) as usize]))
        }
        Call::Len(_) => Call::Len(Some(count)),
    }
}

/// The call as the checker numbers it.
fn numbered(call: Call, number: u64) -> Call {
    match call {
        Call::Reserve(it) => Call::Reserve(Reservation { number, ..it }),
        other => other,
    }
}

/// What is wrong with a difference, as far as the search can tell.
fn expect_difference(trace: &Trace, error: &CheckError, place: &str) {
    let difference = error.difference().expect("a difference");
    let at = difference.number as usize - 1;
    let told = numbered(trace.calls[at].clone(), difference.number);
    assert_eq!(difference.told, told, "{place}");
    assert_ne!(difference.told, difference.expected, "{place}");
    if caller(&difference.told).is_none() {
        // All before it agrees, and with the right reply it does too.
        let mut begun = trace.calls[..=at].to_vec();
        begun[at] = difference.expected.clone();
        let begun = Trace {
            calls: begun,
            ..*trace
        };
        assert!(begun.agrees(), "{place}");
    }
}

#[test]
fn traces_of_the_model_agree_and_changed_ones_as_a_search_says() {
    let (agree, differ) = (AtomicU32::new(0), AtomicU32::new(0));
    seeds(20_000, |seed| {
        let mut numbers = Numbers::of(seed);
        let mut trace = written(&mut numbers, 3, 7);
        let place = format!("seed {seed}, {}", trace.text());
        assert!(trace.agrees(), "{place}");
        assert_eq!(trace.checked(), Ok(()), "{place}");

        let at = numbers.below(trace.calls.len() as u64) as usize;
        trace.calls[at] = changed(&mut numbers, &trace.calls[at]);
        let place = format!("seed {seed}, line {}, {}", at + 1, trace.text());
        match (trace.agrees(), trace.checked()) {
            (true, checked) => {
                assert_eq!(checked, Ok(()), "{place}");
                agree.fetch_add(1, Relaxed);
            }
            (false, Ok(())) => panic!("it agrees: {place}"),
            (false, Err(error)) => {
                expect_difference(&trace, &error, &place);
                differ.fetch_add(1, Relaxed);
            }
        }
    });
    let (agree, differ) = (agree.into_inner(), differ.into_inner());
    assert!(
        agree + differ < 10_000 || (agree > 1_000 && differ > 10_000),
        "{agree} agree, {differ} differ"
    );
}

#[test]
fn long_runs_agree_and_two_calls_of_one_caller_keep_their_order() {
    seeds(300, |seed| {
        let mut numbers = Numbers::of(seed);
        let slots = 50 + numbers.below(200) as u32;
        let mut model = Model::new(slots, 3);
        let mut calls = vec![];
        for _ in 0..10 {
            add_run(&mut numbers, &mut model, &mut calls, 6, 100);
            for _ in 0..20 {
                add_call(&mut numbers, &mut model, &mut calls);
            }
        }
        let mut trace = Trace {
            slots,
            generations: 3,
            calls,
        };
        assert_eq!(trace.checked(), Ok(()), "seed {seed}, {}", trace.text());

        let served = |call: &Call| match call {
            Call::Reserve(it) => match &it.reply {
                ReserveReply::Handles(handles) if !handles.is_empty() => Some(it.caller),
                _ => None,
            },
            _ => None,
        };
        let two = (1..trace.calls.len()).find(|at| {
            let (one, other) = (&trace.calls[at - 1], &trace.calls[*at]);
            served(one).is_some() && served(one) == served(other)
        });
        if let Some(at) = two {
            trace.calls.swap(at - 1, at);
            assert!(trace.checked().is_err(), "seed {seed}, {}", trace.text());
        }
    });
}
