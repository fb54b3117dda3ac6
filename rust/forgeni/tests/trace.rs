//! Traces by hand: what the checker says of the faults that people have made, of each form of a
//! reply, and of its own bounds. The replies that are expected are worked out by the rules of the
//! allocator.

use crate::common::{flushed, handle};
use forgeni::trace::{AllocReply, Call, CheckError, Checker, FlushReply, FreeReply};
use forgeni::trace::{Difference, Log, Recorder, Reservation, ReserveReply};
use forgeni::{Entities, Handle, Limits, State};

fn limits(slots: u32, generations: u32) -> Limits {
    Limits::new(slots, generations).expect("limits")
}

fn handles(text: &str) -> Vec<Handle> {
    let handle = |word: &str| word.parse().expect("a handle");
    text.split_whitespace().map(handle).collect()
}

/// Three entities lived, and two of them were freed: what there is to give is 1v2, 0v2, 3v1, 4v1
/// and so on.
fn begun() -> Checker {
    let mut checker = Checker::new(limits(100, 4));
    for one in handles("0v1 1v1 2v1") {
        checker.alloc(one).expect("it agrees");
    }
    for one in handles("0v1 1v1") {
        checker.free(one, FreeReply::Freed).expect("it agrees");
    }
    checker
}

fn reservation(caller: u32, given: &str) -> Reservation {
    let given = handles(given);
    Reservation::new(caller, given.len() as u32, given)
}

#[track_caller]
fn expect_text(checked: Result<(), CheckError>, text: &str) {
    assert_eq!(checked.expect_err("a difference").to_string(), text);
}

// ---- faults of one thread

#[test]
fn a_fresh_index_off_by_one() {
    let mut checker = begun();
    for one in handles("1v2 0v2") {
        checker.alloc(one).expect("it agrees");
    }
    let wrong = checker.alloc(handle(4, 1));
    expect_text(wrong, "differs line 8: alloc => 4v1, expected 3v1");
}

#[test]
fn the_generation_kept() {
    let wrong = begun().alloc(handle(1, 1));
    expect_text(wrong, "differs line 6: alloc => 1v1, expected 1v2");
}

#[test]
fn the_whole_pending_list_flushed() {
    let mut checker = begun();
    checker.reserve(0, 1, handle(1, 2)).expect("it agrees");
    let wrong = checker.flush(handles("0v2 1v2"));
    expect_text(
        wrong,
        "differs line 7: flush => born 0v2 1v2, expected born 1v2",
    );
}

#[test]
fn a_bulk_in_the_other_order() {
    let wrong = begun().run(vec![reservation(7, "1v2 0v2 3v1")]);
    expect_text(
        wrong,
        "differs line 6: reserve 7 3 => 1v2 0v2 3v1, expected 0v2 1v2 3v1",
    );
}

#[test]
fn the_cursor_not_reset() {
    let mut checker = begun();
    checker
        .run(vec![reservation(0, "0v2 1v2 3v1")])
        .expect("it agrees");
    checker.flush(handles("3v1 0v2 1v2")).expect("it agrees");
    checker.reserve(0, 1, handle(5, 1)).expect("not compared");
    expect_text(
        checker.finish(),
        "differs line 8: reserve 0 1 => 5v1, expected 4v1",
    );
}

#[test]
fn a_stale_handle_freed() {
    let wrong = begun().free(handle(0, 1), FreeReply::Freed);
    expect_text(
        wrong,
        "differs line 6: free 0v1 => freed, expected not alive",
    );
}

#[test]
fn the_first_generation_after_the_last() {
    let mut checker = Checker::new(limits(100, 2));
    for one in handles("0v1 0v2") {
        checker.alloc(one).expect("it agrees");
        checker.free(one, FreeReply::Freed).expect("it agrees");
    }
    let wrong = checker.alloc(handle(0, 1));
    expect_text(wrong, "differs line 5: alloc => 0v1, expected 1v1");
}

// ---- faults of two threads

#[test]
fn a_reservation_in_two_steps() {
    let wrong = begun().run(vec![reservation(0, "1v2"), reservation(1, "1v2")]);
    expect_text(wrong, "differs line 7: reserve 1 1 => 1v2, expected 0v2");
}

#[test]
fn a_reservation_lost() {
    let mut checker = begun();
    checker
        .run(vec![reservation(0, "0v2"), reservation(1, "1v2")])
        .expect("they agree in the other order");
    let wrong = checker.flush([handle(1, 2)]);
    expect_text(
        wrong,
        "differs line 8: flush => born 1v2, expected born 0v2 1v2",
    );
}

#[test]
fn a_cursor_read_again() {
    // Both threads have lowered the cursor from 2 to 0, and read 0 then.
    let wrong = begun().run(vec![reservation(0, "0v2"), reservation(1, "0v2")]);
    expect_text(wrong, "differs line 6: reserve 0 1 => 0v2, expected 1v2");
}

// ---- runs

#[test]
fn a_run_that_was_compared_is_over() {
    let [early, late] = [reservation(0, "1v2"), reservation(1, "0v2")];
    begun()
        .run(vec![late.clone(), early.clone()])
        .expect("in the other order");
    let mut checker = begun();
    let wrong = checker.run(vec![late.clone()]);
    expect_text(wrong, "differs line 6: reserve 1 1 => 0v2, expected 1v2");

    // What isn't compared yet is of one run, however it is handed in.
    let mut checker = begun();
    checker.reserve(1, 1, handle(0, 2)).expect("not compared");
    checker.run(vec![early]).expect("in the other order");
    checker.finish().expect("it agrees");

    // A call that reads ends a run.
    let mut checker = begun();
    checker.call(Call::Reserve(late)).expect("not compared");
    let wrong = checker.state(handle(0, 2), State::Reserved);
    expect_text(wrong, "differs line 6: reserve 1 1 => 0v2, expected 1v2");
}

#[test]
fn refusals() {
    let refused = Reservation::new::<ReserveReply>;
    let mut checker = Checker::new(limits(3, 1));
    checker
        .run(vec![
            refused(0, 9, ReserveReply::SpaceLeft(0)),
            refused(0, 0, [].into()),
            refused(1, 2, ReserveReply::Space),
            refused(2, 1, ReserveReply::Space),
            refused(3, 4, ReserveReply::SpaceLeft(1)),
            reservation(4, "0v1 1v1"),
        ])
        .expect("the last ones come first");
    assert_eq!(checker.calls(), 6);
    // One is left, so a request for one isn't refused.
    let wrong = Checker::new(limits(3, 1)).run(vec![
        reservation(4, "0v1 1v1"),
        refused(2, 1, ReserveReply::SpaceLeft(1)),
    ]);
    expect_text(
        wrong,
        "differs line 2: reserve 2 1 => space left 1, expected 2v1",
    );
    // No caller is served after it was refused.
    let wrong = Checker::new(limits(3, 1)).run(vec![
        refused(4, 4, ReserveReply::SpaceLeft(1)),
        reservation(4, "0v1 1v1"),
    ]);
    expect_text(
        wrong,
        "differs line 1: reserve 4 4 => space left 1, expected space left 3",
    );
}

#[test]
fn as_many_as_an_allocator_counts() {
    let mut checker = Checker::new(limits(1, 1));
    for _ in 0..2 {
        let fill = |checker: &mut Checker| {
            for _ in 0..1 << 18 {
                checker.reserve(0, u32::MAX, ReserveReply::Space)?;
            }
            checker.reserve(0, 1 << 18, ReserveReply::Space)
        };
        fill(&mut checker).expect("2^50 are counted");
        checker.reserve(1, 0, vec![]).expect("it is no more");
        checker.flush([]).expect("the count begins anew");
    }
    for _ in 0..1 << 18 {
        let refused = checker.reserve(0, u32::MAX, ReserveReply::Space);
        refused.expect("they are counted");
    }
    let one_more = checker.reserve(0, (1 << 18) + 1, ReserveReply::Space);
    assert_eq!(one_more, Err(CheckError::TooMany));
    assert_eq!(checker.flush([]), Err(CheckError::TooMany));
    assert_eq!(checker.finish(), Err(CheckError::TooMany));
}

// ---- what a checker does

#[test]
fn nothing_is_compared_after_a_difference() {
    let mut checker = begun();
    let wrong = checker.len(2);
    let difference = Difference {
        number: 6,
        told: Call::Len(Some(2)),
        expected: Call::Len(Some(1)),
        // The slot that was freed last stands first, and two wait.
        front: handles("1v2 0v2 3v1 4v1 5v1 6v1 7v1 8v1").into(),
        cursor: 2,
    };
    assert_eq!(wrong, Err(CheckError::Differs(difference.clone())));
    assert_eq!(checker.len(1), wrong);
    assert_eq!(checker.run(vec![]), wrong);
    assert_eq!(checker.calls(), 6);
    let found = checker.finish().expect_err("the same");
    assert_eq!(found.difference(), Some(&difference));
    assert_eq!(CheckError::TooMany.difference(), None);
    assert_eq!(
        difference.to_string(),
        "differs line 6: len => 2, expected 1"
    );
}

#[test]
fn what_is_not_told_is_not_compared() {
    let mut checker = begun();
    checker.call(Call::Alloc(None)).expect("it is made");
    checker.state(handle(1, 2), State::Alive).expect("it was");
    checker
        .call(Call::Free(handle(1, 2), None))
        .expect("it is made");
    checker.state(handle(1, 2), State::Gone).expect("it was");
    checker.reserve(0, 1, handle(1, 3)).expect("not compared");
    checker.call(Call::Flush(None)).expect("it is made");
    checker.len(2).expect("it was");
    checker.flush(FlushReply::Count(0)).expect("none");
    checker.finish().expect("it agrees");
}

#[test]
fn a_slot_is_retired_after_its_last_generation() {
    let mut checker = Checker::new(limits(1, 2));
    for (one, reply) in [
        (handle(0, 1), FreeReply::Next(handle(0, 2))),
        (handle(0, 2), FreeReply::Retired),
    ] {
        checker.alloc(one).expect("it agrees");
        checker.free(one, reply).expect("it agrees");
    }
    checker.alloc(AllocReply::Space).expect("no slot is left");
    checker.finish().expect("it agrees");
}

#[test]
fn a_call_is_written_as_a_line() {
    let (one, list) = (handle(3, 2), handles("0v1 4294967294v2147483647"));
    let reserve = |reply: ReserveReply| Call::Reserve(Reservation::new(4_294_967_295, 2, reply));
    for (call, line) in [
        (Call::Alloc(Some(one.into())), "alloc => 3v2"),
        (Call::Alloc(Some(AllocReply::Space)), "alloc => space"),
        (
            Call::Alloc(Some(AllocReply::NeedsFlush)),
            "alloc => needs flush",
        ),
        (Call::Alloc(None), "alloc"),
        (Call::Free(one, Some(FreeReply::Freed)), "free 3v2 => freed"),
        (
            Call::Free(one, Some(FreeReply::Next(handle(3, 3)))),
            "free 3v2 => freed next 3v3",
        ),
        (
            Call::Free(one, Some(FreeReply::Retired)),
            "free 3v2 => freed retired",
        ),
        (
            Call::Free(one, Some(FreeReply::NotAlive)),
            "free 3v2 => not alive",
        ),
        (
            Call::Free(one, Some(FreeReply::NeedsFlush)),
            "free 3v2 => needs flush",
        ),
        (Call::Free(one, None), "free 3v2"),
        (
            Call::Flush(Some(list.clone().into())),
            "flush => born 0v1 4294967294v2147483647",
        ),
        (Call::Flush(Some([].into())), "flush => born"),
        (
            Call::Flush(Some(FlushReply::Count(12))),
            "flush => born (12)",
        ),
        (Call::Flush(None), "flush"),
        (
            reserve(list.into()),
            "reserve 4294967295 2 => 0v1 4294967294v2147483647",
        ),
        (reserve([].into()), "reserve 4294967295 2 =>"),
        (
            reserve(ReserveReply::Space),
            "reserve 4294967295 2 => space",
        ),
        (
            reserve(ReserveReply::SpaceLeft(1)),
            "reserve 4294967295 2 => space left 1",
        ),
        (Call::State(one, Some(State::Alive)), "state 3v2 => alive"),
        (
            Call::State(one, Some(State::Reserved)),
            "state 3v2 => reserved",
        ),
        (Call::State(one, Some(State::Gone)), "state 3v2 => gone"),
        (Call::Len(Some(4_294_967_295)), "len => 4294967295"),
    ] {
        assert_eq!(call.to_string(), line);
    }
}

// ---- threads

#[test]
fn logs_are_joined_at_the_next_other_call() {
    let mut recorder = Recorder::new(limits(9, 9), 2).expect("memory");
    let [first, second] = recorder.logs() else {
        panic!("two logs");
    };
    second.push(1, handle(0, 1)).expect("memory");
    first.push(1, handle(1, 1)).expect("memory");
    first.push(2, handles("2v1 3v1")).expect("memory");
    assert_eq!((first.caller(), first.reservations().len()), (0, 2));
    recorder
        .flush(handles("0v1 1v1 2v1 3v1"))
        .expect("it agrees");
    assert_eq!(recorder.calls(), 4);
    let is_empty = |log: &Log| log.reservations().is_empty();
    assert!(recorder.logs().iter().all(is_empty));

    // What logs have at the end is compared too.
    recorder.logs()[0].push(1, handle(0, 1)).expect("memory");
    expect_text(
        recorder.finish(),
        "differs line 5: reserve 0 1 => 0v1, expected 4v1",
    );
}

/// Each call of a recorder first adds what the logs have: its answer is the one after these
/// reservations.
#[test]
fn each_call_joins_the_logs() {
    let one = handle(0, 1);
    let joined = |call: fn(&mut Recorder, Handle) -> Result<(), CheckError>| {
        let mut recorder = Recorder::new(limits(9, 9), 2).expect("memory");
        recorder.alloc(one).expect("it agrees");
        recorder.logs()[1].push(1, handle(1, 1)).expect("memory");
        call(&mut recorder, one).expect("it agrees");
        assert!(recorder.logs()[1].reservations().is_empty());
        assert_eq!(recorder.calls(), 3);
        recorder.finish().expect("it agrees");
    };
    joined(|recorder, _| recorder.alloc(AllocReply::NeedsFlush));
    joined(|recorder, one| recorder.free(one, FreeReply::NeedsFlush));
    joined(|recorder, _| recorder.state(handle(1, 1), State::Reserved));
    joined(|recorder, _| recorder.len(1));
    joined(|recorder, _| recorder.flush([handle(1, 1)]));
}

/// A refusal that doesn't say what was left is not the same as one that says that nothing was.
#[test]
fn space_without_a_number() {
    let mut checker = Checker::new(limits(2, 1));
    checker
        .reserve(0, 3, ReserveReply::Space)
        .expect("it agrees");
    checker.flush([]).expect("it agrees");
    let wrong = Reservation::new(0, 3, ReserveReply::SpaceLeft(0));
    expect_text(
        checker.run(vec![wrong]),
        "differs line 3: reserve 0 3 => space left 0, expected space left 2",
    );
    // It is handed back as it was handed in, with its number.
    let mut checker = Checker::new(limits(2, 1));
    let told = Reservation::new(0, 1, ReserveReply::Space);
    let wrong = checker.run(vec![told]).expect_err("one is left");
    let difference = wrong.difference().expect("a difference");
    let numbered = |reply: ReserveReply| Reservation {
        number: 1,
        caller: 0,
        requested: 1,
        reply,
    };
    let told = Call::Reserve(numbered(ReserveReply::Space));
    assert_eq!(difference.told, told);
    let expected = Call::Reserve(numbered(handle(0, 1).into()));
    assert_eq!(difference.expected, expected);
    assert_eq!(
        (&difference.front[..], difference.cursor),
        (&handles("0v1 1v1")[..], 0)
    );
}

#[test]
fn the_package_agrees_with_itself() {
    let mut recorder = Recorder::new(Limits::GREATEST, 4).expect("memory");
    let mut entities = Entities::new();
    for phase in 0..200_u32 {
        entities
            .phase(4, |_, reservers| {
                std::thread::scope(|scope| {
                    for (log, reserver) in recorder.logs().iter_mut().zip(reservers) {
                        scope.spawn(move || {
                            for n in 0..6 {
                                let given = reserver.reserve_many(n % 4).expect("handles");
                                log.push(n % 4, given).expect("memory");
                            }
                        });
                    }
                });
            })
            .expect("memory");
        let born = flushed(&mut entities);
        recorder.flush(&born[..]).expect("it agrees");
        for one in born.into_iter().skip(phase as usize % 5) {
            let next = entities.free(one).expect("it lives").next;
            let reply = next.map_or(FreeReply::Retired, FreeReply::Next);
            recorder.free(one, reply).expect("it agrees");
        }
        recorder.len(entities.len()).expect("it agrees");
    }
    recorder.finish().expect("it agrees");
}

#[test]
fn all_of_it_goes_to_any_thread() {
    fn travels<T: Send + Sync + 'static>() {}
    travels::<Checker>();
    travels::<Recorder>();
    travels::<Log>();
    travels::<Call>();
    travels::<CheckError>();
    let error: Box<dyn std::error::Error + Send + Sync> = CheckError::TooMany.into();
    assert_eq!(
        error.to_string(),
        "more than 2^50 handles were requested before a flush"
    );
}
