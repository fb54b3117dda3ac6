//! The texts of each public type: `Display` of all errors, and what `Debug` shows of a value.

use crate::common::{handle, small};
use forgeni::trace::{AllocReply, Call, CheckError, Checker, Difference, FlushReply, FreeReply};
use forgeni::trace::{Log, Recorder, Reservation, ReserveReply};
use forgeni::{
    handle_map, sparse_map, Absent, AllocError, Birth, CloseError, ComponentId, Entities, Fault,
    FaultKind, FreeError, Freed, Handle, HandleMap, InsertError, Limits, OtherPhase, OutOfMemory,
    ParseHandleError, Refused, ReserveError, ShareError, SharedSource, SparseMap, State, Stop,
    Storage, StorageError, SyncError, World,
};
use std::fmt::{Debug, Display};

const SPACE: (u32, u32) = (5, 3);

#[track_caller]
fn displays<'a>(cases: impl IntoIterator<Item = (&'a dyn Display, &'a str)>) {
    for (shown, text) in cases {
        assert_eq!(shown.to_string(), text);
    }
}

#[track_caller]
fn debugs<'a>(cases: impl IntoIterator<Item = (&'a dyn Debug, &'a str)>) {
    for (shown, text) in cases {
        assert_eq!(format!("{shown:?}"), text);
    }
}

/// A program has no value of this type, and gives it to others as a parameter.
const _: fn(&SharedSource) -> &dyn Debug = |source| source;

const MEMORY: &str = "out of memory";
const NEEDS_FLUSH: &str = "a flush is needed first";
const ABSENT: &str = "no such entity";
const WANTED: &str = "5 wanted and 3 left";

#[test]
fn errors_of_an_allocator() {
    let (wanted, left) = SPACE;
    displays([
        (&AllocError::NeedsFlush as &dyn Display, NEEDS_FLUSH),
        (&AllocError::Space, "no slot is free"),
        (&AllocError::Memory, MEMORY),
        (&FreeError::NeedsFlush, NEEDS_FLUSH),
        (&FreeError::NotAlive, "the entity is not alive"),
        (&FreeError::Memory, MEMORY),
        (&OutOfMemory, MEMORY),
        (&Refused::Space { wanted, left }, WANTED),
        (&Refused::Quota { left: 7 }, "the quota left is 7"),
        (&ReserveError::Space { wanted, left }, WANTED),
        (&ReserveError::Quota { left: 7 }, "the quota left is 7"),
        (&ReserveError::Memory, MEMORY),
        (&ShareError::NeedsFlush, NEEDS_FLUSH),
        (&ShareError::Count, "a phase has 1 to 1,024 callers"),
        (&ShareError::Memory, MEMORY),
        (&OtherPhase, "the reserver is of another phase"),
        (&CloseError::OtherPhase, "a caller is of another phase"),
        (&CloseError::Missing { count: 2 }, "missing callers: 2"),
        (&CloseError::InUse, "a caller is still in use"),
        (
            &ParseHandleError::Shape,
            "not of the form of a handle, as 0v1",
        ),
        (&ParseHandleError::Range, "no handle has these numbers"),
    ]);
}

#[test]
fn errors_of_components_and_worlds() {
    let (wanted, left) = SPACE;
    displays([
        (
            &StorageError::Present as &dyn Display,
            "the entity is there already",
        ),
        (&StorageError::Absent, ABSENT),
        (&StorageError::Memory, MEMORY),
        (&Absent, ABSENT),
        (&InsertError::Limit, "the handle is above the map's limit"),
        (
            &InsertError::Later,
            "a later occupant of the slot has a value",
        ),
        (&InsertError::Memory, MEMORY),
        (&ReserveError::Space { wanted, left }, WANTED),
        (&ReserveError::Quota { left: 7 }, "the quota left is 7"),
        (&ReserveError::Memory, MEMORY),
        (&ShareError::NeedsFlush, NEEDS_FLUSH),
        (&ShareError::Count, "a phase has 1 to 1,024 callers"),
        (&ShareError::Memory, MEMORY),
        (
            &Stop {
                system: 3,
                command: 4,
                done: 5,
            },
            "out of memory at command 4 of system 3",
        ),
    ]);
    let mut map = HandleMap::from_iter([(handle(0, 2), 1)]);
    let refused = map.insert(handle(0, 1), 2).expect_err("later");
    displays([(
        &refused as &dyn Display,
        "a later occupant of the slot has a value",
    )]);
    debugs([(&refused as &dyn Debug, "Later")]);
}

#[test]
fn what_a_map_lends() {
    let (one, other) = (handle(3, 2), handle(4, 1));
    let (mut map, mut sparse) = (HandleMap::from([(one, 1)]), SparseMap::from([(one, 1)]));
    let entry = "Entry { handle: 3v2, .. }";
    debugs([
        (&map.entry(one) as &dyn Debug, entry),
        (&sparse.entry(one), entry),
    ]);
    for (text, one) in [("Occupied", one), ("Vacant", other)] {
        let text = format!("{text}Entry {{ handle: {one}, .. }}");
        let told = match map.entry(one) {
            handle_map::Entry::Occupied(it) => format!("{it:?}"),
            handle_map::Entry::Vacant(it) => format!("{it:?}"),
        };
        assert_eq!(told, text);
        let told = match sparse.entry(one) {
            sparse_map::Entry::Occupied(it) => format!("{it:?}"),
            sparse_map::Entry::Vacant(it) => format!("{it:?}"),
        };
        assert_eq!(told, text);
    }
    debugs([(&map.iter_mut() as &dyn Debug, "IterMut { .. }")]);
    let (low, high) = map.split_at_mut(1);
    let slots = "SlotsMut { slots: 1..4, .. }";
    debugs([
        (&low as &dyn Debug, "SlotsMut { slots: 0..1, .. }"),
        (&high, slots),
    ]);
}

/// An error that hands something back says what the plain error says.
#[test]
fn errors_with_parts() {
    let unshared = Entities::new().share(0).expect_err("no callers");
    let (shared, _reservers) = Entities::new().share(2).expect("shared");
    let unclosed = shared.close(vec![]).expect_err("missing");
    let unopened = World::new().open(0).expect_err("no systems");
    let (open, systems) = World::new().open(1).expect("opened");
    let unfinished = open.close(vec![]).expect_err("missing");
    displays([
        (&unshared as &dyn Display, "a phase has 1 to 1,024 callers"),
        (&unclosed, "missing callers: 2"),
        (&unopened, "a phase has 1 to 1,024 callers"),
        (&unfinished, "missing callers: 1"),
    ]);
    debugs([
        (&unshared as &dyn Debug, "Count"),
        (&unclosed, "Missing { count: 2 }"),
        (&unopened, "Count"),
        (&unfinished, "Missing { count: 1 }"),
    ]);
    let (_, queues) = unfinished.into_parts().0 .0.close(systems).expect("closed");
    let unapplied = World::new().apply(queues).expect_err("another world");
    displays([(
        &unapplied as &dyn Display,
        "the queues are of another world",
    )]);
    debugs([(
        &unapplied as &dyn Debug,
        "OtherWorld(Queues { len: 1, .. })",
    )]);
    let left = unapplied.into_parts();
    let refused = SyncError::Memory(left.expect("nothing was done"));
    displays([(&refused as &dyn Display, MEMORY)]);
    debugs([(&refused as &dyn Debug, "Memory(Queues { len: 1, .. })")]);
}

#[test]
fn values_of_an_allocator() {
    let mut entities = small(9, 1);
    entities.alloc_many(4).expect("handles");
    entities.free(handle(2, 1)).expect("alive");
    entities.request_many(2).expect("handles");
    debugs([
        (
            &entities as &dyn Debug,
            "Entities { len: 3, total: 4, top: 0, retired: 1, reserved: 2, .. }",
        ),
        (&entities.iter(), "Living { len: 3, .. }"),
        (
            &Limits::new(3, 2),
            "Some(Limits { slots: 3, generations: 2 })",
        ),
        (
            &[State::Alive, State::Reserved, State::Gone],
            "[Alive, Reserved, Gone]",
        ),
        (
            &Freed {
                next: Some(handle(0, 2)),
            },
            "Freed { next: Some(0v2) }",
        ),
        (&Handle::PLACEHOLDER, "4294967294v2147483647"),
    ]);
    let (shared, mut reservers) = small(9, 1).share(2).expect("shared");
    reservers[1].reserve_many(3).expect("handles");
    let text = "Reserver { number: 1, quota_left: 1099511627773, .. }";
    debugs([
        (&shared as &dyn Debug, "Phase { count: 2, returned: 0, .. }"),
        (&reservers[1], text),
    ]);
    let phase = Entities::new().phase(2, |_, lent| {
        lent[1].reserve_many(3).expect("handles");
        debugs([(&lent[1] as &dyn Debug, text)]);
    });
    phase.expect("shared");
}

#[test]
fn values_of_worlds() {
    const HP: ComponentId = ComponentId(2);
    let birth = Birth {
        frame: 2,
        system: 0,
        ordinal: 1,
    };
    let mut storage = Storage::new();
    storage.born(handle(0, 1), birth).expect("memory");
    let fault = Fault {
        system: 1,
        command: 2,
        kind: FaultKind::NotAlive(handle(3, 4)),
    };
    debugs([
        (&storage as &dyn Debug, "Storage { len: 1, .. }"),
        (&HP, "ComponentId(2)"),
        (&birth, "Birth { frame: 2, system: 0, ordinal: 1 }"),
        (
            &fault,
            "Fault { system: 1, command: 2, kind: NotAlive(3v4) }",
        ),
        (
            &FaultKind::Space { wanted: 5, left: 3 },
            "Space { wanted: 5, left: 3 }",
        ),
        (&FaultKind::Quota { left: 7 }, "Quota { left: 7 }"),
        (&HandleMap::from_iter([(handle(1, 2), 'a')]), "{1v2: 'a'}"),
    ]);
    displays([(&birth as &dyn Display, "2.0.1")]);

    let mut world = World::new();
    world.spawn(&[]).expect("a handle");
    world.flush().expect("memory");
    debugs([(&world as &dyn Debug, "World { len: 1, frame: 1, .. }")]);
    let (open, mut systems) = world.open(2).expect("opened");
    systems[1].spawn(&[]).expect("a handle");
    systems[1].despawn(handle(7, 1)).expect("memory");
    debugs([
        (&open as &dyn Debug, "Phase { count: 2, returned: 0, .. }"),
        (&systems[1], "Reserver { number: 1, .. }"),
    ]);
    let (mut world, queues) = open.close(systems).expect("closed");
    let report = world.apply(queues).expect("memory");
    debugs([(
        &report as &dyn Debug,
        "Report { born: [1v1], faults: [Fault { system: 1, command: 1, kind: NotAlive(7v1) }] }",
    )]);
}

/// Handles of a trace.
fn two() -> Vec<Handle> {
    vec![handle(0, 1), handle(1, 2)]
}

#[test]
fn lines_of_a_trace() {
    let one = handle(3, 4);
    let reserve = |reply: ReserveReply| Call::Reserve(Reservation::new(6, 2, reply));
    displays([
        (
            &Call::Alloc(Some(AllocReply::Handle(one))) as &dyn Display,
            "alloc => 3v4",
        ),
        (&Call::Alloc(Some(AllocReply::Space)), "alloc => space"),
        (
            &Call::Alloc(Some(AllocReply::NeedsFlush)),
            "alloc => needs flush",
        ),
        (&Call::Alloc(None), "alloc"),
        (
            &Call::Free(one, Some(FreeReply::Freed)),
            "free 3v4 => freed",
        ),
        (
            &Call::Free(one, Some(FreeReply::Next(handle(3, 5)))),
            "free 3v4 => freed next 3v5",
        ),
        (
            &Call::Free(one, Some(FreeReply::Retired)),
            "free 3v4 => freed retired",
        ),
        (
            &Call::Free(one, Some(FreeReply::NotAlive)),
            "free 3v4 => not alive",
        ),
        (
            &Call::Free(one, Some(FreeReply::NeedsFlush)),
            "free 3v4 => needs flush",
        ),
        (&Call::Free(one, None), "free 3v4"),
        (&Call::Flush(Some(two().into())), "flush => born 0v1 1v2"),
        (&Call::Flush(Some([].into())), "flush => born"),
        (
            &Call::Flush(Some(FlushReply::Count(7))),
            "flush => born (7)",
        ),
        (&Call::Flush(None), "flush"),
        (&reserve(two().into()), "reserve 6 2 => 0v1 1v2"),
        (&reserve([].into()), "reserve 6 2 =>"),
        (&reserve(ReserveReply::Space), "reserve 6 2 => space"),
        (
            &reserve(ReserveReply::SpaceLeft(0)),
            "reserve 6 2 => space left 0",
        ),
        (&Call::State(one, Some(State::Alive)), "state 3v4 => alive"),
        (
            &Call::State(one, Some(State::Reserved)),
            "state 3v4 => reserved",
        ),
        (&Call::State(one, Some(State::Gone)), "state 3v4 => gone"),
        (&Call::Len(Some(5)), "len => 5"),
    ]);
}

#[test]
fn values_of_traces() {
    let difference = Difference {
        number: 4,
        told: Call::Len(Some(2)),
        expected: Call::Len(Some(3)),
        front: two().into(),
        cursor: -1,
    };
    let text = "differs line 4: len => 2, expected 3";
    let debug =
        "Difference { number: 4, told: Len(Some(2)), expected: Len(Some(3)), front: [0v1, 1v2], cursor: -1 }";
    let error = CheckError::Differs(difference.clone());
    displays([
        (&difference as &dyn Display, text),
        (&error, text),
        (
            &CheckError::TooMany,
            "more than 2^50 handles were requested before a flush",
        ),
        (&CheckError::Memory, MEMORY),
    ]);
    let mut checker = Checker::new(Limits::GREATEST);
    checker.len(0).expect("it agrees");
    let mut recorder = Recorder::new(Limits::GREATEST, 3).expect("memory");
    recorder.len(0).expect("it agrees");
    let mut log = Log::new(6);
    log.push(1, handle(0, 1)).expect("memory");
    debugs([
        (&difference as &dyn Debug, debug),
        (&error, &format!("Differs({debug})")),
        (&checker, "Checker { calls: 1, error: None, .. }"),
        (&recorder, "Recorder { calls: 1, .. }"),
        (
            &log,
            "Log { caller: 6, reservations: [Reservation { number: 0, caller: 6, requested: 1, reply: Handles([0v1]) }] }",
        ),
    ]);
}

#[cfg(feature = "std")]
mod frames {
    use super::*;
    use forgeni::{run_frame, FrameError, Reservers, StdThreads, SystemCommands, View};

    #[test]
    fn errors_of_a_frame() {
        let (mut world, queues) = {
            let (open, systems) = World::new().open(1).expect("opened");
            open.close(systems).expect("closed")
        };
        type Failed = FrameError<&'static str>;
        displays([
            (&Failed::NeedsFlush as &dyn Display, NEEDS_FLUSH),
            (&Failed::Workers, "a frame has 1 to 64 workers"),
            (&Failed::Systems, "a frame has at most 65,536 systems"),
            (&Failed::Memory, "out of memory before any system ran"),
            (&Failed::Lost(None), "out of memory while the systems ran"),
            (&Failed::Lost(Some("no road")), "a system stopped: no road"),
            (
                &Failed::Unapplied(queues),
                "the sync point stopped: out of memory",
            ),
        ]);
        world.spawn(&[]).expect("a handle");
        world.flush().expect("memory");
        let system = |view: &View<'_>, commands: &mut SystemCommands<'_>| {
            debugs([
                (&view as &dyn Debug, "View { phase: 1, .. }"),
                (commands, "SystemCommands { .. }"),
            ]);
            Ok::<(), OutOfMemory>(())
        };
        run_frame(&StdThreads, &mut world, &[system], 1).expect("memory");
    }

    #[test]
    fn values_of_pools() {
        let (_shared, mut reservers) = Entities::new().share(2).expect("shared");
        let pool = Reservers::new(&mut reservers).expect("memory");
        debugs([(&pool as &dyn Debug, "Reservers { count: 2, .. }")]);
        let unpooled = forgeni::HandedBack::new([1, 2], OutOfMemory);
        displays([(&unpooled as &dyn Display, MEMORY)]);
        debugs([(&unpooled as &dyn Debug, "OutOfMemory")]);
    }
}

/// Texts of handles and of traces keep width, fill, alignment and precision, as strings do. They
/// are cut where they are too long.
#[test]
fn texts_that_are_padded_and_cut() {
    let difference = Difference {
        number: 4,
        told: Call::Len(Some(2)),
        expected: Call::Len(Some(3)),
        front: two().into(),
        cursor: -1,
    };
    let texts: [&dyn Display; 7] = [
        &handle(0, 1),
        &Handle::PLACEHOLDER,
        &Call::Alloc(None),
        &Call::Flush(Some(two().into())),
        &difference,
        &CheckError::Differs(difference.clone()),
        &CheckError::TooMany,
    ];
    for shown in texts {
        let text = shown.to_string();
        assert_eq!(format!("{shown:70}|"), format!("{text:70}|"));
        assert_eq!(format!("{shown:>70}|"), format!("{text:>70}|"));
        assert_eq!(format!("{shown:-^71}|"), format!("{text:-^71}|"));
        assert_eq!(format!("{shown:.3}|"), format!("{}|", &text[..3]));
        assert_eq!(format!("{shown:*>9.2}|"), format!("*******{}|", &text[..2]));
        assert_eq!(format!("{shown:.0}|"), "|");
        assert_eq!(format!("{shown:1}|"), format!("{text}|"));
    }
}

/// The texts of errors are sentences, and a birth is three numbers: they are written as they are,
/// whatever is asked for.
#[test]
fn texts_that_are_never_cut() {
    let birth = Birth {
        frame: 2,
        system: 0,
        ordinal: 1,
    };
    let unshared = Entities::new().share(0).expect_err("none");
    let texts: [&dyn Display; 15] = [
        &OutOfMemory,
        &AllocError::NeedsFlush,
        &FreeError::NotAlive,
        &Absent,
        &Refused::Space { wanted: 5, left: 3 },
        &ReserveError::Quota { left: 7 },
        &ParseHandleError::Range,
        &InsertError::Later,
        &StorageError::Present,
        &ShareError::Count,
        &CloseError::Missing { count: 1 },
        &OtherPhase,
        &CheckError::Memory,
        &unshared,
        &birth,
    ];
    for shown in texts {
        let text = shown.to_string();
        assert!(!text.is_empty());
        for written in [
            format!("{shown:90}"),
            format!("{shown:>90}"),
            format!("{shown:-^90}"),
            format!("{shown:.3}"),
            format!("{shown:*>9.2}"),
        ] {
            assert_eq!(written, text);
        }
    }
}
