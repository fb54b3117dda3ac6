//! Errors travel: by `?` into a box for any thread, and apart from what they hand back.

use forgeni::{
    Absent, AllocError, CloseError, ComponentId, Entities, Fault, FreeError, Freed, GoOnError,
    HandedBack, Handle, HandleMap, ImageFault, InsertError, Lent, Limits, OpenWorld, OtherPhase,
    OutOfMemory, ParseHandleError, Phase, Queues, Refused, Report, ReserveError, Reserver,
    ShareError, State, Stop, Stopped, Storage, StorageError, SyncError, Tracked, View, World,
};
use std::error::Error;

/// An error that can be boxed for any thread.
fn travels<E: Error + Send + Sync + 'static>() {}

fn shared_by_threads<T: Send + Sync>() {}

#[test]
fn each_error_travels() {
    travels::<Absent>();
    travels::<AllocError>();
    travels::<CloseError>();
    travels::<FreeError>();
    travels::<GoOnError>();
    travels::<HandedBack<String, InsertError>>();
    travels::<ImageFault>();
    travels::<InsertError>();
    travels::<ShareError>();
    travels::<OtherPhase>();
    travels::<OutOfMemory>();
    travels::<ParseHandleError>();
    travels::<Refused>();
    travels::<ReserveError>();
    travels::<ShareError>();
    travels::<StorageError>();
    travels::<ReserveError>();
    travels::<SyncError>();
    travels::<Stop>();
    travels::<HandedBack<(Phase, Vec<Reserver>), CloseError>>();
    travels::<HandedBack<(Phase<OpenWorld>, Vec<Reserver<OpenWorld>>), CloseError>>();
    travels::<HandedBack<Entities, ShareError>>();
    travels::<HandedBack<World, ShareError>>();
    #[cfg(feature = "std")]
    travels::<forgeni::FrameError>();
    #[cfg(feature = "std")]
    travels::<HandedBack<std::vec::IntoIter<Reserver>, OutOfMemory>>();
}

/// What is read through a shared reference can be read by many threads at once.
#[test]
fn each_type_is_send_and_sync() {
    shared_by_threads::<(Handle, Limits, State, Freed, ComponentId)>();
    shared_by_threads::<(Entities, Phase, Reserver, Lent<'_>)>();
    shared_by_threads::<(World, Phase<OpenWorld>, Reserver<OpenWorld>)>();
    shared_by_threads::<(Lent<'_, OpenWorld>, Queues)>();
    shared_by_threads::<(Storage, Report, Fault, Stopped)>();
    shared_by_threads::<HandleMap<String>>();
    shared_by_threads::<Tracked<HandleMap<String>>>();
    #[cfg(feature = "std")]
    shared_by_threads::<(forgeni::Reservers, forgeni::Reservers<Lent<'_>>)>();
}

fn copied<T: Copy>() {}

#[test]
fn what_is_small_is_copied() {
    copied::<(Handle, Limits, State, Freed, ComponentId)>();
    copied::<(Fault, Stop, View<'_>, OutOfMemory)>();
}

type Boxed = Box<dyn Error + Send + Sync>;

/// A share without callers.
fn not_shared() -> Result<(), Boxed> {
    let _ = Entities::new().share(0)?;
    Ok(())
}

/// A close without a reserver.
fn not_closed() -> Result<(), Boxed> {
    let (shared, _reservers) = Entities::new().share(2)?;
    shared.close(vec![])?;
    Ok(())
}

/// A world without systems, and one whose queues are lost.
fn not_opened() -> Result<(), Boxed> {
    let _ = World::new().open(0)?;
    Ok(())
}

fn not_finished() -> Result<(), Boxed> {
    let (open, _systems) = World::new().open(1)?;
    let _ = open.close(vec![])?;
    Ok(())
}

/// Queues of another world.
fn not_applied() -> Result<(), Boxed> {
    let (open, systems) = World::new().open(1)?;
    let (_, queues) = open.close(systems)?;
    World::new().apply(queues)?;
    Ok(())
}

#[test]
fn each_is_handed_on() {
    let said = |ran: Result<(), Boxed>| ran.expect_err("refused").to_string();
    assert_eq!(said(not_shared()), "a phase has 1 to 1,024 callers");
    assert_eq!(said(not_closed()), "missing callers: 2");
    assert_eq!(said(not_opened()), "a phase has 1 to 1,024 callers");
    assert_eq!(said(not_finished()), "missing callers: 1");
    assert_eq!(said(not_applied()), "the queues are of another world");
}

/// On the other side of a thread it is still the error that it was.
#[test]
fn an_error_of_another_thread() {
    let ran = std::thread::spawn(not_shared)
        .join()
        .expect("it doesn't panic");
    let refused = ran
        .expect_err("refused")
        .downcast::<HandedBack<Entities, ShareError>>();
    let (entities, error) = refused.expect("of this type").into_parts();
    assert_eq!((entities.len(), error), (0, ShareError::Count));
}

/// What is handed back goes on, and the plain error stays beside it.
#[test]
fn the_parts_of_each() {
    let (shared, reservers) = Entities::new().share(1).expect("shared");
    let refused = shared.close(vec![]).expect_err("one is missing");
    let ((shared, none), error) = refused.into_parts();
    assert_eq!((none.len(), error), (0, CloseError::Missing { count: 1 }));
    assert!(shared.close(reservers).is_ok());

    let refused = World::new().open(0).expect_err("no systems");
    let (world, error) = refused.into_parts();
    assert_eq!((world.len(), error), (0, ShareError::Count));
    let (open, systems) = world.open(2).expect("opened");
    let refused = open.close(vec![]).expect_err("two are missing");
    let ((open, none), error) = refused.into_parts();
    assert_eq!((none.len(), error), (0, CloseError::Missing { count: 2 }));
    let (mut world, queues) = open.close(systems).expect("closed");

    let refused = World::new().apply(queues).expect_err("of another world");
    assert!(matches!(refused, SyncError::OtherWorld(_)));
    let queues = refused.into_parts().expect("nothing was done");
    assert!(world.apply(queues).is_ok());

    let mut entities = Entities::with_limits(Limits::new(2, 1).expect("limits"));
    let refused = entities.alloc_many(3).expect_err("there are two");
    assert_eq!(refused, AllocError::Space);
    assert!(entities.is_empty() && !entities.needs_flush());
}
