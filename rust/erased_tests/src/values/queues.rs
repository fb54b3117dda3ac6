//! Commands of each kind: how their queue reads, and what a sync point makes of them.

use crate::allocator::Limits;
use crate::commands::{Bundle, BundleRef, Entry, IssuedCommands, ReserveError, SystemCommands};
use crate::handles::{Birth, ComponentId, Handle};
use crate::reserving::Refused;
use crate::worlds::World;

const HP: ComponentId = ComponentId(0);

const MP: ComponentId = ComponentId(7);

const BOTH: &[(ComponentId, i64)] = &[(HP, 5), (MP, -1)];

/// The first handle of a slot.
fn first(index: u32) -> Handle {
    Handle::new(index, 1).expect("a handle in range")
}

fn bundle(items: &[(ComponentId, i64)]) -> Bundle {
    Bundle::of(items).expect("memory for a bundle")
}

/// Issues a command of each kind, over five slots.
fn issue(commands: &mut SystemCommands<'_>) {
    assert_eq!(commands.spawn(&bundle(BOTH)).ok(), Some(first(0)));
    let three = commands.spawn_many(3, &bundle(BOTH)).ok();
    assert_eq!(
        three.expect("three handles").as_slice(),
        [first(1), first(2), first(3)]
    );
    let fault = commands.spawn_many(3, &bundle(BOTH)).err();
    assert_eq!(fault, Some(ReserveError::Space { wanted: 3, left: 1 }));
    assert!(commands.insert(first(1), &bundle(&[(HP, 9)])).is_ok());
    assert!(commands.remove(first(2), HP).is_ok());
    assert!(commands.despawn(first(3)).is_ok());
}

/// A world over five slots, and the queue of a phase in which one system issues.
fn phase() -> (World, IssuedCommands) {
    let limits = Limits::new(5, 7).expect("limits");
    let opened = World::new(limits).open(1).ok();
    let (opened, mut reservers) = opened.expect("memory for a reserver");
    let reserver = reservers.get_mut(0).expect("a reserver");
    let mut commands = SystemCommands::new(opened.shared(), reserver);
    issue(&mut commands);
    let queue = commands.finish();
    (opened.close(reservers), queue)
}

fn assert_items(bundle: &BundleRef<'_>, items: &[(ComponentId, i64)]) {
    assert!(bundle.iter().eq(items.iter().copied()));
}

#[test]
fn a_queue_reads_as_it_was_filled() {
    let (_, queue) = phase();
    let mut entries = queue.entries();
    let Some(Entry::Spawn(handle, items)) = entries.next() else {
        panic!("no spawn")
    };
    assert_eq!(handle, first(0));
    assert_items(&items, BOTH);
    let Some(Entry::SpawnMany(handles, items)) = entries.next() else {
        panic!("no spawn of many")
    };
    assert!(handles.iter().eq([first(1), first(2), first(3)]));
    assert_items(&items, BOTH);
    let Some(Entry::Refused { wanted, why }) = entries.next() else {
        panic!("no refusal")
    };
    assert_eq!(wanted, 3);
    assert_eq!(why, Refused::Space { wanted: 3, left: 1 });
    let Some(Entry::Insert(handle, items)) = entries.next() else {
        panic!("no insert")
    };
    assert_eq!(handle, first(1));
    assert_items(&items, &[(HP, 9)]);
    let Some(Entry::Remove(handle, id)) = entries.next() else {
        panic!("no remove")
    };
    assert_eq!((handle, id), (first(2), HP));
    let Some(Entry::Despawn(handle)) = entries.next() else {
        panic!("no despawn")
    };
    assert_eq!(handle, first(3));
    assert!(entries.next().is_none());
}

#[test]
fn a_sync_point_does_what_a_queue_says() {
    let (mut world, queue) = phase();
    let frame = world.phase();
    let report = world.apply(&[queue]).expect("memory for the sync point");
    assert_eq!(report.born.len(), 4);
    assert_eq!(report.faults.len(), 1);
    assert_eq!(world.len(), 3);
    assert_eq!(world.get(first(0), HP), Some(5));
    assert_eq!(world.get(first(1), HP), Some(9));
    assert_eq!(world.get(first(1), MP), Some(-1));
    assert_eq!(world.get(first(2), HP), None);
    assert_eq!(world.get(first(2), MP), Some(-1));
    assert_eq!(world.birth(first(3)), None);
    for ordinal in 0..3 {
        let birth = Birth {
            frame,
            system: 0,
            ordinal,
        };
        assert_eq!(world.birth(first(ordinal)), Some(birth));
    }
}
