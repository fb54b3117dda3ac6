//! Worked use of maps by handle: one map of texts, which own memory, one of nothing, which has no
//! size, and one of numbers, which are `Copy`.

use crate::components::handle_map::{HandleMap, InsertError};
use crate::handles::Handle;

// Slot 2 has an early and a late occupant.
fn early() -> Handle {
    Handle::new(2, 7).expect("a handle")
}

fn late() -> Handle {
    Handle::new(2, 9).expect("a handle")
}

fn first() -> Handle {
    Handle::new(0, 1).expect("a handle")
}

/// The value that stood there before.
fn insert<T>(map: &mut HandleMap<T>, handle: Handle, value: T) -> Option<T> {
    map.insert(handle, value).ok().expect("memory for a value")
}

#[test]
fn texts() {
    let mut names = HandleMap::new();
    name_two(&mut names);
    refuse_early(&mut names);
    take_late(&mut names);
}

fn name_two(names: &mut HandleMap<String>) {
    assert!(insert(names, late(), "late".to_owned()).is_none());
    assert!(insert(names, first(), "first".to_owned()).is_none());
    assert_eq!(names.len(), 2);
    assert_eq!(names.get(late()).map(String::as_str), Some("late"));
    assert_eq!(names.get(first()).map(String::as_str), Some("first"));
}

// A later occupant of the slot has a name, so the new one comes back.
fn refuse_early(names: &mut HandleMap<String>) {
    let Err(refused) = names.insert(early(), "early".to_owned()) else {
        panic!("it is inserted")
    };
    assert_eq!(
        refused.into_parts(),
        ("early".to_owned(), InsertError::Later)
    );
    assert_eq!(names.len(), 2);
    assert_eq!(names.get(late()).map(String::as_str), Some("late"));
    assert!(names.get(early()).is_none());
}

fn take_late(names: &mut HandleMap<String>) {
    assert_eq!(names.remove(late()).as_deref(), Some("late"));
    assert_eq!(names.len(), 1);
    assert!(names.remove(late()).is_none() && !names.contains(late()));
}

#[test]
fn nothing() {
    let mut marks = HandleMap::with_capacity(3).expect("memory for three");
    mark(&mut marks);
    marks.clear();
    assert!(marks.is_empty() && marks.capacity() >= 3 && !marks.contains(first()));
}

fn mark(marks: &mut HandleMap<()>) {
    assert!(insert(marks, early(), ()).is_none() && marks.len() == 1);
    assert!(insert(marks, early(), ()).is_some() && marks.len() == 1);
    assert!(insert(marks, late(), ()).is_none() && marks.len() == 1);
    assert!(marks.contains(late()) && !marks.contains(early()));
}

#[test]
fn numbers() {
    let mut health = HandleMap::new();
    heal(&mut health);
    keep_weak(&mut health);
}

fn heal(health: &mut HandleMap<u32>) {
    insert(health, late(), 20);
    insert(health, first(), 30);
    *health.get_mut(late()).expect("a value") = 25;
    assert!(health.get_mut(early()).is_none());
    assert_lists(health, &[(first(), 30), (late(), 25)]);
}

fn keep_weak(health: &mut HandleMap<u32>) {
    health.retain(|_, value| {
        *value = value.wrapping_add(5);
        *value < 35
    });
    assert_lists(health, &[(late(), 30)]);
}

fn assert_lists(health: &HandleMap<u32>, want: &[(Handle, u32)]) {
    let walk = health.iter();
    assert_eq!(walk.len(), want.len());
    for ((handle, value), (same, number)) in walk.zip(want) {
        assert!(handle == *same && value == number);
    }
}
