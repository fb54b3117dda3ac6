//! Timelines of schedules, as data.

use super::*;
use crate::allocator::State as HandleState;
use crate::drawing::band::{Band, Bar};
use crate::drawing::state::Occupant;
use crate::handles::Handle;
use crate::traces::read_schedule;
use std::format;
use std::vec;

fn timeline_within(limits: Limits, text: &str) -> Result<Timeline, Undrawn> {
    let events = read_schedule(text.as_bytes()).expect("a schedule");
    replayed(limits, text, &events)
}

fn timeline(text: &str) -> Timeline {
    timeline_within(Limits::GREATEST, text).expect("few events")
}

fn bar<T>(what: T, begin: usize, end: usize) -> Bar<T> {
    Bar { what, begin, end }
}

fn reserved(generation: u32, caller: u32) -> Occupant {
    Occupant::Reserved { generation, caller }
}

fn call(requested: u32, span: Option<(i64, i64)>) -> OpenCall {
    OpenCall { requested, span }
}

fn cursors(band: Band<'_>) -> Vec<i64> {
    let cursors = band.states().map(|state| state.cursor);
    cursors.map(|cursor| cursor.expect("a cursor")).collect()
}

/// The steps of the page on schedules, of which event 1 is the `alloc`.
#[test]
fn the_schedule_of_the_page() {
    let line = timeline(
        "alloc\nfree 0v1\nbegin 1 1\nbegin 2 2\nstep 2\nstep 1\nanswer 1\nanswer 2\nflush",
    );
    let [band] = Band::all_of(&line)[..] else {
        panic!("one band");
    };
    let first = [
        bar(Occupant::Alive(1), 1, 2),
        bar(Occupant::Waiting(2), 2, 5),
        bar(reserved(2, 2), 5, 9),
        bar(Occupant::Alive(2), 9, 10),
    ];
    assert_eq!(band.occupants(0), first);
    let second = [bar(reserved(1, 2), 5, 9), bar(Occupant::Alive(1), 9, 10)];
    assert_eq!(band.occupants(1), second);
    let third = [bar(reserved(1, 1), 6, 9), bar(Occupant::Alive(1), 9, 10)];
    assert_eq!(band.occupants(2), third);
    assert_eq!(band.occupants(3), []);
    let calls = |caller| band.calls(caller);
    let of_one = [bar(call(1, None), 3, 6), bar(call(1, Some((-1, -2))), 6, 7)];
    let of_two = [bar(call(2, None), 4, 5), bar(call(2, Some((1, -1))), 5, 8)];
    assert_eq!((calls(1), calls(2)), (of_one.to_vec(), of_two.to_vec()));
    assert_eq!(cursors(band), [0, 0, 1, 1, 1, -1, -2, -2, -2, 0]);
    let marks: Vec<Mark> = line.moments.iter().map(|moment| moment.mark).collect();
    assert_eq!(marks[..8], [Mark::Plain; 8]);
    assert_eq!(marks[8..], [Mark::Flush]);
    assert!(line.moments.iter().all(|moment| moment.note.is_none()));
}

/// The last occupant is freed, and a request is for more than is left.
#[test]
fn a_slot_retires_and_a_request_is_refused() {
    let limits = Limits::new(2, 1).expect("limits");
    let text = "alloc\nfree 0v1\nfree 0v1\nbegin 7 2\nalloc\nstep 7\nanswer 7\nalloc\nflush\nalloc";
    let line = timeline_within(limits, text).expect("few events");
    let [band] = Band::all_of(&line)[..] else {
        panic!("one band");
    };
    let first = [bar(Occupant::Alive(1), 1, 2), bar(Occupant::Retired, 2, 11)];
    assert_eq!(band.occupants(0), first);
    assert_eq!(band.occupants(1), [bar(Occupant::Alive(1), 10, 11)]);
    let calls = [bar(call(2, None), 4, 6), bar(call(2, Some((0, -2))), 6, 7)];
    assert_eq!(band.calls(7), calls);
    assert_eq!(cursors(band), [0, 0, 0, 0, 0, 0, -2, -2, -2, 0, 0]);
    let notes = line.moments.iter().map(|moment| moment.note.as_deref());
    let refused = Some("space wanted 2 left 1");
    let expected = [
        None,
        None,
        Some("not alive"),
        None,
        Some("busy"),
        None,
        refused,
    ];
    let expected = expected
        .into_iter()
        .chain([Some("needs flush"), None, None]);
    assert!(notes.eq(expected));
}

/// A handle that is reserved and never answered is drawn too, since its step was made.
#[test]
fn an_open_call_has_its_handles() {
    let line = timeline("begin 1023 1\nbegin 0 0\nstep 1023\nstep 0\nbegin 1024 1\nflush\n");
    let [band] = Band::all_of(&line)[..] else {
        panic!("one band");
    };
    assert_eq!(band.occupants(0), [bar(reserved(1, 1023), 3, 7)]);
    let nothing = [bar(call(0, None), 2, 4), bar(call(0, Some((-1, -1))), 4, 7)];
    assert_eq!(band.calls(0), nothing);
    assert_eq!(line.moments[4].note.as_deref(), Some("caller"));
    assert_eq!(line.moments[5].note.as_deref(), Some("busy"));
    assert_eq!(line.moments[5].mark, Mark::Plain);
}

#[test]
fn bands_go_on_where_the_last_one_ended() {
    let line = timeline(&"alloc\n".repeat(40));
    let bands = Band::all_of(&line);
    assert_eq!(
        bands.iter().map(|band| band.moments.len()).sum::<usize>(),
        40
    );
    let line = timeline(&("alloc\n".to_string() + &"flush\n".repeat(199)));
    let bands = Band::all_of(&line);
    assert_eq!(bands.len(), 5);
    for band in &bands[1..] {
        assert_eq!(band.occupants(0), [bar(Occupant::Alive(1), 0, 41)]);
    }
    let nothing = timeline("");
    let [band] = Band::all_of(&nothing)[..] else {
        panic!("one band");
    };
    assert_eq!((band.moments.len(), cursors(band)), (0, vec![0]));
}

#[test]
fn a_picture_has_at_most_200_events_and_40_slots() {
    let tried = |text: &str| timeline_within(Limits::GREATEST, text).map(|_| ());
    assert_eq!(tried(&"flush\n".repeat(200)), Ok(()));
    assert_eq!(tried(&"flush\n".repeat(201)), Err(Undrawn::Events(201)));
    assert_eq!(tried(&"alloc\n".repeat(40)), Ok(()));
    assert_eq!(tried(&"alloc\n".repeat(41)), Err(Undrawn::Slots(41)));
    assert_eq!(tried("begin 1 40\nstep 1\nanswer 1\nflush\n"), Ok(()));
    for count in [41_u32, 70_001, u32::MAX] {
        let text = format!("begin 1 {count}\nstep 1\nanswer 1\nflush\n");
        assert_eq!(tried(&text), Err(Undrawn::Slots(2)));
    }
    assert_eq!(tried("alloc\nbegin 1 40\nstep 1"), Err(Undrawn::Slots(3)));
    // As many are refused, and take no slot.
    let few = Limits::new(40, 1).expect("limits");
    let refused = timeline_within(few, "begin 1 4294967295\nstep 1\nanswer 1\nflush\n");
    assert_eq!(refused.map(|line| line.moments.len()), Ok(4));
}

/// What is drawn after each event is what the proved allocator says of each handle.
#[test]
fn occupants_are_as_the_allocator_says() {
    let mut random: u64 = 1;
    let mut below = |end: u64| {
        random = random
            .wrapping_mul(6_364_136_223_846_793_005)
            .wrapping_add(1);
        (random >> 33) % end
    };
    for round in 0..200 {
        let limits = Limits::new(40, 1 + round % 3).expect("limits");
        let mut player = Player::new(limits).expect("memory");
        for number in 1..=200 {
            let (caller, index) = (below(4), below(12));
            let line = match below(14) {
                0..3 => "alloc".to_string(),
                3..7 => format!("free {index}v{}", 1 + below(3)),
                7..9 => format!("begin {caller} {}", below(4)),
                9..11 => format!("step {caller}"),
                11..13 => format!("answer {caller}"),
                _ => "flush".to_string(),
            };
            let event = read_schedule(line.as_bytes()).expect("an event")[0];
            player.play(number, &line, event).expect("few slots");
            agrees(&player);
        }
    }
}

fn agrees(player: &Player) {
    let Followed { entities, state } = &player.followed;
    let mut counts = [0, 0, 0, 0];
    for (slot, occupant) in &state.slots {
        let (kind, expected, generation) = match *occupant {
            Occupant::Alive(generation) => (0, HandleState::Alive, generation),
            Occupant::Reserved { generation, .. } => (1, HandleState::Reserved, generation),
            Occupant::Waiting(generation) => (2, HandleState::Gone, generation),
            Occupant::Retired => (3, HandleState::Gone, 1),
        };
        counts[kind] += 1;
        let handle = Handle::new(*slot, generation).expect("a handle");
        assert_eq!(entities.state(handle), expected);
    }
    let [alive, reserved, _, retired] = counts;
    assert_eq!(alive, entities.len());
    assert_eq!(
        (reserved, retired),
        (entities.reserved(), entities.retired())
    );
    assert_eq!(state.cursor, Some(entities.cursor()));
}
