//! Timelines of traces that differ, as data.

use super::*;
use crate::allocator::{Entities, Limits};
use crate::drawing::band::{Band, Bar};

fn broken(trace: &str) -> BrokenRun {
    BrokenRun::find(Followed::new(Limits::GREATEST), trace.as_bytes()).expect("a difference")
}

fn bar(what: Occupant, begin: usize, end: usize) -> Bar<Occupant> {
    Bar { what, begin, end }
}

fn reserved(generation: u32, caller: u32) -> Occupant {
    Occupant::Reserved { generation, caller }
}

fn events(timeline: &Timeline) -> Vec<&str> {
    let events = timeline.moments.iter().map(|moment| moment.event.as_str());
    events.collect()
}

fn marks(timeline: &Timeline) -> Vec<Mark> {
    timeline.moments.iter().map(|moment| moment.mark).collect()
}

#[test]
fn a_handle_that_two_callers_have() {
    let run = broken(
        "alloc => 0v1\nalloc => 1v1\nfree 0v1 => freed next 0v2\n# the run\n\
         reserve 1 1 => 0v2\nreserve 2 2 => 2v1 3v1\nreserve 1 2 => 3v1 4v1\nreserve 3 1 => 5v1\n\
         flush => born 2v1 3v1 4v1 5v1 0v2\n",
    );
    let text = "differs line 7: reserve 1 2 => 3v1 4v1, expected 4v1 5v1";
    assert_eq!(run.text().as_deref(), Ok(text));
    let line = run.timeline().expect("few lines");
    let expected = [
        "5: reserve 1 1",
        "6: reserve 2 2",
        "7: reserve 1 2",
        "8: reserve 3 1",
    ];
    assert_eq!(events(&line), expected);
    let [plain, red] = [Mark::Plain, Mark::Differs];
    assert_eq!(marks(&line), [plain, plain, red, plain]);
    let [band] = Band::all_of(&line)[..] else {
        panic!("one band");
    };
    let first = [bar(Occupant::Waiting(2), 0, 1), bar(reserved(2, 1), 1, 5)];
    assert_eq!(band.occupants(0), first);
    // No line of the run names slot 1.
    assert_eq!(band.occupants(1), []);
    assert_eq!(band.occupants(2), [bar(reserved(1, 2), 2, 5)]);
    let twice = [bar(reserved(1, 2), 2, 3), bar(reserved(1, 1), 3, 5)];
    assert_eq!(band.occupants(3), twice);
    assert_eq!(band.occupants(4), [bar(reserved(1, 1), 3, 5)]);
    assert_eq!(band.occupants(5), [bar(reserved(1, 3), 4, 5)]);
    assert!(!band.has_cursor());
}

#[test]
fn a_line_after_its_run() {
    let run = broken("reserve 1 1 => 0v1\nreserve 2 1 => 1v1\r\nflush => born 0v1\nlen => 2");
    let line = run.timeline().expect("few lines");
    assert_eq!(
        events(&line),
        ["1: reserve 1 1", "2: reserve 2 1", "3: flush"]
    );
    assert_eq!(marks(&line), [Mark::Plain, Mark::Plain, Mark::Differs]);
    let [band] = Band::all_of(&line)[..] else {
        panic!("one band");
    };
    let first = [bar(reserved(1, 1), 1, 3), bar(Occupant::Alive(1), 3, 4)];
    assert_eq!(band.occupants(0), first);
    assert_eq!(band.occupants(1), [bar(reserved(1, 2), 2, 4)]);
}

#[test]
fn a_line_alone() {
    let run = broken("alloc\nalloc\nflush\nfree 1v1\nreserve 4 1 => 1v2\nflush\nlen => 3");
    let line = run.timeline().expect("few lines");
    assert_eq!(events(&line), ["7: len => 3"]);
    assert!(line.before.slots.is_empty());
    let run = broken("alloc\nalloc\nflush\nfree 1v1\nreserve 4 1 => 1v2\nflush\nstate 1v2 => gone");
    let line = run.timeline().expect("few lines");
    assert_eq!(events(&line), ["7: state 1v2 => gone"]);
    assert!(line.before.slots.iter().eq([(&1, &Occupant::Alive(2))]));
}

/// Each with the line that differs, the occupants before it, and after it as it says.
#[test]
fn what_a_line_says_is_drawn() {
    use Occupant::{Alive, Retired, Waiting};
    type Row<'a> = (
        &'a str,
        &'a [(u32, Occupant)],
        &'a [(u32, Occupant)],
        Option<&'a str>,
    );
    let rows: [Row<'_>; 7] = [
        ("free 0v1 => freed", &[], &[(0, Waiting(2))], None),
        (
            "alloc\nfree 0v1 => freed next 0v3",
            &[(0, Alive(1))],
            &[(0, Waiting(3))],
            None,
        ),
        (
            "alloc\nfree 0v1 => freed retired",
            &[(0, Alive(1))],
            &[(0, Retired)],
            None,
        ),
        (
            "alloc\nalloc\nfree 1v1 => not alive",
            &[(1, Alive(1))],
            &[(1, Alive(1))],
            Some("not alive"),
        ),
        // The slot that the proved allocator gives is drawn too.
        (
            "alloc\nfree 0v1\nalloc => 1v1",
            &[(0, Waiting(2))],
            &[(0, Waiting(2)), (1, Alive(1))],
            None,
        ),
        (
            "reserve 4 1 => 0v1\nflush => born 2v3",
            &[],
            &[(0, reserved(1, 4)), (2, Alive(3))],
            None,
        ),
        // Caller 2 reserved first, though its line comes later.
        (
            "reserve 1 1 => 1v1\nreserve 2 1 => 0v1\nlen => 0\nreserve 3 1 => 0v1",
            &[(0, reserved(1, 2))],
            &[(0, reserved(1, 3))],
            None,
        ),
    ];
    for (trace, before, after, note) in rows {
        let line = broken(trace).timeline().expect("few lines");
        let Timeline {
            before: had,
            moments,
        } = line;
        let last = moments.last().expect("a line");
        assert!(had.slots.into_iter().eq(before.iter().copied()), "{trace}");
        let has = last.after.slots.clone();
        assert!(has.into_iter().eq(after.iter().copied()), "{trace}");
        assert_eq!(
            (last.mark, last.note.as_deref()),
            (Mark::Differs, note),
            "{trace}"
        );
    }
}

/// What is refused comes last, wherever its line is.
#[test]
fn a_run_with_refused_requests() {
    let limits = Limits::new(2, 1).expect("limits");
    let trace = "reserve 1 5 => space left 0\nreserve 2 2 => 0v1 1v1\nreserve 3 1 => space\n\
                 flush => born 0v1 1v1\nfree 1v1 => freed retired\nstate 0v1 => gone";
    let run = BrokenRun::find(Followed::new(limits), trace.as_bytes()).expect("a difference");
    assert!(
        run.before.slots[&0] == Occupant::Alive(1) && run.before.slots[&1] == Occupant::Retired
    );
    let refused = "reserve 1 1 => space\nalloc => needs flush\nreserve 2 2 => 0v1 1v1\nreserve 1 3 => space left 1";
    let run = BrokenRun::find(Followed::new(limits), refused.as_bytes()).expect("a difference");
    assert_eq!(run.difference.number, 1);
    let line = run.timeline().expect("few lines");
    assert_eq!(line.moments[0].note.as_deref(), Some("space"));
}

/// A trace that begins with an image: of four slots the first one is retired, the second one waits,
/// the third one has an entity, and the last one is reserved, for nobody knows whom.
#[test]
fn a_trace_from_an_image() {
    let limits = Limits::new(9, 2).expect("limits");
    let mut entities = Entities::with_exact_limits(limits);
    let handles: Vec<_> = (0..4).map(|_| entities.alloc().expect("room")).collect();
    entities.free(handles[0]).expect("alive");
    let second = entities.alloc().expect("room");
    for handle in [second, handles[1], handles[3]] {
        entities.free(handle).expect("alive");
    }
    entities.request_many(1).expect("room");
    let mut image = Vec::new();
    entities.write_image(&mut image).expect("memory");
    let begin = Followed::of_image(&image).expect("an image");
    let run = BrokenRun::find(begin, b"reserve 1 1 => 3v2\nflush").expect("a difference");
    let slots: Vec<_> = run.before.slots.into_iter().collect();
    let wanted = [
        Occupant::Retired,
        Occupant::Waiting(2),
        Occupant::Alive(1),
        Occupant::Waiting(2),
    ];
    assert_eq!(slots, (0..).zip(wanted).collect::<Vec<_>>());
    assert_eq!(run.before.cursor, Some(1));
    assert!(Followed::of_image(&image[1..]).is_err());
}

#[test]
fn no_difference_is_no_run() {
    let find =
        |trace: &str| BrokenRun::find(Followed::new(Limits::GREATEST), trace.as_bytes()).is_none();
    assert!(find("") && find("alloc => 0v1\n") && find("reserve 1 1 => 0v1"));
    assert!(find("alloc => 0v1\nallox\nalloc => 0v1"));
}

/// A run of 70,001 lines is drawn with the lines that name the slot that two of them have.
#[test]
fn a_long_run_is_cut_to_what_meets_the_difference() {
    let mut trace: String = (0..70_000)
        .map(|at| format!("reserve {} 1 => {at}v1\n", at % 7))
        .collect();
    trace.push_str("reserve 9 1 => 69999v1\n");
    let run = broken(&trace);
    assert_eq!(run.difference.number, 70_001);
    let line = run.timeline().expect("few lines");
    assert_eq!(events(&line), ["70000: reserve 6 1", "70001: reserve 9 1"]);
    let [band] = Band::all_of(&line)[..] else {
        panic!("one band");
    };
    let twice = [bar(reserved(1, 6), 1, 2), bar(reserved(1, 9), 2, 3)];
    assert_eq!(band.occupants(69_999), twice);
}

#[test]
fn what_names_more_slots_than_a_picture_has_is_not_drawn() {
    let many: String = (1..42).map(|at| format!(" {at}v1")).collect();
    let run = broken(&format!("reserve 1 41 =>{many}"));
    assert_eq!(run.timeline(), Err(Undrawn::Slots(1)));
    let some: String = (1..40).map(|at| format!(" {at}v1")).collect();
    let run = broken(&format!("reserve 1 39 =>{some}"));
    assert_eq!(run.timeline().map(|line| line.moments.len()), Ok(1));
    let mut same = "reserve 1 1 => 0v1\n".repeat(200);
    assert_eq!(
        broken(&same).timeline().map(|line| line.moments.len()),
        Ok(200)
    );
    same.push_str("reserve 1 1 => 0v1\n");
    assert_eq!(broken(&same).timeline(), Err(Undrawn::Events(201)));
}
