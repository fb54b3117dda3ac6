//! Worked examples as traces. Each agrees; and with one answer changed, in each of many ways, it
//! differs at the line of that answer, where the answer of the example is what was expected.

use crate::common::handle;
use forgeni::trace::{AllocReply, Call, CheckError, Checker, FlushReply, FreeReply};
use forgeni::trace::{Reservation, ReserveReply};
use forgeni::{Handle, Limits};

/// An example: the limits, and a trace.
struct Row(u32, u32, &'static str);

const GENERATIONS: u32 = (1 << 31) - 1;

/// Those of one caller, or of none. The order of their calls is given.
const ROWS: [Row; 10] = [
    // A bulk over a slot that waits and a new one. A flush lists the new one first.
    Row(
        u32::MAX,
        GENERATIONS,
        "alloc => 0v1 / alloc => 1v1 / free 0v1 => freed next 0v2 / reserve 1 2 => 0v2 2v1 / \
         flush => born 2v1 0v2",
    ),
    // The slot that was freed last is given first, but a bulk begins with the one that waits
    // longest.
    Row(
        u32::MAX,
        GENERATIONS,
        "alloc => 0v1 / alloc => 1v1 / alloc => 2v1 / free 2v1 => freed next 2v2 / \
         free 0v1 => freed next 0v2 / reserve 1 4 => 2v2 0v2 3v1 4v1 / \
         flush => born 3v1 4v1 2v2 0v2",
    ),
    Row(
        u32::MAX,
        GENERATIONS,
        "alloc => 0v1 / alloc => 1v1 / alloc => 2v1 / free 2v1 => freed next 2v2 / \
         free 0v1 => freed next 0v2 / reserve 1 1 => 0v2 / reserve 1 1 => 2v2 / \
         reserve 1 1 => 3v1 / reserve 1 1 => 4v1 / flush => born 3v1 4v1 2v2 0v2",
    ),
    // A request for nothing.
    Row(u32::MAX, GENERATIONS, "reserve 1 0 => / flush => born"),
    // A refused request shuts the pool up to the flush.
    Row(
        3,
        GENERATIONS,
        "reserve 1 2 => 0v1 1v1 / reserve 1 2 => space left 1 / reserve 1 1 => space left 0 / \
         flush => born 0v1 1v1 / reserve 1 1 => 2v1",
    ),
    Row(
        u32::MAX,
        GENERATIONS,
        "reserve 1 1 => 0v1 / alloc => needs flush / flush => born 0v1 / alloc => 1v1",
    ),
    Row(
        u32::MAX,
        GENERATIONS,
        "alloc => 0v1 / free 0v1 => freed next 0v2 / free 0v1 => not alive / \
         free 0v2 => not alive / free 9v1 => not alive",
    ),
    // A slot is retired after its last generation.
    Row(
        u32::MAX,
        2,
        "alloc => 0v1 / free 0v1 => freed next 0v2 / alloc => 0v2 / free 0v2 => freed retired / \
         alloc => 1v1",
    ),
    Row(
        1,
        GENERATIONS,
        "reserve 1 4294967295 => space left 1 / reserve 1 4294967295 => space left 0 / \
         reserve 1 256 => space left 0 / reserve 1 0 => / flush => born",
    ),
    Row(
        3,
        GENERATIONS,
        "reserve 1 2 => 0v1 1v1 / reserve 1 2 => space left 1 / flush => born 0v1 1v1",
    ),
];

/// Those of two callers. Their calls stand one caller after the other.
const ROWS_OF_TWO: [Row; 2] = [
    Row(
        u32::MAX,
        GENERATIONS,
        "alloc => 0v1 / free 0v1 => freed next 0v2 / reserve 1 1 => 2v1 / \
         reserve 2 2 => 0v2 1v1 / flush => born 1v1 2v1 0v2",
    ),
    Row(
        5,
        GENERATIONS,
        "reserve 1 1 => 0v1 / reserve 1 2 => space left 1 / reserve 2 3 => 1v1 2v1 3v1 / \
         reserve 2 0 => / reserve 2 1 => space left 0 / flush => born 0v1 1v1 2v1 3v1 / \
         alloc => 4v1",
    ),
];

// ---- reading

fn handles(words: &[&str]) -> Vec<Handle> {
    let handle = |word: &&str| word.parse().expect("a handle");
    words.iter().map(handle).collect()
}

fn number(word: &str) -> u32 {
    word.parse().expect("a number")
}

fn read(line: &str) -> Call {
    let words: Vec<&str> = line.split_whitespace().collect();
    match words[..] {
        ["alloc", "=>", "needs", "flush"] => Call::Alloc(Some(AllocReply::NeedsFlush)),
        ["alloc", "=>", one] => Call::Alloc(Some(handles(&[one])[0].into())),
        ["free", one, "=>", ref reply @ ..] => {
            let reply = match reply {
                ["freed", "next", next] => FreeReply::Next(handles(&[next])[0]),
                ["freed", "retired"] => FreeReply::Retired,
                ["not", "alive"] => FreeReply::NotAlive,
                other => panic!("{other:?}"),
            };
            Call::Free(handles(&[one])[0], Some(reply))
        }
        ["flush", "=>", "born", ref born @ ..] => Call::Flush(Some(handles(born).into())),
        ["reserve", caller, count, "=>", ref reply @ ..] => {
            let reply = match reply {
                ["space", "left", left] => ReserveReply::SpaceLeft(number(left)),
                given => handles(given).into(),
            };
            Call::Reserve(Reservation::new(number(caller), number(count), reply))
        }
        _ => panic!("{line}"),
    }
}

impl Row {
    fn calls(&self) -> Vec<Call> {
        self.2.split(" / ").map(read).collect()
    }

    fn checked(&self, calls: Vec<Call>) -> Result<(), CheckError> {
        let mut checker = Checker::new(Limits::new(self.0, self.1).expect("limits"));
        for call in calls {
            checker.call(call)?;
        }
        checker.finish()
    }
}

// ---- changes

/// Handles of low indexes and generations, and one that no example has.
fn some_handles() -> Vec<Handle> {
    let of_slot = |index| (1..4).map(move |generation| handle(index, generation));
    (0..5).flat_map(of_slot).chain([handle(77, 7)]).collect()
}

/// A list with one handle less, twice, changed, or in the place of the next one, and one more.
fn other_lists(list: &[Handle]) -> Vec<Vec<Handle>> {
    let mut others = vec![];
    for at in 0..list.len() {
        let mut change = |change: &dyn Fn(&mut Vec<Handle>)| {
            let mut other = list.to_vec();
            change(&mut other);
            others.push(other);
        };
        change(&|other| {
            other.remove(at);
        });
        change(&|other| other.insert(at, list[at]));
        change(&|other| other.swap(at, (at + 1) % list.len()));
        for one in some_handles() {
            change(&|other| other[at] = one);
        }
    }
    for one in some_handles() {
        others.push([list, &[one]].concat());
    }
    others.retain(|other| other != list);
    others
}

/// All other answers to the call that are tried.
fn changed(call: &Call) -> Vec<Call> {
    let each = some_handles().into_iter();
    let mut others: Vec<Call> = match call {
        Call::Alloc(_) => each
            .map(AllocReply::Handle)
            .chain([AllocReply::Space, AllocReply::NeedsFlush])
            .map(|reply| Call::Alloc(Some(reply)))
            .collect(),
        Call::Free(one, reply) => {
            let is_freed = matches!(reply, Some(FreeReply::Next(_) | FreeReply::Retired));
            each.map(FreeReply::Next)
                .chain([FreeReply::Retired, FreeReply::NotAlive])
                .chain([FreeReply::NeedsFlush])
                .chain((!is_freed).then_some(FreeReply::Freed))
                .map(|reply| Call::Free(*one, Some(reply)))
                .collect()
        }
        Call::Flush(Some(FlushReply::Born(born))) => {
            let count = born.len() as u32;
            let counts = [count + 1, count.wrapping_sub(1)].map(FlushReply::Count);
            let lists = other_lists(born).into_iter().map(FlushReply::from);
            let replies = lists.chain(counts);
            replies.map(|reply| Call::Flush(Some(reply))).collect()
        }
        Call::Reserve(it) => {
            let lists = match &it.reply {
                ReserveReply::Handles(given) => other_lists(given),
                _ => other_lists(&[]),
            };
            let is_served = matches!(it.reply, ReserveReply::Handles(_));
            lists
                .into_iter()
                .map(ReserveReply::from)
                .chain((0..4).map(ReserveReply::SpaceLeft))
                .chain(is_served.then_some(ReserveReply::Space))
                .map(|reply| Call::Reserve(Reservation::new(it.caller, it.requested, reply)))
                .collect()
        }
        other => panic!("{other}"),
    };
    others.retain(|other| other != call);
    others
}

/// Calls this with each row in which one answer is changed, and with the line of that answer.
fn with_each_change(rows: &[Row], mut expect: impl FnMut(&[Call], usize, &CheckError)) {
    let mut count = 0;
    for row in rows {
        let calls = row.calls();
        assert_eq!(row.checked(calls.clone()), Ok(()), "{}", row.2);
        for at in 0..calls.len() {
            for other in changed(&calls[at]) {
                let mut wrong = calls.clone();
                wrong[at] = other;
                let text = wrong[at].to_string();
                match row.checked(wrong) {
                    Ok(()) => panic!("{}, with {text}", row.2),
                    Err(error) => expect(&calls, at, &error),
                }
                count += 1;
            }
        }
    }
    assert!(count > 100 * rows.len(), "{count} changes");
}

/// The call at this place as the checker numbers it.
fn numbered(call: &Call, at: usize) -> Call {
    match call.clone() {
        Call::Reserve(it) => Call::Reserve(Reservation {
            number: at as u64 + 1,
            ..it
        }),
        other => other,
    }
}

#[test]
fn a_changed_answer_differs_at_its_line() {
    with_each_change(&ROWS, |calls, at, error| {
        let difference = error.difference().expect("a difference");
        let place = format!("{difference}");
        assert_eq!(difference.number, at as u64 + 1, "{place}");
        assert_eq!(difference.expected, numbered(&calls[at], at), "{place}");
    });
}

/// Of two callers the wrong answer may fit in another order. Then the other caller's differs.
#[test]
fn a_changed_answer_of_two_callers_differs() {
    with_each_change(&ROWS_OF_TWO, |calls, at, error| {
        let difference = error.difference().expect("a difference");
        let line = difference.number as usize - 1;
        if !matches!(calls[at], Call::Reserve(_)) {
            assert_eq!((line, &difference.expected), (at, &calls[at]));
        } else {
            assert!(matches!(calls[line], Call::Reserve(_)), "{difference}");
        }
    });
}
