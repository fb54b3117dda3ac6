//! Pictures of schedules and traces, as SVG. They are in the programs that cargo builds, and in no
//! others.
//!
//! All of it is by hand, and not proved. It decides nothing of an allocator: what it draws of a
//! schedule the proved `Machine` and `Entities` answered (`replayed`), and which line of a trace is
//! red the proved `Comparer` says (`traced`).

mod band;
mod followed;
mod label;
mod layout;
mod legend;
mod options;
mod picture;
mod replayed;
mod schedule;
mod state;
mod svg;
mod timeline;
mod trace;
mod traced;

pub(crate) use schedule::schedule_if_asked;
pub(crate) use trace::trace_if_asked;
