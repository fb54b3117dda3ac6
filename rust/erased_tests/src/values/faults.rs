//! How the faults of schedules, requests, queues, sync points and frames read, and what a system
//! makes of one.

use crate::commands::ReserveError;
use crate::handles::OutOfMemory;
use crate::reserving::Refused;
use crate::running::FrameFault;
use crate::traces::{Cause, ReadFault};
use crate::worlds::{Report, SyncFault};

const SPACE: ReserveError = ReserveError::Space { wanted: 3, left: 2 };

const QUOTA: ReserveError = ReserveError::Quota { left: 1 };

#[test]
fn texts_of_the_faults_of_a_schedule() {
    let line = ReadFault::Line {
        line: 13,
        cause: Cause::Number,
    };
    assert_eq!(line.to_string(), "line 13 names no event");
    assert_eq!(ReadFault::Memory.to_string(), "out of memory");
}

#[test]
fn texts_of_refusals() {
    let space = Refused::Space { wanted: 7, left: 3 };
    assert_eq!(space.to_string(), "7 wanted and 3 left");
    let quota = Refused::Quota {
        left: 1_099_511_627_775,
    };
    assert_eq!(quota.to_string(), "the quota left is 1099511627775");
}

#[test]
fn a_refusal_ends_no_system() {
    assert_eq!(SPACE.or_memory(), Ok(()));
    assert_eq!(QUOTA.or_memory(), Ok(()));
}

#[test]
fn want_of_memory_ends_a_system() {
    assert_eq!(ReserveError::Memory.or_memory(), Err(OutOfMemory));
}

#[test]
fn texts_of_the_faults_of_a_queue() {
    assert_eq!(SPACE.to_string(), "3 wanted and 2 left");
    assert_eq!(QUOTA.to_string(), "the quota left is 1");
    assert_eq!(ReserveError::Memory.to_string(), "out of memory");
}

fn at_command(command: usize, system: usize) -> SyncFault {
    SyncFault::Memory {
        system,
        command,
        done: 7,
        so_far: Report {
            born: Vec::new(),
            faults: Vec::new(),
        },
    }
}

/// A sync point that stopped, without queues.
fn stopped(fault: SyncFault) -> FrameFault {
    FrameFault::Sync {
        fault,
        queues: Vec::new(),
    }
}

#[test]
fn texts_of_the_faults_of_a_sync_point() {
    assert_eq!(
        SyncFault::FlushMemory.to_string(),
        "out of memory for the flush"
    );
    let command = "out of memory at command 5 of system 3";
    assert_eq!(at_command(5, 3).to_string(), command);
}

#[test]
fn texts_of_the_faults_of_a_frame() {
    assert_eq!(
        FrameFault::<OutOfMemory>::Memory.to_string(),
        "out of memory before any system ran"
    );
    assert_eq!(
        FrameFault::<OutOfMemory>::Lost(None).to_string(),
        "out of memory while the systems ran"
    );
    assert_eq!(
        FrameFault::Lost(Some("no road")).to_string(),
        "a system stopped: no road"
    );
    let flush = "the sync point stopped: out of memory for the flush";
    assert_eq!(stopped(SyncFault::FlushMemory).to_string(), flush);
    let command = "the sync point stopped: out of memory at command 3 of system 5";
    assert_eq!(stopped(at_command(3, 5)).to_string(), command);
}
