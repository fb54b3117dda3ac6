// Made of crates/ent_script/src/frames.rt by rust/erase. It isn't edited by hand.

use alloc::vec::Vec;
use crate::kit::vec::FallibleVec;
use crate::scripts::at::At;
use crate::scripts::cause::{Cause, ScriptCause};
use crate::scripts::fields::{Fields, read_fields};
use crate::scripts::format::Format;
use crate::scripts::frame::Frame;
use crate::scripts::kind::{Kind, kind_of};
use crate::scripts::names::Names;
use crate::scripts::operation::Operation;
use crate::scripts::part_fault::PartFault;
use crate::scripts::parts::{binding, bundle, bundle_or_none, count, removed, target};
use crate::scripts::passing::pass_value;
use crate::scripts::read_fault::ReadFault;
use crate::scripts::share::Share;
use crate::scripts::sizes::{FRAMES, OPERATIONS, SYSTEMS};
use crate::scripts::streaming::{begins_array, begins_object, fault_of_array};
use crate::scripts::system::System;
use crate::handles::OutOfMemory;
use crate::kit::programs::json::Reader;
#[inline]
fn operation_of_kind(
    components: &Names<'_>,
    bound: &Names<'_>,
    before: Option<usize>,
    fields: &Fields<'_>,
    kind: Kind,
) -> Result<Operation, PartFault>
    // requires { length components.now ≤ most_components }
    // ensures { ReadsPart result (of_fields components.now bound.now before fields.now kind) }
{
    match kind {
        Kind::Spawn => {
            let bundle = bundle(components, fields.spawn.as_ref())?;
            let binds = binding(bound, fields.binds.as_ref())?;
            Ok(Operation::Spawn { bundle, binds })
        }
        Kind::SpawnMany => {
            let count = count(fields.spawn_many.as_ref())?;
            let bundle = bundle_or_none(components, fields.with.as_ref())?;
            let binds = binding(bound, fields.binds.as_ref())?;
            Ok(Operation::SpawnMany {
                count,
                bundle,
                binds,
            })
        }
        Kind::Insert => {
            let bundle = bundle(components, fields.insert.as_ref())?;
            let target = target(components, bound, before, fields.on.as_ref())?;
            Ok(Operation::Insert { bundle, target })
        }
        Kind::Remove => {
            let component = removed(components, fields.remove.as_ref())?;
            let target = target(components, bound, before, fields.on.as_ref())?;
            Ok(Operation::Remove { component, target })
        }
        Kind::Despawn => {
            let target = target(components, bound, before, fields.despawn.as_ref())?;
            Ok(Operation::Despawn { target })
        }
    }
}

/// An operation of a system whose earlier operations bind these names. A birth that it names is of
/// a frame before the one that is said.
#[inline]
fn operation(
    components: &Names<'_>,
    bound: &Names<'_>,
    before: Option<usize>,
    fields: &Fields<'_>,
) -> Result<Operation, PartFault>
    // requires { length components.now ≤ most_components }
    // ensures { (ms : Members) → AreFields fields.now ms
    //     → ReadsPart result (operation_of components.now bound.now before (object ms)) }
{
    let kind = kind_of(fields).ok_or(Cause::Shape)?;
    operation_of_kind(components, bound, before, fields, kind)
}

/// Adds the name that an operation binds, if it binds one.
#[inline]
fn bind<'a>(bound: &mut Names<'a>, fields: &Fields<'a>) -> Result<(), OutOfMemory>
    // ensures { OnOk result ((ms : Members) → AreFields fields.now ms
    //     → bound.new ≡ with_part bound.old (bound_name (object ms))) }
{
    let Some(part) = fields.binds.as_ref() else {
        return Ok(());
    };
    let Some(name) = part.name() else {
        return Ok(());
    };
    bound.add(name)
}

#[inline]
fn fault_at(at: At, cause: Cause) -> ReadFault
    // ensures { result ≡ fault.Operation at.frame at.system at.operation cause }
{
    ReadFault::Operation {
        frame: at.frame,
        system: at.system,
        operation: at.operation,
        cause,
    }
}

/// The operation with this number in its system.
#[inline]
fn operation_at(
    format: Format,
    components: &Names<'_>,
    bound: &Names<'_>,
    at: At,
    fields: &Fields<'_>,
) -> Result<Operation, ReadFault>
    // requires { length components.now ≤ most_components }
    // ensures { (ms : Members) → AreFields fields.now ms
    //     → ReadsAs result (at_operation at.frame at.system at.operation
    //     (operation_of components.now bound.now (births_before format at.frame) (object ms))) }
{
    let before = format.births_before(at.frame);
    match operation(components, bound, before, fields) {
        Ok(operation) => Ok(operation),
        Err(PartFault::Memory) => Err(ReadFault::Memory),
        Err(PartFault::Refused(cause)) => Err(fault_at(at, cause)),
    }
}

/// The operation that comes next. The name that it binds is added.
#[inline]
fn next_operation<'a>(
    format: Format,
    components: &Names<'_>,
    bound: &mut Names<'a>,
    at: At,
    reader: &mut Reader<'a>,
    depth: usize,
) -> Result<Operation, ReadFault>
    // requires { length components.now ≤ most_components }
    // ensures value { (d : Data) (rest : List SpecToken)
    //     → converted of_json (value depth reader.old) ≡ Some (d, rest)
    //     → Streams result reader.new (at_operation at.frame at.system at.operation
    //     (operation_of components.now bound.old (births_before format at.frame) d)) rest }
    // ensures binds { OnOk result ((d : Data) (rest : List SpecToken)
    //     → converted of_json (value depth reader.old) ≡ Some (d, rest)
    //     → bound.new ≡ with_part bound.old (bound_name d)) }
    // ensures passes { OnOk result (after_value depth reader.old ≡ Some reader.new) }
    // ensures shorter { OnOk result (length reader.new < length reader.old) }
    // ensures no_longer { length reader.new ≤ length reader.old }
{
    if !begins_object(reader, depth)? {
        return Err(fault_at(at, Cause::Shape));
    }
    let fields = read_fields(reader, depth - 1)?;
    let operation = operation_at(format, components, bound, at, &fields)?;
    bind(bound, &fields)?;
    Ok(operation)
}

/// The operations of a system, of which the bracket was taken. Each may use the names that those
/// before it bind.
#[inline]
fn operations(
    format: Format,
    components: &Names<'_>,
    frame: usize,
    system: usize,
    reader: &mut Reader<'_>,
    depth: usize,
) -> Result<System, ReadFault>
    // requires { length components.now ≤ most_components }
    // ensures value { (n : ℕ) (ds : Items) (rest : List SpecToken)
    //     → converted of_items (items (value depth) n reader.old) ≡ Some (ds, rest)
    //     → Streams result reader.new (system_of format components.now frame system (array ds))
    //     rest }
    // ensures passes { OnOk result (after_items depth reader.old ≡ Some reader.new) }
    // ensures shorter { OnOk result (length reader.new ≤ length reader.old) }
    // ensures no_longer { length reader.new ≤ length reader.old }
{
    let limit = ReadFault::System { frame, system };
    let mut bound = Names::new();
    let mut operations = Vec::new();
    let mut number = 0;
    'operations: while !reader.take_end_array() {
        if number == OPERATIONS {
            return Err(fault_of_array(reader, depth, 0, limit, limit));
        }
        let at = At {
            frame,
            system,
            operation: number,
        };
        match next_operation(format, components, &mut bound, at, reader, depth) {
            Ok(operation) => operations.push_fallibly(operation)?,
            Err(fault) => {
                return Err(fault_of_array(reader, depth, OPERATIONS - 1 - number, fault, limit));
            }
        }
        number += 1;
    }
    Ok(System::new(operations))
}

/// The system that comes next.
#[inline]
fn system(
    format: Format,
    components: &Names<'_>,
    frame: usize,
    number: usize,
    reader: &mut Reader<'_>,
    depth: usize,
) -> Result<System, ReadFault>
    // requires { length components.now ≤ most_components }
    // ensures value { (d : Data) (rest : List SpecToken)
    //     → converted of_json (value depth reader.old) ≡ Some (d, rest)
    //     → Streams result reader.new (system_of format components.now frame number d) rest }
    // ensures passes { OnOk result (after_value depth reader.old ≡ Some reader.new) }
    // ensures shorter { OnOk result (length reader.new < length reader.old) }
    // ensures no_longer { length reader.new ≤ length reader.old }
{
    if !begins_array(reader, depth)? {
        return Err(ReadFault::System {
            frame,
            system: number,
        });
    }
    operations(format, components, frame, number, reader, depth - 1)
}

/// The system that comes next, if the share has it. It passes over others, and then returns one
/// without operations.
#[inline]
fn system_by(
    format: Format,
    components: &Names<'_>,
    share: Share,
    frame: usize,
    number: usize,
    reader: &mut Reader<'_>,
    depth: usize,
) -> Result<System, ReadFault>
    // requires { length components.now ≤ most_components }
    // ensures value { (d : Data) (rest : List SpecToken)
    //     → converted of_json (value depth reader.old) ≡ Some (d, rest)
    //     → Streams result reader.new (system_by share format components.now frame number d) rest }
    // ensures passes { OnOk result (after_value depth reader.old ≡ Some reader.new) }
    // ensures shorter { OnOk result (length reader.new < length reader.old) }
    // ensures no_longer { length reader.new ≤ length reader.old }
{
    if share.has(frame, number) {
        return system(format, components, frame, number, reader, depth);
    }
    pass_value(reader, depth)?;
    Ok(System::new(Vec::new()))
}

/// The systems of a frame, of which the bracket was taken.
#[inline]
fn systems(
    format: Format,
    components: &Names<'_>,
    share: Share,
    frame: usize,
    reader: &mut Reader<'_>,
    depth: usize,
) -> Result<Frame, ReadFault>
    // requires { length components.now ≤ most_components }
    // ensures value { (n : ℕ) (ds : Items) (rest : List SpecToken)
    //     → converted of_items (items (value depth) n reader.old) ≡ Some (ds, rest)
    //     → Streams result reader.new (frame_by share format components.now frame
    //     (array ds)) rest }
    // ensures passes { OnOk result (after_items depth reader.old ≡ Some reader.new) }
    // ensures shorter { OnOk result (length reader.new ≤ length reader.old) }
    // ensures no_longer { length reader.new ≤ length reader.old }
{
    let limit = ReadFault::Frame { frame };
    let mut systems = Vec::new();
    let mut number = 0;
    'systems: while !reader.take_end_array() {
        if number == SYSTEMS {
            return Err(fault_of_array(reader, depth, 0, limit, limit));
        }
        match system_by(
            format, components, share, frame, number, reader, depth,
        ) {
            Ok(system) => systems.push_fallibly(system)?,
            Err(fault) => {
                return Err(fault_of_array(reader, depth, SYSTEMS - 1 - number, fault, limit));
            }
        }
        number += 1;
    }
    Ok(Frame::new(systems))
}

/// The frame that comes next.
#[inline]
fn frame(
    format: Format,
    components: &Names<'_>,
    share: Share,
    number: usize,
    reader: &mut Reader<'_>,
    depth: usize,
) -> Result<Frame, ReadFault>
    // requires { length components.now ≤ most_components }
    // ensures value { (d : Data) (rest : List SpecToken)
    //     → converted of_json (value depth reader.old) ≡ Some (d, rest)
    //     → Streams result reader.new (frame_by share format components.now number d) rest }
    // ensures passes { OnOk result (after_value depth reader.old ≡ Some reader.new) }
    // ensures shorter { OnOk result (length reader.new < length reader.old) }
    // ensures no_longer { length reader.new ≤ length reader.old }
{
    if !begins_array(reader, depth)? {
        return Err(ReadFault::Frame { frame: number });
    }
    systems(format, components, share, number, reader, depth - 1)
}

/// The frames of a script with these components, of which the bracket was taken.
#[inline]
fn frames_inside(
    format: Format,
    components: &Names<'_>,
    share: Share,
    reader: &mut Reader<'_>,
    depth: usize,
) -> Result<Vec<Frame>, ReadFault>
    // requires { length components.now ≤ most_components }
    // ensures value { (n : ℕ) (ds : Items) (rest : List SpecToken)
    //     → converted of_items (items (value depth) n reader.old) ≡ Some (ds, rest)
    //     → StreamsList result reader.new (frames_by share format components.now
    //     (Some (array ds))) rest }
    // ensures passes { OnOk result (after_items depth reader.old ≡ Some reader.new) }
    // ensures shorter { OnOk result (length reader.new ≤ length reader.old) }
    // ensures no_longer { length reader.new ≤ length reader.old }
{
    let limit = ReadFault::Script(ScriptCause::Frames);
    let mut frames = Vec::new();
    let mut number = 0;
    'frames: while !reader.take_end_array() {
        if number == FRAMES {
            return Err(fault_of_array(reader, depth, 0, limit, limit));
        }
        match frame(format, components, share, number, reader, depth) {
            Ok(frame) => frames.push_fallibly(frame)?,
            Err(fault) => {
                return Err(fault_of_array(reader, depth, FRAMES - 1 - number, fault, limit));
            }
        }
        number += 1;
    }
    Ok(frames)
}

/// The frames of a script with these components.
#[inline]
pub(super) fn frames(
    format: Format,
    components: &Names<'_>,
    share: Share,
    reader: &mut Reader<'_>,
    depth: usize,
) -> Result<Vec<Frame>, ReadFault>
    // requires { length components.now ≤ most_components }
    // ensures value { (d : Data) (rest : List SpecToken)
    //     → converted of_json (value depth reader.old) ≡ Some (d, rest)
    //     → StreamsList result reader.new (frames_by share format components.now (Some d)) rest }
    // ensures passes { OnOk result (after_value depth reader.old ≡ Some reader.new) }
    // ensures shorter { OnOk result (length reader.new < length reader.old) }
    // ensures no_longer { length reader.new ≤ length reader.old }
{
    if !begins_array(reader, depth)? {
        return Err(ReadFault::Script(ScriptCause::Frames));
    }
    frames_inside(format, components, share, reader, depth - 1)
}
