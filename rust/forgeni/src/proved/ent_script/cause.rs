// Made of crates/ent_script/src/cause.rt by rust/erase. It isn't edited by hand.

/// What is wrong with a script outside its frames: the first of these that applies.
#[derive(Clone, Copy, Debug, PartialEq, Eq, Hash)]
pub enum ScriptCause {
    /// It isn't an object.
    Top,
    /// A key is not one of the five.
    Key,
    /// `format` is present and is neither 1 nor 2.
    Format,
    /// `slots` is present and isn't a whole number from 1 to 4,294,967,295.
    Slots,
    /// `generations` is present and isn't a whole number from 1 to 2,147,483,647.
    Generations,
    /// `components` isn't a list of at most 256 different names.
    Components,
    /// `frames` isn't a list of at most 1,000 elements.
    Frames,
}

impl ScriptCause {
    /// The word that names it, as `top` or `components`.
    ///
    /// <details><summary>Contract</summary>
    ///
    /// <code style="display: block; tab-size: 4; white-space: pre-wrap">// In the words of [contracts](crate::contracts):
    /// ensures { result.now ≡ script_cause_text self }
    /// </code>
    ///
    /// </details>
    #[inline]
    pub fn text(self) -> &'static str {
        match self {
            ScriptCause::Top => "top",
            ScriptCause::Key => "key",
            ScriptCause::Format => "format",
            ScriptCause::Slots => "slots",
            ScriptCause::Generations => "generations",
            ScriptCause::Components => "components",
            ScriptCause::Frames => "frames",
        }
    }
}

/// What is wrong with an operation: the first test that it fails. The tests are made in the order
/// of `specs/Reading`: its form, then the value of its own key, then the others'.
#[derive(Clone, Copy, Debug, PartialEq, Eq, Hash)]
pub enum Cause {
    /// It isn't an object, or its keys are those of no operation.
    Shape,
    /// A bundle isn't an object.
    Bundle,
    /// A component isn't one of the script's.
    Component,
    /// The value of a component isn't a whole number.
    Value,
    /// A count isn't a whole number from 0 to 65,536.
    Count,
    /// An `as` isn't a name, or no earlier operation of the system has the `as` of a target.
    Name,
    /// A target isn't an object of one key and a string, or the key isn't one of the format's:
    /// three, and `birth` in format 2.
    Target,
    /// The handle of a target is not the text of one.
    Handle,
    /// The birth of a target is not the text of one in an earlier frame.
    Birth,
}

impl Cause {
    /// The word that names it, as `shape` or `component`.
    ///
    /// <details><summary>Contract</summary>
    ///
    /// <code style="display: block; tab-size: 4; white-space: pre-wrap">// In the words of [contracts](crate::contracts):
    /// ensures { result.now ≡ operation_cause_text self }
    /// </code>
    ///
    /// </details>
    #[inline]
    pub fn text(self) -> &'static str {
        match self {
            Cause::Shape => "shape",
            Cause::Bundle => "bundle",
            Cause::Component => "component",
            Cause::Value => "value",
            Cause::Count => "count",
            Cause::Name => "name",
            Cause::Target => "target",
            Cause::Handle => "handle",
            Cause::Birth => "birth",
        }
    }
}
