//! The programs `spawnrun` and `tracecheck`, which cargo builds with the feature `programs`.

use crate::drawing;
use crate::kit::programs::rt::HostRuntime;
use std::process::ExitCode;

/// Runs `spawnrun` with the arguments of the process. The page of `spawnrun` says what it does.
///
/// If the first argument is `draw`, hand-written code draws a schedule. All other arguments go to
/// the proved `main`.
pub fn spawnrun() -> ExitCode {
    drawing::schedule_if_asked(HostRuntime).unwrap_or_else(|| crate::spawnrun::main(HostRuntime))
}

/// Runs `tracecheck` with the arguments of the process. The page of `tracecheck` says what it does.
///
/// If an argument is `--draw`, hand-written code draws what differs. All other arguments go to the
/// proved `main`.
pub fn tracecheck() -> ExitCode {
    drawing::trace_if_asked(HostRuntime).unwrap_or_else(|| crate::tracecheck::main(HostRuntime))
}
