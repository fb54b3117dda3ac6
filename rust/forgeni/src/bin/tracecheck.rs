//! The program `tracecheck`.
#![forbid(unsafe_code)]

fn main() -> std::process::ExitCode {
    forgeni::programs::tracecheck()
}
