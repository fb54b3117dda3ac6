//! The program `spawnrun`.
#![forbid(unsafe_code)]

fn main() -> std::process::ExitCode {
    forgeni::programs::spawnrun()
}
