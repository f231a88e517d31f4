//! The command `boomcrutch`: it opens files ([`files`], [`system`]), lends the memory, prints and writes.

mod commands;
mod failure;
mod files;
mod help;
mod output;
mod system;

use std::process::ExitCode;

use failure::Failure;

/// 0 for success, 1 for a refusal, 2 for anything wrong with arguments or files.
fn main() -> ExitCode {
    match commands::run(std::env::args_os().skip(1).collect()) {
        Ok(()) => ExitCode::SUCCESS,
        Err(Failure::Refused) => ExitCode::from(1),
        Err(failure) => {
            output::say(&failure.words());
            ExitCode::from(2)
        }
    }
}
