//! Printing: on standard output with its errors, and for people on standard error.

use std::io::{self, BufWriter, ErrorKind, StdoutLock, Write};

use crate::failure::Failure;

/// Prints what `lines` writes.
pub fn print(lines: impl FnOnce(&mut BufWriter<StdoutLock>) -> io::Result<()>) -> Result<(), Failure> {
    let mut out = BufWriter::with_capacity(1 << 16, io::stdout().lock());
    lines(&mut out).and_then(|()| out.flush()).map_err(|error| match error.kind() {
        ErrorKind::BrokenPipe => Failure::Quiet,
        _ => Failure::Error(format!("standard output: {error}")),
    })
}

/// Says something on standard error. If that fails there is nobody left to tell.
pub fn say(words: &str) {
    let _ = io::stderr().write_all(words.as_bytes());
}
