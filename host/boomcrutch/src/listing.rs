//! The listing (document 01, "One listing in full"), of a text of any size, from its tables.

use std::io::{self, Write};

use proved::{cells, entries, Cell, Entry, Part, Path, ReadAnswer};

use crate::rooms::Rooms;

/// Writes the listing of a text that was read.
pub fn write_listing(out: &mut impl Write, text: &[u8], rooms: &Rooms, answer: &ReadAnswer) -> io::Result<()> {
    writeln!(out, "cells {} entries {}", answer.cells, answer.entries)?;
    let mut left = entries(&rooms.entries, answer.entries);
    for cell in cells(&rooms.cells, answer.cells) {
        write_cell(out, text, &cell)?;
        for entry in left.by_ref().take(cell.entries) {
            write_entry(out, text, &entry)?;
        }
    }
    Ok(())
}

/// "`C` gives type and path (`.` for the top, `*` as itself)."
fn write_cell(out: &mut impl Write, text: &[u8], cell: &Cell) -> io::Result<()> {
    let path = match cell.path {
        Path::Top => b".",
        Path::Star => b"*",
        Path::Path(part) => part.of(text),
    };
    out.write_all(b"C ")?;
    out.write_all(cell.type_text.of(text))?;
    out.write_all(b" ")?;
    out.write_all(path)?;
    out.write_all(b"\n")
}

/// "Other lines: group, kind, edge, end, edge, end, values; names as written".
fn write_entry(out: &mut impl Write, text: &[u8], entry: &Entry) -> io::Result<()> {
    write!(out, "{} {} {} ", entry.group.0 as char, entry.kind.keyword(), entry.edge1.word())?;
    write_end(out, text, entry.end1)?;
    write!(out, " {} ", entry.edge2.word())?;
    write_end(out, text, entry.end2)?;
    for value in entry.values() {
        out.write_all(b" ")?;
        write_value(out, value)?;
    }
    out.write_all(b"\n")
}

/// "`-` for a missing edge or end"
fn write_end(out: &mut impl Write, text: &[u8], end: Option<Part>) -> io::Result<()> {
    out.write_all(end.map_or(b"-", |part| part.of(text)))
}

/// "`_` for absent"
pub fn write_value(out: &mut impl Write, value: [Option<i64>; 3]) -> io::Result<()> {
    for (number, colon) in value.into_iter().zip(["", ":", ":"]) {
        match number {
            Some(number) => write!(out, "{colon}{number}")?,
            None => write!(out, "{colon}_")?,
        }
    }
    Ok(())
}
